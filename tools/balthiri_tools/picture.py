"""The picture of a chart: SVG, and PNG by rsvg-convert."""

from __future__ import annotations

import shutil
import subprocess
import textwrap
from typing import Dict, List, Optional, Tuple
from xml.sax.saxutils import escape

from .chart import Chart, Form, Line, Mark
from .command import BadInput

MOST_PIXELS = 30000
MARGIN = 10
PIXELS_A_LETTER = 6.4  # about, of the font below
LETTER_SIZE = 12
LEGEND_ROW, CAPTION_ROW, TITLE_ROW, ROW = 20, 20, 30, 42
ROWS_BETWEEN_TITLES = 30
SAMPLE = 44
ABOVE, ARROW, BELOW = 14, 20, 35  # where label, arrow and name of a line stand in its row
HEAD = 9
LOOP = 26


def _pixels(text: str) -> float:
    return len(text) * PIXELS_A_LETTER


def _colour(mark: Mark) -> str:
    return mark.value or "black"


class _Drawing:
    """The elements of a picture, one behind another."""

    def __init__(self) -> None:
        self.elements: List[str] = []

    def text(self, x: float, y: float, text: str, colour: str = "black", anchor: str = "middle", more: str = "") -> None:
        """A text on a white ground, so that no line runs through it."""
        left = x - (_pixels(text) / 2 if anchor == "middle" else 0)
        self.elements.append(f'<rect x="{left - 2:.1f}" y="{y - 11:.1f}" width="{_pixels(text) + 4:.1f}" height="14" fill="white" stroke="none"/>')
        self.elements.append(f'<text x="{x:.1f}" y="{y:.1f}" fill="{colour}" stroke="none" text-anchor="{anchor}"{more}>{escape(text)}</text>')

    def line(self, x: float, y: float, to_x: float, to_y: float, colour: str, dashes: str = "", width: float = 1.4) -> None:
        dashed = f' stroke-dasharray="{dashes}"' if dashes else ""
        self.elements.append(f'<line x1="{x:.1f}" y1="{y:.1f}" x2="{to_x:.1f}" y2="{to_y:.1f}" stroke="{colour}" stroke-width="{width}"{dashed}/>')

    def head(self, x: float, y: float, is_to_right: bool, colour: str) -> None:
        back = x - HEAD if is_to_right else x + HEAD
        self.elements.append(f'<polygon points="{x:.1f},{y:.1f} {back:.1f},{y - 4:.1f} {back:.1f},{y + 4:.1f}" fill="{colour}" stroke="none"/>')

    def cross(self, x: float, y: float, colour: str) -> None:
        for way in (5, -5):
            self.line(x - 5, y - way, x + 5, y + way, colour, width=2)

    def box(self, x: float, y: float, width: float, height: float, colour: str, dashes: str = "", fill: str = "white") -> None:
        dashed = f' stroke-dasharray="{dashes}"' if dashes else ""
        self.elements.append(f'<rect x="{x:.1f}" y="{y:.1f}" width="{width:.1f}" height="{height:.1f}" fill="{fill}" stroke="{colour}"{dashed}/>')

    def arrow(self, x: float, to_x: float, y: float, form: Form, colour: str) -> None:
        """An arrow from left to right or back: dotted while on its way, with a cross where it fails."""
        is_to_right = to_x > x
        ends = to_x if form is not Form.FAILS else to_x + (-8 if is_to_right else 8)
        self.line(x, y, ends, y, colour, "4 4" if form is Form.ON_ITS_WAY else "")
        if form is Form.FAILS:
            self.cross(ends, y, colour)
        else:
            self.head(to_x, y, is_to_right, colour)

    def loop(self, x: float, y: float, colour: str) -> None:
        """An arrow back to where it begins."""
        self.elements.append(f'<path d="M {x:.1f} {y - 4:.1f} h {LOOP} v 7 H {x + HEAD:.1f}" fill="none" stroke="{colour}" stroke-width="1.4"/>')
        self.head(x, y + 3, False, colour)


def _wrapped(text: str, width: float) -> List[str]:
    return textwrap.wrap(text, max(20, int((width - 2 * MARGIN) / PIXELS_A_LETTER)))


class Picture:
    """The picture of a chart: its legend, the titles of its columns, now and then again, and a row for each line."""

    def __init__(self, chart: Chart) -> None:
        self.chart, self.titles = chart, chart.columns()
        self.whole_width = chart.width()
        step = self.whole_width / max(1, len(self.titles))
        self.places: Dict[str, float] = {column: (at + 0.5) * step for at, column in enumerate(self.titles)}
        self.legend = self._legend_rows()
        self.height = self._height()

    def _legend_rows(self) -> "List[List[Tuple[float, Form, Mark, str]]]":
        """What the legend says of the forms that the chart has, each with its place in its row."""
        used = {(it.form, it.mark) for it in self.chart.lines}
        rows: "List[List[Tuple[float, Form, Mark, str]]]" = []
        at = float(self.whole_width)
        for (form, mark), text in self.chart.legend.items():
            pixels = SAMPLE + 8 + _pixels(text) + 16
            if (form, mark) in used:
                if at + pixels > self.whole_width:
                    rows.append([])
                    at = MARGIN
                rows[-1].append((at, form, mark, text))
                at += pixels
        return rows

    def _height(self) -> int:
        captions = sum(len(_wrapped(it.caption, self.whole_width)) for it in self.chart.lines)
        titles = 1 + (len(self.chart.lines) - 1) // ROWS_BETWEEN_TITLES
        return 2 * MARGIN + len(self.legend) * LEGEND_ROW + titles * TITLE_ROW + captions * CAPTION_ROW + len(self.chart.lines) * ROW

    def svg(self, width: Optional[int]) -> bytes:
        """The picture, so many pixels wide; without a width each label has room."""
        drawing, y = _Drawing(), MARGIN + len(self.legend) * LEGEND_ROW
        for x in self.places.values():
            drawing.line(x, y + TITLE_ROW - 8, x, self.height - MARGIN, "#909090", width=1)
        self._draw_legend(drawing)
        for at, line in enumerate(self.chart.lines):
            if at % ROWS_BETWEEN_TITLES == 0:
                self._draw_titles(drawing, y)
                y += TITLE_ROW
            for text in _wrapped(line.caption, self.whole_width):
                drawing.box(0, y, self.whole_width, CAPTION_ROW, "none", fill="#eeeeee")
                drawing.elements.append(f'<text x="{MARGIN}" y="{y + 14}" fill="black" stroke="none" font-style="italic">{escape(text)}</text>')
                y += CAPTION_ROW
            self._draw(drawing, line, y)
            y += ROW
        return self._framed(drawing.elements, width)

    def _framed(self, elements: List[str], width: Optional[int]) -> bytes:
        high = self.pixels_high(width)
        size = f'width="{width or self.whole_width}" height="{high}" viewBox="0 0 {self.whole_width} {self.height}"'
        front = f'<svg xmlns="http://www.w3.org/2000/svg" {size} font-family="Helvetica, Arial, sans-serif" font-size="{LETTER_SIZE}">'
        ground = f'<rect width="{self.whole_width}" height="{self.height}" fill="white" stroke="none"/>'
        return "\n".join([front, ground, *elements, "</svg>"]).encode() + b"\n"

    def pixels_high(self, width: Optional[int]) -> int:
        return max(1, round(self.height * (width or self.whole_width) / self.whole_width))

    def _draw_legend(self, drawing: _Drawing) -> None:
        for row, entries in enumerate(self.legend):
            y = MARGIN + row * LEGEND_ROW + 6
            for x, form, mark, text in entries:
                self._draw_sample(drawing, x, y, form, mark)
                drawing.text(x + SAMPLE + 8, y + 4, text, _colour(mark), "start")

    @staticmethod
    def _draw_sample(drawing: _Drawing, x: float, y: float, form: Form, mark: Mark) -> None:
        if form in (Form.BOX, Form.NOTE):
            drawing.box(x + 8, y - 6, SAMPLE - 16, 12, _colour(mark), "3 3" if form is Form.NOTE else "")
        elif form is Form.ACROSS:
            drawing.line(x, y, x + SAMPLE, y, _colour(mark), "6 4")
        else:
            drawing.arrow(x, x + SAMPLE, y, form, _colour(mark))

    def _draw_titles(self, drawing: _Drawing, y: float) -> None:
        for column, title in self.titles.items():
            drawing.text(self.places[column], y + 16, title, more=' font-weight="bold"')

    def _draw(self, drawing: _Drawing, line: Line, y: float) -> None:
        colour, at = _colour(line.mark), y + ARROW
        if line.form is Form.ACROSS:
            drawing.line(MARGIN, at, self.whole_width - MARGIN, at, colour, "6 4")
            self._draw_names(drawing, line, self.whole_width / 2, y + ABOVE, y + BELOW)
            return
        x, to_x = self.places[line.source], self.places[line.target]
        if line.form in (Form.BOX, Form.NOTE):
            width = max(map(_pixels, (line.label, line.name))) + 16
            drawing.box(x - width / 2, y + 3, width, ROW - 8, colour, "3 3" if line.form is Form.NOTE else "")
            above, below = (17, 31) if line.name else (24, 0)
            self._draw_names(drawing, line, x, y + above, y + below)
            return
        self._draw_names(drawing, line, (x + to_x) / 2, y + ABOVE, y + BELOW)
        if x == to_x:
            drawing.loop(x, at, colour)
        else:
            drawing.arrow(x, to_x, at, line.form, colour)

    @staticmethod
    def _draw_names(drawing: _Drawing, line: Line, x: float, above: float, below: float) -> None:
        drawing.text(x, above, line.label, _colour(line.mark))
        if line.name:
            drawing.text(x, below, line.name, _colour(line.mark))


def png_of(svg: bytes) -> bytes:
    convert = shutil.which("rsvg-convert")
    if convert is None:
        raise BadInput("rsvg-convert is not installed (of Debian: apt-get install librsvg2-bin); a picture in SVG needs nothing")
    ran = subprocess.run([convert, "--unlimited", "-f", "png"], input=svg, stdout=subprocess.PIPE, stderr=subprocess.PIPE, check=False)
    if ran.returncode != 0:
        raise BadInput("rsvg-convert: " + " ".join(ran.stderr.decode("utf-8", "replace").split()))
    return ran.stdout
