"""A message sequence chart: its columns and lines, and its text in the language of mscgen."""

from __future__ import annotations

from dataclasses import dataclass, field
from enum import Enum
from typing import Dict, List, Optional, Tuple

AGENTS, STORE, GATEWAY, SUBSCRIBER, MME = "agents", "store", "gateway", "subscriber", "mme"
PEERS = {GATEWAY: "gateway", SUBSCRIBER: "subscriber server"}
PIXELS_A_LETTER = 7.5
PIXELS_BETWEEN_LABELS = 20
LEAST_PIXELS_A_COLUMN = 110


def station_column(station: int) -> str:
    return f"station{station}"


def replica_column(replica: int) -> str:
    return f"replica{replica}"


class Form(Enum):
    """How a line is drawn: an arrow of mscgen, a box on a column, or a line across all columns."""

    ARRIVES = "=>"
    ON_ITS_WAY = ">>"
    FAILS = "-x"
    BOX = "box"
    NOTE = "note"
    ACROSS = "---"


class Mark(Enum):
    """What is marked by a colour; the label says it too."""

    NONE = ""
    STOP = "red"
    STALE = "#d00000"
    REPEAT = "#b06000"
    VOID = "#707070"


@dataclass(frozen=True)
class Line:
    """A line of a chart. A box and a note have one column; a line across has none. What is to be said before the line is its caption."""

    label: str
    name: str
    form: Form
    source: str = ""
    target: str = ""
    mark: Mark = Mark.NONE
    caption: str = ""

    def columns(self) -> List[str]:
        return [it for it in (self.source, self.target) if it]

    def text(self) -> str:
        """The line in the language of mscgen."""
        label = self.label + (f"\\n{self.name}" if self.name else "")
        colour = f', textcolour="{self.mark.value}", linecolour="{self.mark.value}"' if self.mark is not Mark.NONE else ""
        ends = f"{self.source} {self.form.value} {self.target}" if self.source else self.form.value
        caption = f'  ||| [label="{quoted(self.caption)}"];\n' if self.caption else ""
        return f'{caption}  {ends} [label="{label}"{colour}];'


def quoted(text: str) -> str:
    """The text as it stands between quotation marks in the language of mscgen."""
    return text.replace("\\", "\\\\").replace('"', '\\"')


Legend = Dict[Tuple[Form, Mark], str]


def _pixels_a_column(line: Line, places: Dict[str, int]) -> int:
    """How wide columns have to be for the label of a line, which reaches over one or more of them."""
    pixels = round(max(len(line.label), len(line.name)) * PIXELS_A_LETTER) + PIXELS_BETWEEN_LABELS
    over = [places[it] for it in line.columns()] or [0, len(places)]
    return pixels // max(1, max(over) - min(over))


@dataclass
class Chart:
    """The lines of a chart in order, between the base stations and the replicas that they name, and what each form of line says."""

    lines: List[Line]
    legend: Legend = field(default_factory=dict)

    def columns(self) -> Dict[str, str]:
        """The columns that some line has, from left to right, with their titles."""
        used = {it for line in self.lines for it in line.columns()}
        numbered = sorted(used, key=lambda it: (it.rstrip("0123456789"), len(it), it))
        titles = {it: it.replace("station", "base station ") for it in numbered if it.startswith("station")}
        titles.update({AGENTS: "agents", MME: "MME"})
        titles.update({it: it.replace("replica", "replica ") for it in numbered if it.startswith("replica")})
        titles.update({STORE: "store", **PEERS})
        return {column: title for column, title in titles.items() if column in used}

    def width(self) -> int:
        """A width in which each label has room between two columns."""
        places = {column: place for place, column in enumerate(self.columns())}
        return max(1, len(places)) * max([LEAST_PIXELS_A_COLUMN, *(_pixels_a_column(it, places) for it in self.lines)])

    def text(self, width: Optional[int]) -> str:
        """The chart in the language of mscgen."""
        columns = ", ".join(f'{column} [label="{title}"]' for column, title in self.columns().items())
        front = ["msc {", f'  width="{width or self.width()}", wordwraparcs="true";', f"  {columns};"]
        return "\n".join([*front, *(it.text() for it in self.lines), "}"]) + "\n"
