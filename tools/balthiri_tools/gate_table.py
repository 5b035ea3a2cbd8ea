"""The tables of a run of the gate, and of two."""

from __future__ import annotations

from typing import Dict, List, Optional, Tuple

from .gate_log import PARTS, Run

Key = Tuple[str, str]
SECONDS_A_MINUTE = 60
NO_HEADING = "a log that does not tell how it was run"


def _heading(run: Run) -> str:
    return f"{run.heading or NO_HEADING}; seconds of processor time, user and system"


def _signed(seconds: float) -> str:
    return f"{round(seconds, 1) + 0.0:+.1f}"  # (and no minus in front of nothing)


def _row(name: str, values: List[str], end: str = "") -> str:
    return f"{name:18}" + "".join(f"{it:>9}" for it in values) + end


def _dearest(title: str, seconds: Dict[Key, float], most: Optional[int]) -> List[str]:
    """The dearest of these, each with its crate; all where there is no most."""
    found = sorted(seconds.items(), key=lambda it: (-it[1], it[0]))[:most]
    return ["", title, *(f"{spent:9.1f}  {crate} {name}" for (crate, name), spent in found)] if found else []


def table_of(run: Run, most: Optional[int]) -> str:
    """A line for each crate, the dearest first, and the sum in minutes; then the dearest edits and functions."""
    lines = [_heading(run), "", _row("crate", [*PARTS, "all"], "  edits tried")]
    for crate in sorted(run.seconds, key=lambda it: (-run.of_crate(it), it)):
        values = [*(run.seconds[crate][it] for it in PARTS), run.of_crate(crate)]
        lines.append(_row(crate, [f"{it:.1f}" for it in values], f"{run.tried.get(crate, 0):13}"))
    minutes = [*(run.of_part(it) for it in PARTS), run.whole()]
    lines.append(_row("minutes", [f"{it / SECONDS_A_MINUTE:.1f}" for it in minutes], f"{sum(run.tried.values()):13}"))
    lines += _dearest("dearest edits", run.edits, most)
    lines += _dearest("dearest functions, in the check that the edits of their crate begin with", run.functions, most)
    return "\n".join(lines) + "\n"


def _changes(title: str, before: Dict[Key, float], after: Dict[Key, float], most: Optional[int]) -> List[str]:
    """What changed most of what both runs have, and what one of them lacks."""
    both = [(after.get(it, 0.0) - before.get(it, 0.0), it) for it in {*before, *after}]
    found = sorted(both, key=lambda it: (-abs(it[0]), it[1]))[:most]
    lines = [f"{_signed(change):>9}  {key[0]} {key[1]}{_only(key, before, after)}" for change, key in found]
    return ["", title, *lines] if lines else []


def _only(key: Key, before: Dict[Key, float], after: Dict[Key, float]) -> str:
    return " (new)" if key not in before else " (gone)" if key not in after else ""


def compared(before: Run, after: Run, most: Optional[int]) -> str:
    """A line for each crate of either run, what changed most first: before, after, and the change by part; then the sum in minutes."""
    lines = [f"before: {_heading(before)}", f"after:  {_heading(after)}", "", _row("crate", ["before", "after", "change", *PARTS])]
    change = {it: after.of_crate(it) - before.of_crate(it) for it in {*before.seconds, *after.seconds}}
    nothing = dict.fromkeys(PARTS, 0.0)
    for crate in sorted(change, key=lambda it: (-abs(change[it]), it)):
        was, now = before.seconds.get(crate, nothing), after.seconds.get(crate, nothing)
        end = " (new)" if crate not in before.seconds else " (gone)" if crate not in after.seconds else ""
        ends = [f"{before.of_crate(crate):.1f}", f"{after.of_crate(crate):.1f}", _signed(change[crate])]
        lines.append(_row(crate, ends + [_signed(now[it] - was[it]) for it in PARTS], end))
    sums = [after.whole() - before.whole(), *(after.of_part(it) - before.of_part(it) for it in PARTS)]
    ends = [f"{it.whole() / SECONDS_A_MINUTE:.1f}" for it in (before, after)]
    lines.append(_row("minutes", ends + [_signed(it / SECONDS_A_MINUTE) for it in sums]))
    lines += _changes("edits that changed most", before.edits, after.edits, most)
    lines += _changes("functions that changed most", before.functions, after.functions, most)
    return "\n".join(lines) + "\n"
