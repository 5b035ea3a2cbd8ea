"""A copy of the kit, made of links, whose rattle is timed.

rt finds its kit by its own real path, so it and what it loads are copies. rt keeps what it proved beside its kit, here beside the copy: a run in a new
folder proves all from nothing, and the gate's own is left alone.
"""

from __future__ import annotations

import os
import shlex
import shutil
import sys
from pathlib import Path

from .command import BadInput

COPIED = ("rt", "rtlib.py")
TIMED = Path(__file__).resolve().parent / "timed_rattle.py"


def kit_of_rt() -> Path:
    """The folder of the kit whose rt is found."""
    rt = shutil.which("rt")
    if rt is None:
        raise BadInput("rt is not installed: it is the command of the Rattle kit")
    return Path(rt).resolve().parent.parent


def _make_copy(kit: Path, copy: Path) -> None:
    (copy / "bin").mkdir(parents=True)
    for it in kit.iterdir():
        if it.name != "bin":
            (copy / it.name).symlink_to(it)
    for it in (kit / "bin").iterdir():
        if it.name in COPIED:
            shutil.copy2(it, copy / "bin" / it.name)
        elif it.name != "rattle":
            (copy / "bin" / it.name).symlink_to(it)
    shutil.copy2(TIMED, copy / "bin" / TIMED.name)
    words = [sys.executable or "python3", "-IS", str(copy / "bin" / TIMED.name), str(kit / "bin" / "rattle")]
    rattle = copy / "bin" / "rattle"
    rattle.write_text(f'#!/bin/sh\nexec {shlex.join(words)} "$@"\n')
    rattle.chmod(0o755)


def timed_rt(folder: Path) -> Path:
    """The rt of the copy in the folder, which is made unless it is there: its files' times are in the names of what is kept."""
    copy = folder / "kit"
    if not copy.is_dir():
        try:
            _make_copy(kit_of_rt(), copy)
        except BaseException:
            shutil.rmtree(copy, ignore_errors=True)
            raise
    return copy / "bin" / "rt"
