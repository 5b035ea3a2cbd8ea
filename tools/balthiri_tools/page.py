"""A page of a run: one HTML file with its style, its script and its data, which asks no network."""

from __future__ import annotations

import base64
import hashlib
import html
import json
from pathlib import Path
from string import Template
from typing import Optional

from .page_data import Run, data_of
from .page_tshark import Told

HERE = Path(__file__).resolve().parent
SCRIPTS = ("page_run.js", "page_words.js", "page_rows.js", "page_ladder.js", "page_details.js", "page_views.js")


def in_script(value: object) -> str:
    """A value as JSON that ends no element of HTML and begins no comment, whatever text is in it."""
    text = json.dumps(value, separators=(",", ":"))
    return text.replace("<", "\\u003c").replace(">", "\\u003e").replace("&", "\\u0026")


def _hash(text: str) -> str:
    """How a page's policy names the one style or script that is let in."""
    return f"'sha256-{base64.b64encode(hashlib.sha256(text.encode()).digest()).decode()}'"


def page_of(run: Run, told: Optional[Told]) -> str:
    """The page as a text of HTML."""
    style = (HERE / "page.css").read_text(encoding="utf-8")
    script = '"use strict";\n' + "\n".join((HERE / it).read_text(encoding="utf-8") for it in SCRIPTS)
    data = data_of(run)
    data["tshark"] = None if told is None else {"infos": told.infos, "malformed": told.malformed}
    trees = None if told is None else {"lines": told.lines, "trees": told.trees}
    policy = f"default-src 'none'; style-src {_hash(style)}; script-src {_hash(script)}; base-uri 'none'; form-action 'none'"
    parts = {"title": html.escape(run.name), "policy": policy, "style": style, "script": script}
    return Template((HERE / "page.html").read_text(encoding="utf-8")).substitute(parts, data=in_script(data), trees=in_script(trees))
