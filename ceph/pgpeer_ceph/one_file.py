"""The page of a report as one file: what it shows and how, with nothing that is loaded from elsewhere."""

import base64
import gzip
import hashlib
import json
import pkgutil
from html import escape
from typing import Any, Dict


def part(name: str) -> str:
    """A file of the package, also where the package is one file itself."""
    found = pkgutil.get_data(__package__ or "pgpeer_ceph", f"page/{name}")
    assert found is not None
    return found.decode()


def hash_of(text: str) -> str:
    return base64.b64encode(hashlib.sha256(text.encode()).digest()).decode()


def page(title: str, about: str, data: Dict[str, Any]) -> str:
    """The page. Browsers run and load nothing but the script and the style that stand in it, by their hashes."""
    text = json.dumps(data, separators=(",", ":"), allow_nan=False)
    packed = base64.b64encode(gzip.compress(text.encode(), 9, mtime=0)).decode()
    script, style = part("page.js"), part("page.css")
    words = {"title": escape(title), "about": escape(about), "data": packed, "script": script, "style": style,
             "script-hash": hash_of(script), "style-hash": hash_of(style)}
    pieces = part("page.html").split("{")
    found = [pieces[0]]
    for piece in pieces[1:]:
        name, rest = piece.split("}", 1)
        found += [words[name], rest]
    return "".join(found)
