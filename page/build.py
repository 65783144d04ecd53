#!/usr/bin/env python3
"""The page as one file, which opens without a server.

    build.py MODULE.wasm > PAGE.html
    build.py - > PAGE.html         without the module: the page then shows reports of hevc_trace
"""
import base64
import json
import pathlib
import sys

import layout

HERE = pathlib.Path(__file__).resolve().parent
SCRIPTS = ("library", "stream", "report", "drawing", "timeline", "panels", "saving", "page")


def page(module=None, report=None):
    """The page with the bytes of a module, or with the text of a report in it."""
    text = (HERE / "index.html").read_text()
    known = "const LAYOUT = " + json.dumps(layout.layout(), separators=(",", ":")) + ";\n"
    parts = {
        "STYLE": (HERE / "style.css").read_text(),
        "MODULE": base64.b64encode(module).decode() if module else "",
        "GIVEN": base64.b64encode(report.encode()).decode() if report else "",
        "SCRIPTS": known + "".join((HERE / f"{name}.js").read_text() for name in SCRIPTS),
    }
    for name, part in parts.items():
        text = text.replace(f"@{name}@", part)
    return text


if __name__ == "__main__":
    [words] = sys.argv[1:]
    sys.stdout.write(page(None if words == "-" else pathlib.Path(words).read_bytes()))
