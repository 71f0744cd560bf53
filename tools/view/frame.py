"""What pages have in common: elements, colours, and the frame of a standalone HTML text that asks for nothing outside."""

import base64
import hashlib
import json
from html import escape

# The colours of all pages, light and dark, and what a page begins with.
BASE = """
:root { color-scheme: light dark; --back: #ffffff; --panel: #f6f7f9; --text: #1b1f24; --dim: #6a737d; --line: #d8dce1;
  --mark: #fff3bf; --fault: #c8102e; --t0: #1f5fbf; --t1: #a84a00; --t2: #1a7a37; --t3: #7b3fd0; --t4: #0b7285;
  --t5: #9a2a7b; --t6: #6b5b00; --t7: #4a5560; }
@media (prefers-color-scheme: dark) {
  :root { --back: #15181c; --panel: #1d2126; --text: #e4e7eb; --dim: #98a2ad; --line: #363c44; --mark: #463c12;
    --fault: #ff7a85; --t0: #7fb0ff; --t1: #f0a566; --t2: #77d08f; --t3: #c3a0ff; --t4: #66cadd; --t5: #f09ad6;
    --t6: #d6c562; --t7: #b4bec8; } }
.t0 { --c: var(--t0); } .t1 { --c: var(--t1); } .t2 { --c: var(--t2); } .t3 { --c: var(--t3); }
.t4 { --c: var(--t4); } .t5 { --c: var(--t5); } .t6 { --c: var(--t6); } .t7 { --c: var(--t7); }
* { box-sizing: border-box; }
body { margin: 0; background: var(--back); color: var(--text); font: 14px/1.35 system-ui, sans-serif; height: 100vh;
  display: flex; flex-direction: column; overflow: hidden; }
code, .cell, .source, th.at { font-family: ui-monospace, "DejaVu Sans Mono", Menlo, Consolas, monospace; }
header { padding: 10px 16px 8px; border-bottom: 1px solid var(--line); flex: none; }
h1 { font-size: 16px; margin: 0; }
h1 span { font-weight: normal; color: var(--dim); }
header p { margin: 2px 0 0; color: var(--dim); }
header .bad { color: var(--fault); font-weight: 600; }
kbd { font: 12px ui-monospace, "DejaVu Sans Mono", monospace; border: 1px solid var(--line); border-radius: 3px;
  padding: 0 4px; background: var(--panel); }
"""
COLOURS = 8


def tag(name, text, names="", **more):
    """An element. The text is HTML, what else it has is not."""
    had = "".join(f' {key.replace("_", "-")}="{escape(str(it))}"' for key, it in [("class", names), *more.items()] if it)
    return f"<{name}{had}>{text}</{name}>"


def colour(number):
    """The class with the colour of a number."""
    return f"t{number % COLOURS}"


def data_text(value):
    """A value as JSON that can stand in a page."""
    text = json.dumps(value, separators=(",", ":"))
    return text.replace("<", "\\u003c").replace(">", "\\u003e").replace("&", "\\u0026")


def digest(text):
    """What a page's policy calls an inline text."""
    return f"'sha256-{base64.b64encode(hashlib.sha256(text.encode()).digest()).decode()}'"


def document(title, style, body, data, script):
    """A whole page: its title, what its style has behind the common one, its body as HTML, its data and its script."""
    style = BASE + style
    policy = f"default-src 'none'; style-src {digest(style)}; script-src {digest(script)}"
    return (
        '<!DOCTYPE html>\n<html lang="en">\n<head>\n<meta charset="utf-8">\n'
        f'<meta http-equiv="Content-Security-Policy" content="{escape(policy, quote=False)}">\n'
        '<meta name="viewport" content="width=device-width, initial-scale=1">\n'
        f"<title>{escape(title)}</title>\n<style>{style}</style>\n</head>\n<body>\n{body}\n"
        f'<script type="application/json" id="data">{data_text(data)}</script>\n<script>{script}</script>\n</body>\n</html>\n'
    )
