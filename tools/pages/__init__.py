"""Pages that show a run in a browser: the recording of one, and an application that one can use."""
import base64
import hashlib
import html
import json
import pathlib
import string

HERE = pathlib.Path(__file__).resolve().parent
# What a page may do: its own script runs, and no other. A source may show pictures and sounds.
POLICY = (
    "default-src 'none'; script-src 'sha256-{}'; style-src 'unsafe-inline'; connect-src 'self'; "
    "img-src * data: blob:; media-src * data: blob:; font-src * data:; "
    "base-uri 'none'; form-action 'none'"
)


def text(name: str) -> str:
    """The text of a file of this folder."""
    return (HERE / name).read_text(encoding="utf-8")


def style_of(source: pathlib.Path) -> str:
    """The style of an application: one for all, and that of a file NAME.css beside its source."""
    own = source.with_suffix(".css")
    return text("application.css") + (own.read_text(encoding="utf-8") if own.exists() else "")


def policy(script: str) -> str:
    """The policy of a page that runs this script, and no other."""
    return POLICY.format(base64.b64encode(hashlib.sha256(script.encode()).digest()).decode())


def page(kind: str, source: pathlib.Path, run: dict, **words: str) -> str:
    """A page of this kind, replay or live, which needs no other file."""
    data = json.dumps({"name": source.name, "style": style_of(source), **run})
    script = f"\nconst RUN = {data};\n".replace("<", "\\u003c")
    script += text("document.js") + text(f"{kind}.js")
    words |= {"name": source.stem.replace("_", " "), "file": source.name}
    parts = {name: html.escape(word) for name, word in words.items()}
    body = string.Template(text(f"{kind}.html")).substitute(parts)
    whole = {"body": body, "style": text("style.css"), "script": script, "policy": policy(script)}
    return string.Template(text("page.html")).substitute(parts, **whole)
