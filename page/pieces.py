"""The page's pieces, and the page made of them: one file that names no other."""

import base64
import gzip
import hashlib
import json
import re
from pathlib import Path

from common import Bad
from crates import TOP
from refusals import rows_of

HERE = Path(__file__).resolve().parent
PAGE = TOP / "docs" / "papr.html"
MODULES = HERE / "js"
FIRST_MODULE = "page.js"
IMPORT = re.compile(r'^import \{[^}]*\} from "\./([\w.]+)";\n', re.MULTILINE)
RULES, SETTINGS, RUN_LINES = "### Refusals", "### Configuration lines", "### Run lines"
CODES = "### Codes"
RULES_OF_SETS = "## What `set` reads and writes"
KINDS = ("trace", "judged", "set")
FIRST_EXAMPLES = ("sharing.trace", "first.trace")  # what the page opens with stands first


def rows_below(formats: str, heading: str) -> list[list[str]]:
    """The rows of the tables below a heading of FORMATS.md, of which there are some."""
    rows = list(rows_of(formats, heading))
    if not rows:
        raise Bad(f"FORMATS.md has no table below `{heading}`")
    return rows


def formats_of(formats: str) -> dict[str, list[list[str]]]:
    """What the page has of FORMATS.md: reasons with their rules, lines with their forms, and codes with their names."""

    def rules(heading: str) -> list[list[str]]:
        return [[word.strip("`"), rule] for word, rule, *_ in rows_below(formats, heading)]

    return {
        "rules": rules(RULES),
        "setRules": rules(RULES_OF_SETS),
        "settings": [[row[0], row[3]] for row in rows_below(formats, SETTINGS)],
        "runLines": [[row[0]] for row in rows_below(formats, RUN_LINES)],
        "codes": [row[:2] for row in rows_below(formats, CODES)],
    }


def in_order(name: str, found: list[str]) -> None:
    """Puts a module behind all that it imports."""
    if name in found:
        return
    path = MODULES / name
    if not path.is_file():
        raise Bad(f"there is no module {path.relative_to(TOP)}")
    for used in IMPORT.findall(path.read_text(encoding="utf-8")):
        in_order(used, found)
    found.append(name)


def script() -> str:
    """All modules as one script: each in a function of its own, which gives what it exports."""
    order: list[str] = []
    in_order(FIRST_MODULE, order)
    parts = ['"use strict";', "const modules = {};"]
    for name in order:
        text = (MODULES / name).read_text(encoding="utf-8")
        taken = re.findall(r'^import (\{[^}]*\}) from "\./([\w.]+)";', text, re.MULTILINE)
        exports = re.findall(r"^export (?:async )?(?:const|class|function) (\w+)", text, re.MULTILINE)
        body = re.sub(r"^export ", "", IMPORT.sub("", text), flags=re.MULTILINE).strip()
        begin = "".join(f'  const {names} = modules["{used}"];\n' for names, used in taken)
        end = f"  return {{ {', '.join(exports)} }};"
        parts.append(f'modules["{name}"] = (() => {{\n{begin}{body}\n{end}\n}})();')
    whole = "\n".join(parts)
    if "</" + "script" in whole:
        raise Bad("a module would end the script that it stands in")
    return whole


def encoded(data: bytes) -> str:
    """Bytes as text that HTML leaves alone."""
    return base64.b64encode(data).decode("ascii")


def examples() -> dict[str, str]:
    """Each trace, text to judge and set of examples/, packed; the boot as it lies there."""
    folder = TOP / "examples"
    found = [path for kind in KINDS for path in sorted(folder.glob(f"*.{kind}"))]
    found.sort(key=lambda it: [*FIRST_EXAMPLES, it.name].index(it.name))
    packed = {path.name: encoded(gzip.compress(path.read_bytes(), mtime=0)) for path in found}
    boot = folder / "linux-boot.trace.xz"
    return {**packed, "linux-boot.trace": encoded(boot.read_bytes())}


def hash_of(text: str) -> str:
    """How the page's policy names the one script, or the one style, that may be in it."""
    return "sha256-" + encoded(hashlib.sha256(text.encode()).digest())


def page_of(module: bytes, made: str) -> str:
    """The page that holds a module, and says what it was made with."""
    formats = (TOP / "docs" / "FORMATS.md").read_text(encoding="utf-8")
    data = json.dumps({"formats": formats_of(formats), "examples": examples()}, ensure_ascii=False)
    style, code = f"\n{(HERE / 'page.css').read_text(encoding='utf-8').strip()}\n", f"\n{script()}\n"
    pieces = {
        "STYLE": style,
        "STYLESUM": hash_of(style),
        "MADE": made,
        "MODULE": encoded(gzip.compress(module, mtime=0)),
        "DATA": data.replace("</", "<\\/"),
        "SCRIPT": code,
        "SCRIPTSUM": hash_of(code),
    }
    text = (HERE / "page.html").read_text(encoding="utf-8")
    return re.sub(r"\{\{([A-Z]+)\}\}", lambda found: pieces[found[1]], text)


def module_in(page: str) -> bytes:
    """The module that a page holds."""
    found = re.search(r'<script type="application/octet-stream" id="module">([^<]*)</script>', page)
    if found is None:
        raise Bad("the page has no module")
    return gzip.decompress(base64.b64decode(found[1]))


def made_in(page: str) -> str:
    """What a page says it was made with."""
    found = re.search(r"<p>(Made with [^<]*)</p>", page)
    if found is None:
        raise Bad("the page doesn't say what it was made with")
    return found[1]


def unpacked(page: str) -> tuple[str, bytes, dict[str, bytes]]:
    """A page with what is packed in it unpacked: how it is packed goes by the machine's zlib."""
    module = module_in(page)
    found = re.search(r'<script type="application/json" id="data">(.*)</script>', page)
    if found is None:
        raise Bad("the page has no examples")
    data = json.loads(found[1])
    texts = {name: base64.b64decode(packed) for name, packed in data["examples"].items()}
    texts = {name: gzip.decompress(it) if it[:2] == b"\x1f\x8b" else it for name, it in texts.items()}
    rest = page.replace(found[1], json.dumps(data["formats"]))
    return re.sub(r'(id="module">)[^<]*', r"\1", rest), module, texts
