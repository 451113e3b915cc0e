"""Checks that definitions and the contracts of the calls rest on no definition that is there for the code alone, that what C calls
promises what the call of the same name does, and that each definition has a line above it that says what it is."""

import re
import sys
from pathlib import Path

CALLS = {
    "crates/blocks/src/validate.rt": ["validate"],
    "crates/blocks/src/get.rt": ["get"],
    "crates/blocks/src/next.rt": ["next_key"],
    "crates/pages/src/page.rt": ["page"],
    "crates/store/src/formatting.rt": ["format"],
    "crates/store/src/inserting.rt": ["insert"],
    "crates/store/src/removing.rt": ["remove"],
    "crates/write_lists/src/write_list.rt": ["write_list"],
    "crates/snapshots/src/lib.rt": ["snapshot", "restore", "release"],
    "crates/dosing/src/verdict.rt": ["verdict"],
    "crates/firmware/src/lib.rt": ["register_insert", "register_get", "register_verdict"],
    "crates/exports/src/calls.rt": [
        "register_format",
        "register_validate",
        "register_remove",
        "register_snapshot",
        "register_restore",
        "register_release",
        "register_next_key",
    ],
    "crates/exports/src/page.rt": ["register_page"],
    "crates/exports/src/write_list.rt": ["register_write_list"],
}
DEFINITION = re.compile(r"(?:unfoldable|abbrev|pub record|pub data)\b(?! mutual)")
FUNCTION = re.compile(r"^pub (?:extern \"C\" )?fn (\w+)(\(.*?)^\{", re.M | re.S)
IMPORT = re.compile(r"^(?:ghost )?use Rattle\.\w+\.specs\.(?P<module>[\w.]+)\.\{(?P<names>[^}]*)\}", re.M)


def for_code(text):
    """The names that a file takes from the definitions that are there for the code alone."""
    found = set()
    for line in IMPORT.finditer(text):
        if line["module"].split(".")[0] == "Code":
            found |= {name.strip() for name in line["names"].split(",")}
    return found


def definitions():
    """Definitions outside specs/Code that use one inside."""
    for path in sorted(Path("crates").glob("*/specs/**/*.antt")):
        if "Code" not in path.parts and path.name not in ("Lib.antt", "Code.antt"):
            for name in sorted(for_code(path.read_text())):
                yield f"{path} uses {name}, which is there for the code alone"


def unsaid():
    """Definitions outside specs/Code with no comment above them."""
    for path in sorted(Path("crates").glob("*/specs/*.antt")):
        above = ""
        for number, line in enumerate(map(str.strip, path.read_text().split("\n")), 1):
            if DEFINITION.match(line) and not above.startswith("--"):
                yield f"{path}:{number} does not say what it defines"
            if not line.startswith("infix"):
                above = line


def contracts():
    """Calls with a precondition, with no contract, or whose contract cites a definition that is there for the code alone."""
    for file, functions in CALLS.items():
        text = Path(file).read_text()
        for function in functions:
            head = re.search(rf"^pub (?:extern \"C\" )?fn {function}\(.*?^{{", text, re.M | re.S)
            if not head or "ensures" not in head[0]:
                yield f"{file}: {function} has no contract"
            elif "requires" in head[0]:
                yield f"{file}: {function} has a precondition"
            else:
                words = set(re.findall(r"[\w-]+", head[0]))
                for name in sorted(words & for_code(text)):
                    yield f"{file}: the contract of {function} cites {name}, which is there for the code alone"


def heads(crate):
    """The parameters, result and contract of each function that a crate gives out, however they are broken into lines."""
    texts = [path.read_text() for path in Path("crates", crate, "src").glob("*.rt")]
    return {name: re.sub(r",?\s", "", head) for text in texts for name, head in FUNCTION.findall(text)}


def exported():
    """Functions for C that have not, word for word, the parameters and the contract of the call that they make."""
    for folder in sorted(Path("crates").glob("*_c")):
        calls, exports = heads(folder.name.removesuffix("_c")), heads(folder.name)
        if not exports:
            yield f"{folder}: no function for C is found"
        for name, head in exports.items():
            if calls.get(name) != head:
                yield f"{folder}: {name} has another contract than the call of that name"


found = [*definitions(), *unsaid(), *contracts(), *exported()]
for line in found:
    print(f"audit: {line}")
if found:
    sys.exit(1)
print(f"audit: ok, {sum(map(len, CALLS.values()))} calls")
