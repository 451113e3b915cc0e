"""Checks that what several documents tell is the same in each: the stack of the calls, the version, files and commands that are named."""

import re
import sys
from pathlib import Path

HEADERS = ["include/register.h", "include/register_service.h"]
# names that differ, since they mean something else in the proved code
RENAMED = {"extent": "length", "size": "next_size", "out": "next"}
DOCUMENTS = ["README.md", "CONTRIBUTING.md", "docs/FORMAT.md", "docs/CORTEX_M.md"]
STACK = re.compile(r"REGISTER_STACK_(\w+)_FEW = (\d+),\s+REGISTER_STACK_(\w+) = (\d+)")
ROW = re.compile(r"^  \| `register_(\w+)` \| ([\d,]+) \| ([\d,]+) \|$", re.M)
# a quoted path below one of the folders of the repository; one with a star stands for many
PLACE = re.compile(r"`((?:crates|docs|examples|include|tests|tools|benchmarks)/[\w./*-]+)`")


def stacks():
    """The rows of README's table of stack against those of the headers."""
    stated = [(few, call, int(a), int(b)) for name in HEADERS for few, a, call, b in STACK.findall(Path(name).read_text())]
    told = {(call, int(a.replace(",", "")), int(b.replace(",", ""))) for call, a, b in ROW.findall(Path("README.md").read_text())}
    for few, call, _, _ in stated:
        if few != call:
            yield f"the header's rows of stack for {few} and {call} stand beside each other"
    if told != {(call.lower(), a, b) for _, call, a, b in stated}:
        yield "README's table of stack is not that of the headers"


def parameters():
    """Functions of the headers whose parameters are not named, in order, as in the proved code: C itself cannot tell two numbers apart."""
    declared = {}
    for name in HEADERS:
        text = re.sub(r"/\*.*?\*/", "", Path(name).read_text(), flags=re.S)
        for function, listed in re.findall(r"\b(register_\w+)\(([^;{)]*)\);", text):
            declared[function] = [re.sub(r"\[.*", "", one).split()[-1].lstrip("*") for one in listed.split(",")]
    proved = {}
    for source in ("crates/firmware_c/src/lib.rt", "crates/exports_c/src/lib.rt"):
        for function, listed in re.findall(r"pub extern \"C\" fn (register_\w+)\((.*?)\) -> u8", Path(source).read_text(), re.S):
            names = re.findall(r"(\w+): (&(?:mut )?\[u8\])?", listed)
            proved[function] = [RENAMED.get(part, part) for name, lent in names for part in ([name, f"{name}_size"] if lent else [name])]
    for function in sorted(declared.keys() | proved.keys()):
        if declared.get(function) != proved.get(function):
            yield f"{function} has the parameters {declared.get(function)} in C and {proved.get(function)} in the proved code"


def warnings():
    """Words that the header and README owe to who links the library: on power cuts, time, other calls and the C library."""
    for document in ("README.md", "include/register.h"):
        text = " ".join(Path(document).read_text().replace(" * ", " ").split())
        for word in ("torn", "write_list" if document.endswith("h") else "write list", "fourfold", "reentrant", "memset"):
            if word not in text:
                yield f"{document} does not say '{word}'"


def versions(version):
    """The newest entry of the change log against the version."""
    newest = re.search(r"^## (\S+)$", Path("CHANGELOG.md").read_text(), re.M)
    if not re.fullmatch(r"\d+\.\d+\.\d+", version) or not newest or newest[1] != version:
        yield f"the change log does not begin with the version, {version!r}"


def places():
    """Files and folders that a document names and that are not there."""
    for document in DOCUMENTS:
        for place in PLACE.findall(Path(document).read_text()):
            if not any(Path().glob(place.rstrip("/"))):
                yield f"{document} names {place}, which is not there"


found = [*stacks(), *parameters(), *warnings(), *versions(sys.argv[1]), *places()]
for line in found:
    print(f"documents: {line}")
if found:
    sys.exit(1)
print(f"documents: ok, version {sys.argv[1]}")
