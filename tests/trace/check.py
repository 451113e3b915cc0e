"""Checks a trace row by row: each file that a row cites is there, and each name is declared in that very file.

`crate/File name` is a declaration of specs/File.antt or proofs/File.antt, in the column of definitions of specs alone;
`crate/file.rt name` one of src/file.rt; `crate/small_letters` an edit; `tests/file name` a function of that file;
`samples_run/stdout label` the start of a line. A name with no file is declared in the file cited last before it in its
cell; one in brackets is a field of what is cited last, or of a record that its signature names, and so of every table
that is cited with it; a semicolon or a bracket ends what is cited together.
"""

import re
import sys
from functools import cache
from pathlib import Path

CRATES = {line.split(":")[0].split()[0] for line in Path("crates.txt").read_text().splitlines() if ":" in line}
PLACE = re.compile(r"[\w.]+(?:/[\w.-]+)+")
FOLDERS = {"specs", "proofs"}
# words that may stand before the name that a line of antt declares
BEFORE_NAME = {"pub", "abbrev", "unfoldable", "mutual"}
NO_NAME = {"use", "let", "module", "unfolding", "open", "λ", "in", "→", "="}
IMPORT = re.compile(r"^use Rattle\.(\w+)\.(specs|proofs)\.([\w.]+)\.\{([^}]*)\}", re.M)
RUST = r"^\s*(?:pub )?(?:unsafe )?(?:extern \"C\" )?(?:fn|struct|enum|const|static|type) (\w+)"
C_FUNCTION = r"^\w[\w *]*?\b(\w+)\([^;{]*\{"


@cache
def read(path):
    return path.read_text()


@cache
def lines_of(path):
    """The lines of an antt file without their comments, each with its indentation."""
    texts = [re.sub(r"(^|\s)--.*", "", line).rstrip() for line in read(path).splitlines()]
    return [(len(text) - len(text.lstrip()), text) for text in texts]


def names_of_line(text):
    """The names that a line of antt declares: those before its colon, or that of a record or data type."""
    words = text.split()
    while words and words[0] in BEFORE_NAME:
        words.pop(0)
    if words and words[0] in ("record", "data"):
        return words[1:2]
    names = words[: words.index(":")] if ":" in words else []
    return [] if any(name in NO_NAME or re.search(r"[(){}\[\];,]", name) for name in names) else names


@cache
def declared(path):
    """The names that a file declares."""
    if path.suffix == ".antt":
        return {name for _, text in lines_of(path) for name in names_of_line(text)}
    pattern = C_FUNCTION if path.suffix == ".c" else RUST
    return {found[1] for found in re.finditer(pattern, read(path), re.M)}


def body_of(path, name):
    """The line that declares a name, and those below it that stand further in."""
    lines = lines_of(path)
    for at, (depth, text) in enumerate(lines):
        if name in names_of_line(text):
            below = lines[at + 1 :]
            end = next((i for i, (deep, later) in enumerate(below) if later and deep <= depth), len(below))
            return [text, *(later for _, later in below[:end])]
    return []


def has_field(path, name, field):
    """Whether a field is one of a record, or of a record that the signature of a name uses."""
    body = body_of(path, name)
    if any(field in names_of_line(text) for text in body[1:]):
        return True
    words = set(re.findall(r"[\w·-]+", " ".join(body)))
    homes = {word: path for word in words & declared(path)}
    for crate, folder, module, names in IMPORT.findall(read(path)):
        home = Path("crates", crate, folder, module.replace(".", "/") + ".antt")
        homes |= {word: home for word in words & {word.strip() for word in names.split(",")} if home.is_file()}
    bodies = [body_of(home, word) for word, home in homes.items() if word != name]
    records = [body for body in bodies if body and re.search(r"\brecord\b", body[0])]
    return any(field in names_of_line(text) for body in records for text in body[1:])


def files_of(place, folders):
    """The files that a place stands for."""
    crate, _, rest = place.partition("/")
    if crate not in CRATES:
        paths = [Path(place), Path(place) / "run"]
    elif rest.endswith(".rt"):
        paths = [Path("crates", crate, "src", rest)]
    elif rest == "stdout":
        paths = [Path("crates", crate, rest)]
    elif rest.rpartition("/")[2][0].isupper():
        paths = [Path("crates", crate, folder, rest + ".antt") for folder in folders]
    else:
        paths = [Path("crates", crate, "must-fail", rest + ".edit")]
    return [path for path in paths if path.is_file()]


def has_name(path, name):
    """Whether a file declares a name; of printed output, whether a line starts with it."""
    if path.name == "stdout":
        return any(line.startswith(name + " ") for line in read(path).splitlines())
    return path.suffix in (".antt", ".rt", ".rs", ".c") and name in declared(path)


def in_brackets(text):
    """Whether a cell's text ends inside brackets; what is quoted by backticks has none."""
    plain = re.sub(r"`[^`]*`", "", text)
    return plain.count("(") > plain.count(")")


def faults_of_cell(cell, folders, bare_names=True):
    """What a cell cites in vain."""
    files, group, bracketed, end = [], [], False, 0
    for quoted in re.finditer(r"`([^`]+)`", cell):
        text = quoted[1]
        place, _, name = text.partition(" ")
        inside = in_brackets(cell[: quoted.start()])
        if ";" in cell[end : quoted.start()] or bracketed and not inside:
            group = []
        bracketed, end = inside, quoted.end()
        if PLACE.fullmatch(place):
            files = files_of(place, folders)
            group.append((files, name))
            if not files:
                yield f"{text}: there is no such file"
            elif name and not any(has_name(path, name) for path in files):
                yield f"{text}: that file does not declare it"
        elif bare_names and text not in FOLDERS:
            if inside:
                tables = [cited for cited in group[:-1] if cited[1].endswith(("-table", "_table"))]
                for paths, name in tables + group[-1:]:
                    if not any(path.suffix == ".antt" and has_field(path, name, text) for path in paths):
                        yield f"{text}: no field of {name}"
            else:
                group.append((files, text))
                if not any(has_name(path, text) for path in files):
                    yield f"{text}: not declared in the file cited before it"


def faults_of_samples(cell):
    """Samples that are no line of the computed list or of the printed one."""
    printed, computed = Path("crates/samples_run/stdout"), Path("crates/samples/specs/Samples.antt")
    for list_of_letters in re.findall(r"\bsamples? ([A-Z](?:(?:, | to )[A-Z])*)\b", cell):
        for letter in re.findall("[A-Z]", list_of_letters):
            if not has_name(printed, letter) or f"line {letter} " not in read(computed):
                yield f"sample {letter}: there is no such line"


def main():
    rows, faults = 0, []
    for number, line in enumerate(Path(sys.argv[1]).read_text().splitlines(), 1):
        if not line.startswith("|"):
            faults += [(number, fault) for fault in faults_of_cell(line, ["specs", "proofs"], bare_names=False)]
            continue
        rows += 1
        for column, cell in enumerate(line.split("|")[2:-1]):
            folders = ["specs"] if column == 0 else ["specs", "proofs"]
            faults += [(number, fault) for fault in [*faults_of_cell(cell, folders), *faults_of_samples(cell)]]
    for number, fault in faults:
        print(f"trace: line {number}: {fault}")
    if faults:
        sys.exit(1)
    print(f"trace: ok, {rows} rows")


main()
