"""The tables of a block, read from nothing but the lines of its map: what the map says of the cells is then all there and true."""

import re


def cell_lines(text):
    """What the lines of the cells say: for each table and cell its kind and contents, and for each table its root."""
    lines = text.split("\n\n")[-1].splitlines()
    kind_at, held_at, holds_at = (lines[0].index(word) for word in ("kind", "held by", "holds"))
    cells, roots = {}, {}
    for line in lines[1:]:
        number, kind = line[:kind_at].strip(), line[kind_at:held_at].strip()
        holders, holds = line[held_at:holds_at].strip(), line[holds_at:].strip()
        if kind == "trailer":
            roots = dict(part.split(" -> ") for part in holds.split(", "))
        for holder in filter(None, holders.split(", ")):
            assert (holder, int(number)) not in cells, f"{holder} reads cell {number} in two ways"
            cells[holder, int(number)] = (kind, holds)
    return cells, roots


class Teller:
    """Goes through the table of one root by what the lines say."""

    def __init__(self, cells, holder):
        self.cells, self.holder, self.pairs, self.visited = cells, holder, {}, []

    def target(self, words, label):
        """Follows the words for where a link leads."""
        value = re.fullmatch(r"value (\S+)", words)
        if value:
            self.pair(label, value.group(1))
            return
        number, name = re.fullmatch(r"cell (\d+) \((.*)\)", words).groups()
        kind, holds = self.cells[self.holder, int(number)]
        self.visited.append(int(number))
        assert kind == {"mid": "split mid", "end": "split end", "split": "split head"}.get(name, name.split(" ")[0]) or (
            name == "prefix" and kind.startswith("prefix+")
        ), f"cell {number} is {kind} and not {name}"
        assert not name.startswith("chain from") or f" {name[6:]}, then" in holds, f"cell {number} is not read {name}"
        self.contents(kind, holds, label)

    def pair(self, label, value):
        """Notes a label with its value; none comes twice."""
        assert label not in self.pairs, f"{label} comes twice"
        self.pairs[label] = value

    def contents(self, kind, holds, label):
        """Follows the contents of a cell."""
        if kind.startswith("prefix"):
            value, holds = re.fullmatch(r"value (\S+) over (.*)", holds).groups()
            self.pair(label, value)
        if kind in ("chain", "prefix+chain"):
            run, first, then = re.fullmatch(r"(\S+) from (..), then (.*)", holds).groups()
            assert len(run) == 0x1C - int(first, 16), holds
            self.target(then, label + run)
        elif kind == "prefix":
            self.target(holds, label)
        else:
            for part in holds.split(", "):
                character, words = part.split(" -> ")
                self.target(words, label if character.startswith("hex:") else label + character)


def tables(text):
    """The table of each root by the lines of a map; each reaches just the cells that the lines say it holds."""
    cells, roots = cell_lines(text)
    found = {}
    for holder, root in roots.items():
        teller = Teller(cells, holder)
        if root != "empty table":
            teller.target(root, "")
        held = sorted(number for name, number in cells if name == holder)
        assert sorted(teller.visited) == held, f"{holder} reaches {sorted(teller.visited)} and holds {held}"
        found[holder] = teller.pairs
    return found
