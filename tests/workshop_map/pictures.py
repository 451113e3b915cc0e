"""The picture of a block: well-formed, with one square for each cell, each square as the signs of the map say, and a legend."""

import os
import re
import shutil
import sys
import xml.etree.ElementTree as ElementTree

import retold
from tool import ask

KINDS = "CSHMEPQR"
HOLDERS = ["present", "both", "slots"]
SVG = "{http://www.w3.org/2000/svg}"

# A name with every sign that means something in the file of a picture, and one that may not stand in it at all.
AWKWARD = "a&b <c> \"d\" 'e' \u00e4\x01.block"


def signs(text):
    """The signs of the cells, from the third part of a map."""
    return "".join("".join(line.split()[1:]) for line in text.split("\n\n")[2].splitlines())


def wanted_class(sign):
    """What a square must be by its sign: its colour's letter, and whether slots alone hold it."""
    if sign in "0T":
        return ["cell", "fixed"]
    return ["cell", "free"] if sign == "." else ["cell", sign.upper(), "slots" if sign.islower() else "here"]


def check_square(cell, group, sign, side):
    """One square: its number and holders in its title, its letter, its colour and border."""
    title, (square,), letter = group.find(f"{SVG}title").text, group.findall(f"{SVG}rect"), group.find(f"{SVG}text").text
    assert title.startswith(f"cell {cell}: ") and letter == sign, f"cell {cell} is {letter} and not {sign}: {title}"
    assert square.get("width") == square.get("height") == side, f"cell {cell} is no square like the others"
    classes = group.get("class").split()
    plain = ["here" if name in ("present", "both") else name for name in classes]
    assert plain == wanted_class(sign), f"cell {cell} is drawn as {classes} and not as {sign}"
    assert (square.get("rx") != "0") == sign.islower(), f"cell {cell} has the wrong border"
    if sign.isalpha() and sign != "T":
        held = re.search(r"held by ", title) and "present" in title
        by_slots = any(f"slot {slot}" in title for slot in (1, 2, 3))
        wanted = {(True, False): "present", (True, True): "both", (False, True): "slots"}[bool(held), by_slots]
        assert classes[-1] == wanted, f"cell {cell} is drawn as held by {classes[-1]}: {title}"


def ticked(group):
    """The slots that a square has ticks for, each at its place from left to right."""
    ticks = [tick for tick in group.findall(f"{SVG}path") if "tick" in tick.get("class").split()]
    places = [float(re.match(r"M(\S+) ", tick.get("d")).group(1)) for tick in ticks]
    assert places == sorted(set(places)), "ticks lie over each other or in the wrong order"
    return [int(tick.get("class").split()[1].removeprefix("slot")) for tick in ticks]


def check_ticks(groups, text):
    """The ticks of each square are the slots that the lines of the map say hold its cell."""
    held = retold.cell_lines(text)[0]
    for cell, group in enumerate(groups):
        slots = [slot for slot in (1, 2, 3) if (f"slot {slot}", cell) in held]
        assert ticked(group) == slots, f"cell {cell} has ticks for {ticked(group)} and is held by {slots}"


def check_legend(root):
    """The legend has each kind, each holder and the ticks; each kind has a fill of its own, and holders look different."""
    keys = [group for group in root.iter(f"{SVG}g") if group.get("class").split()[0] == "key"]
    names = [tuple(group.get("class").split()[1:]) for group in keys]
    others, holders = [("free",), ("fixed",), ("fixed",)], [("C", holder) for holder in HOLDERS]
    wanted = [(kind, "present") for kind in KINDS] + others + holders + [("C", "both")]
    assert names == wanted, f"the legend has {names} and not {wanted}"
    assert ticked(keys[-1]) == [1, 2, 3], "the legend has no ticks"
    style = dict(re.findall(r"^(\S+) rect\{(.*)\}$", root.find(f"{SVG}style").text, re.MULTILINE))
    fills = [re.search(r"fill:([^;]*)", style[f".{name}"]).group(1) for name in [*KINDS, "free", "fixed"]]
    assert len(set(fills)) == len(fills), f"two kinds have the same fill: {fills}"
    round_corners = {names[place][-1]: group.find(f"{SVG}rect").get("rx") for place, group in enumerate(keys)}
    looks = [(style.get(f".{holder}"), round_corners[holder] != "0") for holder in HOLDERS]
    assert len({look[0] for look in looks}) == len(set(looks)) == 3, f"two holders look the same: {looks}"


def check_picture(file):
    """The picture of the block of a file against its map."""
    picture = file + ".svg"
    text = ask("map", file, "--cells", "--svg", picture)[1]
    root = ElementTree.parse(picture).getroot()
    groups = [group for group in root.iter(f"{SVG}g") if group.get("class").split()[0] == "cell"]
    shown = signs(text)
    assert len(groups) == len(shown) == os.path.getsize(file) // 32, f"{file} has {len(shown)} signs and {len(groups)} squares"
    side = groups[0].find(f"{SVG}rect").get("width")
    places = {(group.find(f"{SVG}rect").get("x"), group.find(f"{SVG}rect").get("y")) for group in groups}
    assert len(places) == len(groups), f"squares of {file} lie over each other"
    for cell, (group, sign) in enumerate(zip(groups, shown)):
        check_square(cell, group, sign, side)
    check_ticks(groups, text)
    check_legend(root)
    assert root.find(f"{SVG}title").text == os.path.basename(file).replace("\x01", "\ufffd")
    with open(picture, encoding="utf-8") as written:
        assert "href" not in written.read(), f"{picture} rests on something outside"


def main():
    """The pictures of the files named, one of them also under an awkward name."""
    files = sys.argv[1:]
    shutil.copy(files[0], AWKWARD)
    for file in [*files, AWKWARD]:
        check_picture(file)
    print(f"{len(files) + 1} pictures show what the maps do")


if __name__ == "__main__":
    main()
