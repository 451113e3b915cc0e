"""What docs/FORMAT.md says beside its commands: files that it names are there, and its write list makes the entry that it tells of."""

import os
import re
import sys

from tool import ask

BEFORE = [("CHA", "2025-03-07"), ("A", "2025-09-30")]
ENTRY = ("5", "2028-02-29")


def bytes_of(file):
    """The bytes of a file."""
    with open(file, "rb") as block:
        return bytearray(block.read())


def main():
    """Checks the page named."""
    page = sys.argv[1]
    with open(page, encoding="utf-8") as file:
        text = file.read()
    named = sorted(set(re.findall(r"crates/\w+/specs/\w+\.antt", text)))
    for name in named:
        assert os.path.exists(os.path.join(os.path.dirname(page), "..", name)), f"{page} names {name}, which is not there"
    ask("new", "list.block", "8")
    for label, date in BEFORE:
        ask("enter", "list.block", label, date)
    made = bytes_of("list.block")
    stores = re.findall(r"\b([0-9A-F]{8}) ([0-9A-F]{8})(?=\s)", text[text.index("entry of 5 is this list"):text.index("## 14.")])
    for position, word in stores:
        made[int(position, 16):int(position, 16) + 4] = bytes.fromhex(word)
    ask("enter", "list.block", *ENTRY)
    assert len(stores) == 9 and made == bytes_of("list.block"), f"the write list of {page} does not make the entry"
    print(f"FORMAT.md: {len(named)} definitions are there, and its {len(stores)} stores make the entry")


if __name__ == "__main__":
    main()
