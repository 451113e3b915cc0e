"""Random small blocks: the map and the counts of check against what the proved library answers.

The library counts the cells that an entry or a removal takes from the root's tree, the edition and the label alone, so the same
changes in a block with plenty of room tell how many a change takes that is refused in the small one.
"""

import random
import shutil
import sys

import retold
from tool import ask, checked, taken

ALPHABETS = ["AB", "ABCDEFGHIJ", "0123456789ABCDEFGHIJKLMNOPQRSTUVWXYZabcdefghijklmnopqrstuvwxyz"]
SMALL, LARGE, TRIAL, KEPT = "small.block", "large.block", "trial.block", "kept.block"
NO_ROOM = 7
ROOM = "256"


class Blocks:
    """A small block, the same changes in a large one, and the tables that both must show."""

    def __init__(self, cells, edition, random_numbers):
        self.random, self.present, self.slots, self.refused, self.changes = random_numbers, {}, {}, 0, 0
        self.alphabet = self.random.choice(ALPHABETS)
        for file, size in ((SMALL, str(cells)), (LARGE, ROOM)):
            self.fresh(file, size, str(edition))

    @staticmethod
    def fresh(file, size, edition):
        """A fresh block in the place of any older one."""
        ask("new", "fresh.block", size, edition)
        shutil.move("fresh.block", file)

    def six_children(self):
        """Six labels that differ in one character, so that one more makes a split; what they begin with may be a label too."""
        stem = self.random.choice(["", "X"])
        for character in self.random.sample(ALPHABETS[-1], 6):
            self.enter(stem + character)
        if stem:
            self.enter(stem)

    def enter(self, label):
        """Enters a label with some day."""
        date = f"20{self.random.randint(10, 99)}-{self.random.randint(10, 12)}-{self.random.randint(10, 28)}"
        if self.change("enter", label, date):
            self.present[label] = date

    def label(self):
        """A label, most often a short one, and often one that goes on where another ends."""
        longest = self.random.choice([1, 2, 2, 3, 4, 6, 48])
        start = self.random.choice(["", *self.present])[:longest - 1]
        count = self.random.randint(1, longest - len(start))
        return start + "".join(self.random.choice(self.alphabet) for _ in range(count))

    def step(self):
        """One change, by chance: most are entries."""
        choice = self.random.random()
        if choice < 0.7:
            self.enter(self.label())
        elif choice < 0.85 and self.present:
            label = self.random.choice(sorted(self.present))
            if self.change("remove", label):
                del self.present[label]
        else:
            self.slot_step(self.random.choice("12"))

    def slot_step(self, slot):
        """Marks a slot that is not in use; else goes back to it or drops it."""
        command = self.random.choice(["back", "drop"]) if slot in self.slots else "mark"
        for file in (SMALL, LARGE):
            ask(command, file, slot)
        if command == "mark":
            self.slots[slot] = dict(self.present)
        elif command == "back":
            self.present = dict(self.slots[slot])
        else:
            del self.slots[slot]

    def change(self, command, *words):
        """An entry or a removal: 7 exactly when it takes more cells than check says are free."""
        free = checked(SMALL)[1]
        shutil.copy(LARGE, TRIAL)
        needed = taken(ask(command, TRIAL, *words)[1])
        shutil.copy(SMALL, KEPT)
        status, printed = ask(command, SMALL, *words, allowed=[NO_ROOM])
        assert (status == NO_ROOM) == (needed > free), f"{command} {words} takes {needed} of {free} cells and ends with {status}"
        self.changes += 1
        if status == NO_ROOM:
            self.refused += 1
            self.room_told(free, printed)
            return False
        assert taken(printed) == needed, f"{command} {words} takes {taken(printed)} cells here and {needed} in a larger block"
        shutil.move(TRIAL, LARGE)
        if self.random.random() < 0.4:
            self.newly_reached(needed, command, *words)
        return True

    def room_told(self, free, printed):
        """A no for room tells the cells that check says are free, and for each slot how many more they are when it is dropped."""
        freed = []
        for slot in sorted(self.slots):
            shutil.copy(SMALL, TRIAL)
            ask("drop", TRIAL, slot)
            freed.append(f"slot {slot} frees {checked(TRIAL)[1] - free}")
        dropping = f"; dropping {', '.join(freed)}" if freed else ""
        told = f": {free} {'is' if free == 1 else 'are'} free{dropping}\n"
        assert printed.endswith(told), f"the no is {printed} and not {told}"

    @staticmethod
    def newly_reached(needed, command, *words):
        """With the old root in a slot, a change adds just the cells that it takes to those used."""
        ask("mark", KEPT, "3")
        before = checked(KEPT)[0]
        if ask(command, KEPT, *words, allowed=[NO_ROOM])[0] == 0:
            after = checked(KEPT)[0]
            assert after == before + needed, f"{command} {words} takes {needed} cells, and {after} are used where {before} were"

    def compare(self):
        """What the map says of the cells is the table of each root, and its count of labels is that of the library."""
        tables = {"present": self.present, **{f"slot {slot}": table for slot, table in self.slots.items()}}
        for file in (SMALL, LARGE):
            assert retold.tables(ask("map", file, "--cells")[1]) == tables, f"the map of {file} does not show {tables}"
            assert checked(file)[2] == len(self.present)


def main():
    """So many blocks, of 4 to 40 cells and both editions, with so many steps each; half of them begin close to a split."""
    blocks, steps = map(int, sys.argv[1:])
    changes = refused = 0
    for seed in range(blocks):
        numbers = random.Random(seed)
        wide = seed % 4 == 1 or seed % 4 == 2
        cells = numbers.randint(12, 40) if wide else numbers.randint(4, numbers.randint(4, 40))
        pair = Blocks(cells, 1 + seed % 2, numbers)
        if wide:
            pair.six_children()
        for _ in range(steps):
            pair.step()
        pair.compare()
        changes, refused = changes + pair.changes, refused + pair.refused
    assert 0 < refused < changes, "both answers must come"
    print(f"{blocks} random blocks: {changes} changes, {refused} of them refused for room, agree with the library")


if __name__ == "__main__":
    main()
