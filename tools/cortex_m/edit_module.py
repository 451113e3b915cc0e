"""Edits the text of a library's module so that it can be compiled for another processor than x86-64.

edit_module.py MODULE EDITED: each edit is told with its count; a text that does not look as expected is refused, and nothing is written.
"""

import re
import sys

LAYOUT = 'target datalayout = "e-m:e-p270:32:32-p271:32:32-p272:64:64-i64:64-i128:128-f80:128-n8:16:32:64-S128"\n'
TARGET = 'target triple = "x86_64-unknown-linux-gnu"\n'
PROBE = ' "probe-stack"="inline-asm" "stack-probe-size"="3072"'
PROCESSOR = ' "target-cpu"="x86-64"'

# A function that C calls: numbers of 32 and 64 bits, floats and pointers go in, one byte comes out.
ARGUMENT = r"(?:ptr|i64|i32|float) noundef %a\d+"
CALL = re.compile(rf"define noundef i8 (@(?:register|exports)_\w+)\(({ARGUMENT}(?:, {ARGUMENT})*)\)( #\d+ {{)")

# A byte and a pointer that are read as one: the module lays the pointer 8 bytes behind the byte, and where it has 32 bits it would be read
# 4 bytes behind it.
PAIR = re.compile(r"  (%r\d+) = load { i8, ptr }, ptr (%r\d+), align 8")

# What may be read or written as one: its parts stand at the same places where pointers have 32 bits.
WHOLE = re.compile(r"\b(?:load|store) ({[^}]*})")
SAME_PLACES = re.compile(r"{ (?:ptr, i64|i32, i64|i8, (?:i8|i32|i64|float)) }")

# An address as a number of 64 bits, which tells whether two places overlap; `ptrtoint` widens where pointers have 32.
ADDRESS = " = ptrtoaddr ptr "
WIDENED = " = ptrtoint ptr "

# What would mean something else where pointers have 32 bits, or on another processor.
FOREIGN = ["inttoptr", "ptrtoint", " asm ", "addrspace(", "thread_local", "x86", '"target-', '"probe-']


class Unexpected(Exception):
    """The module does not look as expected."""


def without(text, part, times):
    """The text with a part taken out that stands in it so many times; 0 stands for once or more."""
    found = text.count(part)
    if found == 0 or (times and found != times):
        raise Unexpected(f"{part.strip()} stands in the module {found} times")
    print(f"  taken out, {found} times: {part.strip()}")
    return text.replace(part, "")


def with_wide_result(line):
    """A function that C calls with its result filling the register, as the ARM convention wants it."""
    parts = CALL.fullmatch(line)
    if not parts:
        raise Unexpected(f"this function is not one that C calls with plain numbers: {line}")
    print(f"  zeroext added to the result: {parts[1]}")
    return f"define noundef zeroext i8 {parts[1]}({parts[2]}){parts[3]}"


def read_apart(pair):
    """The byte and the pointer, each read where the module lays it."""
    name, place = pair.groups()
    return (
        f"  {name}.byte = load i8, ptr {place}, align 8\n"
        f"  {name}.at = getelementptr i8, ptr {place}, i64 8\n"
        f"  {name}.pointer = load ptr, ptr {name}.at, align 8\n"
        f"  {name}.half = insertvalue {{ i8, ptr }} poison, i8 {name}.byte, 0\n"
        f"  {name} = insertvalue {{ i8, ptr }} {name}.half, ptr {name}.pointer, 1"
    )


def check(text):
    """Nothing is left that belongs to one processor, and nothing comes from outside but what the compiler itself provides."""
    for part in FOREIGN:
        if part in text:
            raise Unexpected(f"the module has {part.strip()}")
    for kind in WHOLE.findall(text):
        if not SAME_PLACES.fullmatch(kind):
            raise Unexpected(f"the module reads or writes {kind} as one")
    for line in text.splitlines():
        if line.startswith("declare ") and " @llvm." not in line:
            raise Unexpected(f"the module needs a function from outside: {line}")


def edited(text):
    """The module without the marks of x86-64, its results as the ARM convention wants them."""
    text = without(text, LAYOUT, 1)
    text = without(text, TARGET, 1)
    text = without(text, PROBE, 0)
    text = without(text, PROCESSOR, 0)
    text, pairs = PAIR.subn(read_apart, text)
    print(f"  read apart, {pairs} times: a byte and a pointer")
    lines = text.split("\n")
    seen = [line.startswith("define ") and not line.startswith("define internal ") for line in lines]
    if not any(seen):
        raise Unexpected("the module has no function for C")
    text = "\n".join(with_wide_result(line) if outside else line for line, outside in zip(lines, seen))
    check(text)
    print(f"  widened, {text.count(ADDRESS)} times: an address as a number")
    return text.replace(ADDRESS, WIDENED)


def main():
    module, output = sys.argv[1:]
    with open(module, encoding="utf-8") as file:
        text = file.read()
    print("edits of the module's text:")
    try:
        text = edited(text)
    except Unexpected as reason:
        sys.exit(f"cortex_m: {reason}")
    with open(output, "w", encoding="utf-8") as file:
        file.write(text)


main()
