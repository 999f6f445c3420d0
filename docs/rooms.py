#!/usr/bin/env python3
"""Writes docs/ROOMS.md anew from the heads of all files: run it at the top of the repository."""

import pathlib
import re

TOP = pathlib.Path(__file__).resolve().parent.parent
ROOMS = TOP / "docs" / "ROOMS.md"
MARK = "<!-- rooms -->\n"


def crates():
    """The names of the crates, in the order of crates.txt."""
    for line in (TOP / "crates.txt").read_text().splitlines():
        line = line.split("#")[0].strip()
        if line:
            yield line.split(":")[0].split()[0]


def first_words(path, sign):
    """The first sentence of the comment at a file's head."""
    words = []
    for line in path.read_text().splitlines():
        if not line.startswith(sign):
            if words:
                break
            continue
        text = line[len(sign):].strip()
        if not text and words:
            break
        words.append(text)
    sentence = re.split(r"\.(?:\s|$)", " ".join(words))[0].strip()
    if len(sentence) > 1 and sentence[1].islower():
        sentence = sentence[0].lower() + sentence[1:]
    return sentence


def listed(folder, end, sign, left_out):
    """The files below a folder, a line each."""
    lines = []
    for path in sorted(folder.rglob("*" + end)):
        name = str(path.relative_to(folder))[: -len(end)]
        if name in left_out:
            continue
        words = first_words(path, sign)
        lines.append(f"- `{name}`: {words}" if words else f"- `{name}`")
    return lines


def room(crate):
    """What stands in a crate."""
    folder = TOP / "crates" / crate
    text = f"## {crate}\n"
    code = listed(folder / "src", ".rt", "//!", {"tests"})
    if code:
        text += "\nCode:\n\n" + "\n".join(code) + "\n"
    definitions = listed(folder / "specs", ".antt", "--", {"Lib"})
    if definitions:
        text += "\nDefinitions:\n\n" + "\n".join(definitions) + "\n"
    return text


def main():
    head = ROOMS.read_text().split(MARK)[0]
    ROOMS.write_text(head + MARK + "\n".join(room(crate) for crate in crates()))


main()
