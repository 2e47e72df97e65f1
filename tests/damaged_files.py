#!/usr/bin/env python3
"""Files, marks and records that are built by hand, and what an opening makes of them, which is written here by hand too.

    tests/damaged_files.py PROGRAM

Most are made of the store of one entity of type T, whose bytes stand in docs/FORMATS.md: four leaves at the places 0, 11, 22
and 39 of a body, and behind them, at 52, the root of commit 1. A row of the table says what the files are, and either the bad
place or the commit and the rows. The program is compared with what the check of tests/store_files.py says, as in
tests/damaged_bytes.py, and the check with the row. A line is printed for each difference.
"""
import os
import sys

sys.dont_write_bytecode = True

from store_files import CLOSED, NO_ROWS, Branch, Place, Root, Rows, check, maps_of, rows_of, spelled, spelled_mark, store_of
from store_runs import differences, work_folder

LEAVES = bytes.fromhex(
    "01 0005 0100000000 0001 54"
    "01 0002 0154 0004 00000000"
    "01 0004 00000000 0008 0000000000000001"
    "01 0008 0000000000000000 0000"
)
TREES = [(1, (0, 0)), (2, (0, 11)), (3, (0, 22)), (4, (0, 39))]
ROOT = spelled(Root(1, TREES))
BODY = LEAVES + ROOT
ENDS = spelled_mark(115, 63, 1) + CLOSED
ONE = Rows([b"T"], [], [], [1], {(0, 0)}, {}, set())
LOOP = Rows([b"T"], [], [b"l"], [1], {(0, 0)}, {}, {((0, 0), b"l", (0, 0))})
# the first volume files that belong to no log file
BEYOND = 2**33


def pair(body, *marks):
    """A body, and ends with these marks and a closed one."""
    return {0: body, 1: b"".join(marks) + CLOSED}


def ended(body, root):
    """A body, a root behind it, and ends with a mark for it."""
    return pair(body + root, spelled_mark(len(body) + len(root), len(root), 1))


def rooted(trees, commit=1):
    """The four leaves, and another root."""
    return ended(LEAVES, spelled(Root(commit, trees)))


def above(files, by=2):
    """Files as those of a later log file."""
    return {number + by: data for number, data in files.items()}


def with_last(record):
    """The first three leaves, at 39 another record for tree 4, and a root."""
    body = LEAVES[:39] + record
    return ended(body, ROOT)


def node(value, *children):
    """A node with the key part of an id but for its last byte, and children by byte and place."""
    return spelled(Branch(bytes(7), value, [(byte, (0, at)) for byte, at in children]))


def leaf_over_the_end():
    """The last leaf's value, 100 bytes long, goes over the root and the end of its block."""
    leaf = bytes.fromhex("01 0008 0000000000000000 0064")
    return pair(LEAVES[:39] + leaf + ROOT + bytes(100), spelled_mark(115, 63, 1))


def one_leaf_for_two_trees():
    """A link of an entity to itself has the same pair in trees 7 and 8: here the root names one leaf for both."""
    files = store_of(maps_of(LOOP), 1)
    root_at = len(files[0]) - int.from_bytes(files[1][8:12], "big")
    links = files[0][root_at + 11 :]
    twice = files[0][: root_at + 11] + links[:-13] + b"\x08" + links[-25:-13]
    return {0: twice, 1: files[1]}


def over_two_files(first):
    """A root in log file 1, whose trees stand in the body of log file 0."""
    later = above(pair(ROOT, spelled_mark(63, 63, 1)))
    return {**first, **later}


WHOLE = {0: BODY, 1: ENDS}
TABLE = [
    # which log file is used, and which of its marks
    ("the whole store", WHOLE, (1, ONE)),
    ("no files", {}, (0, NO_ROWS)),
    ("a body alone", {0: BODY}, (0, NO_ROWS)),
    ("ends alone", {1: ENDS}, (0, NO_ROWS)),
    ("empty files", {0: b"", 1: b""}, (0, NO_ROWS)),
    ("a closed gate", pair(BODY, spelled_mark(115, 63, 0)), (0, NO_ROWS)),
    ("a gate of 255", pair(BODY, spelled_mark(115, 63, 255)), (1, ONE)),
    ("a mark that is not followed by a whole one", {0: BODY, 1: ENDS[:25]}, (0, NO_ROWS)),
    ("bytes behind the closed mark", {0: BODY, 1: ENDS + bytes(5)}, (1, ONE)),
    ("an open gate that no mark follows", {0: BODY, 1: spelled_mark(115, 63, 1) * 2}, (1, ONE)),
    ("a second mark, open", pair(BODY, spelled_mark(0, 0, 1), spelled_mark(115, 63, 1)), (1, ONE)),
    ("an open mark behind a closed one", pair(BODY, spelled_mark(115, 63, 0), spelled_mark(115, 63, 1)), (0, NO_ROWS)),
    ("an open mark, a closed one, an open one", pair(BODY, spelled_mark(115, 63, 1), CLOSED, spelled_mark(9, 9, 1)), (1, ONE)),
    ("a tail that no mark claims", pair(BODY + BODY, spelled_mark(115, 63, 1), spelled_mark(230, 63, 0)), (1, ONE)),
    ("a tail that a second mark claims", pair(BODY + BODY, spelled_mark(115, 63, 1), spelled_mark(230, 63, 1)), (1, ONE)),
    # what the last open mark says
    ("an empty body", {0: b"", 1: ENDS}, Place(0, 0)),
    ("a body without its last byte", {0: BODY[:-1], 1: ENDS}, Place(0, 114)),
    ("an end one byte behind the body", pair(BODY, spelled_mark(116, 64, 1)), Place(0, 115)),
    ("a second mark with an end behind the body", pair(BODY, spelled_mark(115, 63, 1), spelled_mark(230, 231, 1)), Place(0, 115)),
    ("the greatest end", pair(BODY, spelled_mark(2**64 - 1, 63, 1)), Place(0, 115)),
    ("a root that begins before the body", pair(BODY, spelled_mark(115, 116, 1)), Place(1, 0)),
    ("the same by a second mark", pair(BODY, spelled_mark(115, 63, 1), spelled_mark(115, 116, 1)), Place(1, 13)),
    ("a root as long as the body", pair(BODY, spelled_mark(115, 115, 1)), Place(0, 0)),
    ("a root that begins too early", pair(BODY, spelled_mark(115, 64, 1)), Place(0, 51)),
    ("a root that begins too late", pair(BODY, spelled_mark(115, 62, 1)), Place(0, 53)),
    ("a root that is cut", pair(BODY, spelled_mark(114, 62, 1)), Place(0, 52)),
    ("no bytes of a root", pair(BODY, spelled_mark(115, 0, 1)), Place(0, 115)),
    ("a leaf for a root", pair(BODY, spelled_mark(52, 13, 1)), Place(0, 39)),
    ("a byte behind the root", pair(BODY + b"\0", spelled_mark(116, 64, 1)), Place(0, 52)),
    # roots
    ("a root without trees", rooted([]), (1, NO_ROWS)),
    ("the commit 0", rooted(TREES, 0), (0, ONE)),
    ("the greatest commit", rooted(TREES, 2**64 - 1), (2**64 - 1, ONE)),
    ("another format", ended(LEAVES, b"\3\2" + ROOT[2:]), Place(0, 52)),
    ("a tree 0, at no leaf", rooted([(0, (0, 1)), *TREES]), Place(0, 52)),
    ("a tree 9, at no leaf", rooted([*TREES, (9, (0, 1))]), Place(0, 52)),
    ("a tree twice", rooted([*TREES, (4, (0, 1))]), Place(0, 52)),
    ("trees that fall", rooted([TREES[1], TREES[0], (3, (0, 1)), TREES[3]]), Place(0, 52)),
    ("no tree 1", rooted(TREES[1:]), Place(0, 52)),
    ("no tree 4: an entity was drawn, and none is there", rooted(TREES[:3]), (1, ONE._replace(ids=set()))),
    ("a tree more", rooted([*TREES, (5, (0, 39))]), Place(0, 52)),
    ("33 trees", rooted([*TREES, *((tree, (0, 1)) for tree in range(5, 34))]), Place(0, 52)),
    ("a tree at the root", rooted([*TREES[:3], (4, (0, 52))]), Place(0, 52)),
    ("a tree behind the root", rooted([*TREES[:3], (4, (0, 115))]), Place(0, 52)),
    ("a tree in a later log file", rooted([*TREES[:3], (4, (1, 0))]), Place(0, 52)),
    ("a tree at no leaf", rooted([(1, (0, 1)), *TREES[1:]]), Place(0, 1)),
    ("two trees at no leaf, of which the first is told", rooted([(1, (0, 12)), (2, (0, 1)), *TREES[2:]]), Place(0, 12)),
    ("a tree at no leaf before one that is not below", rooted([(1, (0, 12)), (2, (0, 52)), *TREES[2:]]), Place(0, 12)),
    ("a tree that is not below before one at no leaf", rooted([(1, (0, 52)), (2, (0, 12)), *TREES[2:]]), Place(0, 52)),
    ("a tree at an older root", ended(BODY, spelled(Root(2, [*TREES[:3], (4, (0, 52))]))), Place(0, 52)),
    ("one leaf for two trees", one_leaf_for_two_trees(), (1, LOOP)),
    # records
    ("a leaf over the end", leaf_over_the_end(), Place(0, 39)),
    ("a node that names itself", with_last(node(b"", (1, 39))), Place(0, 39)),
    ("a node that names one behind it", with_last(node(b"", (1, 70))), Place(0, 39)),
    ("a node with a child at no leaf", with_last(node(b"", (1, 22), (2, 5), (3, 7))), Place(0, 5)),
    ("a node with a child at no leaf before itself", with_last(node(b"", (1, 5), (2, 39))), Place(0, 5)),
    ("a node that names itself before a child at no leaf", with_last(node(b"", (1, 39), (2, 5))), Place(0, 39)),
    ("a node without a value, with one child", with_last(node(None, (1, 5))), Place(0, 39)),
    ("a node with a byte twice", with_last(node(None, (1, 5), (1, 7))), Place(0, 39)),
    ("a node with bytes that fall", with_last(node(None, (2, 5), (1, 7))), Place(0, 39)),
    ("a node of other pairs", with_last(node(None, (1, 11), (2, 22))), Place(0, 78)),
    # several log files
    ("a root in log file 1", over_two_files({0: LEAVES, 1: CLOSED}), (1, ONE)),
    ("the same, without the ends of log file 0", over_two_files({0: LEAVES}), (1, ONE)),
    ("the same, with a body of log file 0 that goes on", over_two_files(WHOLE), (1, ONE)),
    ("the same, without the body of log file 0", over_two_files({1: CLOSED}), Place(2, 0)),
    ("the same, with a body of log file 0 that is cut", over_two_files({0: LEAVES[:-1], 1: CLOSED}), Place(0, 39)),
    ("log file 1 is not used", {**WHOLE, **above({0: b"", 1: CLOSED})}, (1, ONE)),
    ("log file 1 is not used, and has bytes", {**WHOLE, **above(pair(BODY, spelled_mark(115, 63, 0)))}, (1, ONE)),
    ("log file 1 has no ends", {**WHOLE, 2: BODY}, (1, ONE)),
    ("log file 1 has no body", {**WHOLE, 3: ENDS}, (1, ONE)),
    ("log file 1 is damaged", {**WHOLE, **above({0: b"", 1: ENDS})}, Place(2, 0)),
    ("log file 2 has a root without trees", {**WHOLE, **above(rooted([]), 4)}, (1, NO_ROWS)),
    ("log file 2 begins its root before its body", {**WHOLE, **above(pair(BODY, spelled_mark(115, 116, 1)), 4)}, Place(5, 0)),
    ("files that belong to no log file", {**WHOLE, **above({0: b"", 1: ENDS}, BEYOND)}, (1, ONE)),
    ("only files that belong to no log file", above(WHOLE, BEYOND), (0, NO_ROWS)),
]


def told(program, folder, files, outcome):
    """All that differs for a row of the table."""
    found = check(files)
    seen = found if isinstance(found, Place) else (found.commit, rows_of(found.maps))
    if seen != outcome:
        yield f"by the check: {seen}"
    yield from differences(program, folder, files, ONE)


def main(program):
    with work_folder() as work:
        rows = enumerate(TABLE)
        lines = [f"{words}: {text}" for number, (words, *row) in rows for text in told(program, os.path.join(work, str(number)), *row)]
    print("".join(f"{line}\n" for line in lines), end="")
    sys.exit(bool(lines))


if __name__ == "__main__":
    main(os.path.abspath(sys.argv[1]))
