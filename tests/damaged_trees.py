#!/usr/bin/env python3
"""Changes pairs of a store's eight trees, and compares what the program says with outcomes that are written here by hand.

    tests/damaged_trees.py PROGRAM

The store has the entities 0-0 of type T and 1-0 of type U, 0-0 with p = 3, 1-0 with q = true, and a link l from 0-0 to 1-0.
A row of the table says what is done to its trees, and what comes of it: DAMAGED, where they are the tables of no sound rows,
which is told at the place of the root, with each byte left; or the answers that differ from those of the whole store. Each
outcome is compared with what the check of tests/store_files.py says as well. A line is printed for each difference.
"""
import os
import sys

sys.dont_write_bytecode = True

from store_files import BACK, ENTITIES, INDEX, LINKS, NAMES, NEXT, NUMBERS, PROPERTIES, Place, Rows
from store_files import check, maps_of, store_of
from store_runs import differences, read_files, run, work_folder, write_files

MADE = b"""session a
begin
new T as $x
new U as $y
set $x p 3
set $y q true
link $x l $y
commit
order
turn a begin
turn a flush
turn a end
"""

ROWS = Rows(
    [b"T", b"U"], [b"p", b"q"], [b"l"], [1, 1], {(0, 0), (1, 0)},
    {((0, 0), b"p"): 3, ((1, 0), b"q"): True}, {((0, 0), b"l", (1, 0))},
)

# the statements of a session that reads, and one that makes entities and drops them, with what the whole store answers
ANSWERS = {
    "query all T": "ids 0-0",
    "query all U": "ids 1-0",
    "show 0-0": "0-0 T p=3 l>1-0",
    "show 0-1": "refused no entity 0-1",
    "show 1-0": "1-0 U q=true",
    "query find T p 3": "ids 0-0",
    "query with T p": "ids 0-0",
    "query find U q true": "ids 1-0",
    "query withlink T l": "ids 0-0",
    "query linked T l 1-0": "ids 0-0",
    "query from 0-0 l": "ids 1-0",
    "query from 1-0 l": "ids",
    "new T as $t": "0-1",
    "new U as $u": "1-1",
    "new V as $v": "2-0",
}

DAMAGED = None
SAME = {}

# ids, names in their lists, properties of entities, numbers
T0, T1, U0, U1, V0 = ("00000000 00000000", "00000000 00000001", "00000001 00000000", "00000001 00000001", "00000002 00000000")
N0, N1, N2, N7 = "00000000", "00000001", "00000002", "00000007"
TYPE_T, TYPE_U, TYPE_V = f"01 {N0}", f"01 {N1}", f"01 {N2}"
PROP_P, PROP_Q, PROP_R = f"02 {N0}", f"02 {N1}", f"02 {N2}"
LINK_L, LINK_M = f"03 {N0}", f"03 {N1}"
NONE, ONE, TWO = "0000000000000000", "0000000000000001", "0000000000000002"
THREE, FOUR = "0000000000000003", "0000000000000004"
KEY_3, KEY_4 = "02 8000000000000003", "02 8000000000000004"


def put(tree, key, value=""):
    """A pair that is added, or whose value is changed; in hexadecimal."""
    return tree, bytes.fromhex(key), bytes.fromhex(value)


def cut(tree, key):
    """A pair that is removed."""
    return tree, bytes.fromhex(key), None


def moved(tree, key, other, value=""):
    """A pair whose key is changed."""
    return [cut(tree, key), put(tree, other, value)]


def named(key, number, old, new):
    """A name that is changed in both trees: its key in tree 1, and the old and the new name behind their list's byte."""
    return [put(NAMES, key, new), cut(NUMBERS, key[:2] + old), put(NUMBERS, key[:2] + new, number)]


def valued(stored, key):
    """The property p of 0-0 with other bytes stored, and another key in the index."""
    return [put(PROPERTIES, T0 + N0, stored), *moved(INDEX, N0 + N0 + KEY_3 + N0, N0 + N0 + key + N0)]


def linked(source, number, target):
    """A link more, in both directions."""
    return [put(LINKS, source + number + target), put(BACK, target + number + source)]


UNLINKED = [cut(LINKS, T0 + N0 + U0), cut(BACK, U0 + N0 + T0)]
NO_VALUE_OF_T0 = [cut(PROPERTIES, T0 + N0), cut(INDEX, N0 + N0 + KEY_3 + N0)]
NO_LINK_SHOWN = {"show 0-0": "0-0 T p=3", "query withlink T l": "ids", "query linked T l 1-0": "ids", "query from 0-0 l": "ids"}
NO_3_FOUND = {"query find T p 3": "ids"}
NAMES_OF_TYPES = [put(NAMES, TYPE_T, "55"), put(NAMES, TYPE_U, "54")]
LONG_NAME, LONG_TEXT = "6e" * 255, "78" * 1024
EMPTY = {
    **{question: "ids" for question in ANSWERS if question.startswith("query")},
    **{f"show {entity}": f"refused no entity {entity}" for entity in ("0-0", "1-0")},
    "new T as $t": "0-0", "new U as $u": "1-0",
}

# what is done, in words and to the trees, and what comes of it
TABLE = [
    ("nothing", [], SAME),
    ("no pair is left", [(tree, key, None) for tree, pairs in maps_of(ROWS).items() for key in pairs], EMPTY),
    # tree 1, and with it tree 2
    ("1: a type more", [put(NAMES, TYPE_V, "56")], DAMAGED),
    ("1: a type more, with its number", [put(NAMES, TYPE_V, "56"), put(NUMBERS, "01 56", N2)], DAMAGED),
    ("1: a type more, with its number and a next number", [put(NAMES, TYPE_V, "56"), put(NUMBERS, "01 56", N2), put(NEXT, N2, FOUR)], {"new V as $v": "2-4"}),
    ("1: a property more", [put(NAMES, PROP_R, "72")], DAMAGED),
    ("1: a property more, with its number, that no entity has", [put(NAMES, PROP_R, "72"), put(NUMBERS, "02 72", N2)], SAME),
    ("1: a link more, with its number, that stands nowhere", [put(NAMES, LINK_M, "6d"), put(NUMBERS, "03 6d", N1)], SAME),
    ("1: a property less", [cut(NAMES, PROP_Q)], DAMAGED),
    ("1: a property less, and its number", [cut(NAMES, PROP_Q), cut(NUMBERS, "02 71")], DAMAGED),
    ("1: another number of a link", moved(NAMES, LINK_L, LINK_M, "6c"), DAMAGED),
    ("1: a gap before a property, in both trees", [*moved(NAMES, PROP_Q, PROP_R, "71"), put(NUMBERS, "02 71", N2)], DAMAGED),
    ("1: a list with the byte 4, in both trees", [put(NAMES, f"04 {N0}", "6b"), put(NUMBERS, "04 6b", N0)], DAMAGED),
    ("1: a list with the byte 0, in both trees", [put(NAMES, f"00 {N0}", "6b"), put(NUMBERS, "00 6b", N0)], DAMAGED),
    ("1: a number of five bytes", moved(NAMES, LINK_L, LINK_L + "00", "6c"), DAMAGED),
    ("1: an empty key", [put(NAMES, "", "56")], DAMAGED),
    ("1: another name of a type", [put(NAMES, TYPE_T, "57")], DAMAGED),
    ("1: another name of a type, in both trees", named(TYPE_T, N0, "54", "57"), {
        "query all T": "ids", "show 0-0": "0-0 W p=3 l>1-0", "query find T p 3": "ids", "query with T p": "ids",
        "query withlink T l": "ids", "query linked T l 1-0": "ids", "new T as $t": "2-0", "new V as $v": "3-0",
    }),
    ("1: the names of both types changed over", NAMES_OF_TYPES, DAMAGED),
    ("1: the names of both types changed over, in both trees", [*NAMES_OF_TYPES, put(NUMBERS, "01 54", N1), put(NUMBERS, "01 55", N0)], {
        "query all T": "ids 1-0", "query all U": "ids 0-0", "show 0-0": "0-0 U p=3 l>1-0", "show 1-0": "1-0 T q=true",
        "query find T p 3": "ids", "query with T p": "ids", "query find U q true": "ids", "query withlink T l": "ids",
        "query linked T l 1-0": "ids", "new T as $t": "1-1", "new U as $u": "0-1",
    }),
    ("1: a type's name twice", [put(NAMES, TYPE_U, "54"), cut(NUMBERS, "01 55")], DAMAGED),
    ("1: a type's name twice, with the later number", [put(NAMES, TYPE_U, "54"), cut(NUMBERS, "01 55"), put(NUMBERS, "01 54", N1)], DAMAGED),
    ("1: a name twice in a list", [put(NAMES, PROP_Q, "70"), cut(NUMBERS, "02 71")], DAMAGED),
    ("1: a name twice in a list, with the later number", [put(NAMES, PROP_Q, "70"), cut(NUMBERS, "02 71"), put(NUMBERS, "02 70", N1)], DAMAGED),
    ("1: a name in two lists", named(LINK_L, N0, "6c", "70"), {
        "show 0-0": "0-0 T p=3 p>1-0", "query withlink T l": "ids", "query linked T l 1-0": "ids", "query from 0-0 l": "ids",
    }),
    ("1: an empty name, in both trees", named(PROP_Q, N1, "71", ""), DAMAGED),
    ("1: a name of 255 bytes, in both trees", named(PROP_Q, N1, "71", LONG_NAME), {"show 1-0": f"1-0 U {'n' * 255}=true", "query find U q true": "ids"}),
    ("1: a name of 256 bytes, in both trees", named(PROP_Q, N1, "71", LONG_NAME + "6e"), DAMAGED),
    ("1: a name that is not UTF-8, in both trees", named(PROP_Q, N1, "71", "ff"), DAMAGED),
    ("1: a name with a control character, in both trees", named(PROP_Q, N1, "71", "7109"), DAMAGED),
    ("1: a name that no script can have, in both trees", named(PROP_Q, N1, "71", "c3bc 20 33"), {"show 1-0": "1-0 U ü 3=true", "query find U q true": "ids"}),
    # tree 2
    ("2: a number more", [put(NUMBERS, "01 56", N2)], DAMAGED),
    ("2: a second name of a number", [put(NUMBERS, "01 56", N1)], DAMAGED),
    ("2: a number less", [cut(NUMBERS, "03 6c")], DAMAGED),
    ("2: another name", moved(NUMBERS, "03 6c", "03 6d", N0), DAMAGED),
    ("2: another list", moved(NUMBERS, "03 6c", "02 6c", N0), DAMAGED),
    ("2: another number", [put(NUMBERS, "01 54", N1)], DAMAGED),
    ("2: a number of five bytes", [put(NUMBERS, "01 54", N0 + "00")], DAMAGED),
    ("2: no bytes of a number", [put(NUMBERS, "01 54")], DAMAGED),
    # tree 3
    ("3: a next number more", [put(NEXT, N2, NONE)], DAMAGED),
    ("3: a next number less", [cut(NEXT, N1)], DAMAGED),
    ("3: another type", moved(NEXT, N1, N2, ONE), DAMAGED),
    ("3: a greater next number", [put(NEXT, N0, THREE)], {"new T as $t": "0-3"}),
    ("3: a next number that is used", [put(NEXT, N0, NONE)], DAMAGED),
    ("3: the last next number", [put(NEXT, N0, "0000000100000000")], {"new T as $t": "refused ids spent 0"}),
    ("3: a next number above the last one", [put(NEXT, N0, "0000000100000001")], DAMAGED),
    ("3: a next number of four bytes", [put(NEXT, N0, N7)], DAMAGED),
    ("3: a next number of nine bytes", [put(NEXT, N0, "00" + ONE)], DAMAGED),
    # tree 4
    ("4: an entity more, not below the next number", [put(ENTITIES, T1)], DAMAGED),
    ("4: an entity more, without properties", [put(ENTITIES, T1), put(NEXT, N0, TWO)], {"query all T": "ids 0-0 0-1", "show 0-1": "0-1 T", "new T as $t": "0-2"}),
    ("4: an entity less", [cut(ENTITIES, U0)], DAMAGED),
    ("4: an entity less, and its property", [cut(ENTITIES, U0), cut(PROPERTIES, U0 + N1), cut(INDEX, N1 + N1 + "01 01" + N0)], DAMAGED),
    ("4: an entity less, its property and its link", [cut(ENTITIES, U0), cut(PROPERTIES, U0 + N1), cut(INDEX, N1 + N1 + "01 01" + N0), *UNLINKED], {
        **NO_LINK_SHOWN, "query all U": "ids", "show 1-0": "refused no entity 1-0", "query find U q true": "ids",
    }),
    ("4: another local number", [*moved(ENTITIES, T0, T1), put(NEXT, N0, TWO)], DAMAGED),
    ("4: a value that is not empty", [put(ENTITIES, T0, "00")], DAMAGED),
    ("4: an entity of a type that is not listed", [put(ENTITIES, V0)], DAMAGED),
    ("4: an entity of a type that is not listed, with a next number", [put(ENTITIES, V0), put(NEXT, N2, ONE)], DAMAGED),
    ("4: an id of seven bytes", moved(ENTITIES, U0, N1 + "000000"), DAMAGED),
    ("4: an id of nine bytes", [put(ENTITIES, T0 + "00")], DAMAGED),
    # tree 5, and with it tree 6
    ("5: a property without its index", [put(PROPERTIES, T0 + N1, "01 01")], DAMAGED),
    ("5: a property with its index", [put(PROPERTIES, T0 + N1, "01 01"), put(INDEX, N0 + N1 + "01 01" + N0)], {"show 0-0": "0-0 T p=3 q=true l>1-0"}),
    ("5: a property less", [cut(PROPERTIES, T0 + N0)], DAMAGED),
    ("5: a property less, and its index", NO_VALUE_OF_T0, {**NO_3_FOUND, "show 0-0": "0-0 T l>1-0", "query with T p": "ids"}),
    ("5: a property less, its index and its name", [*NO_VALUE_OF_T0, cut(NAMES, PROP_P), cut(NUMBERS, "02 70")], DAMAGED),
    ("5: another property", moved(PROPERTIES, T0 + N0, T0 + N1, "02" + THREE), DAMAGED),
    ("5: another integer", [put(PROPERTIES, T0 + N0, "02" + FOUR)], DAMAGED),
    ("5: another integer, with its index", valued("02" + FOUR, KEY_4), {**NO_3_FOUND, "show 0-0": "0-0 T p=4 l>1-0"}),
    ("5: an integer below 0, with its index", valued("02 ffffffffffffffff", "02 7fffffffffffffff"), {**NO_3_FOUND, "show 0-0": "0-0 T p=-1 l>1-0"}),
    ("5: an integer of seven bytes", [put(PROPERTIES, T0 + N0, "02 00000000000003")], DAMAGED),
    ("5: an integer of nine bytes", [put(PROPERTIES, T0 + N0, "02 00" + THREE)], DAMAGED),
    ("5: a flag, with its index", valued("01 00", "01 00"), {**NO_3_FOUND, "show 0-0": "0-0 T p=false l>1-0"}),
    ("5: a flag of 2, with its index", valued("01 02", "01 02"), DAMAGED),
    ("5: a flag of two bytes, with its index", valued("01 01 01", "01 01 01"), DAMAGED),
    ("5: a value of no kind, with its index", valued("04 61", "04 61 00"), DAMAGED),
    ("5: no bytes of a value", [put(PROPERTIES, T0 + N0)], DAMAGED),
    ("5: a text, with its folded key", valued("03 41 c39c 62", "03 61 c39c 62 00"), {**NO_3_FOUND, "show 0-0": '0-0 T p="AÜb" l>1-0'}),
    ("5: a text, with its own bytes as the key", valued("03 41 62", "03 41 62 00"), DAMAGED),
    ("5: a text, without the end of its key", valued("03 61 62", "03 61 62"), DAMAGED),
    ("5: a text with a 0 at its end, as in the key", valued("03 61 62 00", "03 61 62 00"), DAMAGED),
    ("5: an empty text, with its key", valued("03", "03 00"), {**NO_3_FOUND, "show 0-0": '0-0 T p="" l>1-0'}),
    ("5: a text of 1024 bytes, with its key", valued("03" + LONG_TEXT, "03" + LONG_TEXT + "00"), {**NO_3_FOUND, "show 0-0": f'0-0 T p="{"x" * 1024}" l>1-0'}),
    ("5: a text of 1025 bytes, with its key", valued("03" + LONG_TEXT + "78", "03" + LONG_TEXT + "78 00"), DAMAGED),
    ("5: a text that is not UTF-8, with its key", valued("03 c3", "03 c3 00"), DAMAGED),
    ("5: a text with a control character, with its key", valued("03 61 7f", "03 61 7f 00"), DAMAGED),
    ("5: a property that is not listed, with its index", [put(PROPERTIES, T0 + N2, "01 01"), put(INDEX, N0 + N2 + "01 01" + N0)], DAMAGED),
    ("5: a property of an entity that is not there, with its index", [put(PROPERTIES, T1 + N0, "02" + THREE), put(INDEX, N0 + N0 + KEY_3 + N1), put(NEXT, N0, TWO)], DAMAGED),
    ("5: a key of eleven bytes", moved(PROPERTIES, U0 + N1, U0 + "000001", "01 01"), DAMAGED),
    # tree 6
    ("6: a key more of a value", [put(INDEX, N0 + N0 + KEY_4 + N0)], DAMAGED),
    ("6: a key more, of an entity that is not there", [put(INDEX, N0 + N0 + KEY_3 + N1)], DAMAGED),
    ("6: a key less", [cut(INDEX, N0 + N0 + KEY_3 + N0)], DAMAGED),
    ("6: another local number", moved(INDEX, N0 + N0 + KEY_3 + N0, N0 + N0 + KEY_3 + N1), DAMAGED),
    ("6: another type", moved(INDEX, N0 + N0 + KEY_3 + N0, N1 + N0 + KEY_3 + N0), DAMAGED),
    ("6: another property", moved(INDEX, N0 + N0 + KEY_3 + N0, N0 + N1 + KEY_3 + N0), DAMAGED),
    ("6: another value", moved(INDEX, N0 + N0 + KEY_3 + N0, N0 + N0 + KEY_4 + N0), DAMAGED),
    ("6: the highest bit as it is stored", moved(INDEX, N0 + N0 + KEY_3 + N0, N0 + N0 + "02" + THREE + N0), DAMAGED),
    ("6: without the local number", moved(INDEX, N0 + N0 + KEY_3 + N0, N0 + N0 + KEY_3), DAMAGED),
    ("6: a value that is not empty", [put(INDEX, N0 + N0 + KEY_3 + N0, "00")], DAMAGED),
    # tree 7, and with it tree 8
    ("7: a link more, in one direction", [put(LINKS, U0 + N0 + T0)], DAMAGED),
    ("7: a link more, in both", linked(U0, N0, T0), {"show 1-0": "1-0 U q=true l>0-0", "query from 1-0 l": "ids 0-0"}),
    ("7: a link to a second target, in both", linked(T0, N0, T0), {"show 0-0": "0-0 T p=3 l>0-0 l>1-0", "query from 0-0 l": "ids 0-0 1-0"}),
    ("7: a link less, in one direction", [cut(LINKS, T0 + N0 + U0)], DAMAGED),
    ("7: a link less, in both", UNLINKED, NO_LINK_SHOWN),
    ("7: a link less, in both, and its name", [*UNLINKED, cut(NAMES, LINK_L), cut(NUMBERS, "03 6c")], NO_LINK_SHOWN),
    ("7: another target, in one direction", moved(LINKS, T0 + N0 + U0, T0 + N0 + T0), DAMAGED),
    ("7: another target, in both", [*UNLINKED, *linked(T0, N0, T0)], {"show 0-0": "0-0 T p=3 l>0-0", "query linked T l 1-0": "ids", "query from 0-0 l": "ids 0-0"}),
    ("7: a target that is not there, in both", linked(T0, N0, U1), DAMAGED),
    ("7: a target that is not there but was drawn, in both", [*linked(T0, N0, U1), put(NEXT, N1, TWO)], DAMAGED),
    ("7: a source that is not there, in both", linked(T1, N0, U0), DAMAGED),
    ("7: a link that is not listed, in both", linked(T0, N1, U0), DAMAGED),
    ("7: a value that is not empty", [put(LINKS, T0 + N0 + U0, "00")], DAMAGED),
    ("7: a value that is not empty, in both", [put(LINKS, T0 + N0 + U0, "00"), put(BACK, U0 + N0 + T0, "00")], DAMAGED),
    ("7: a key of nineteen bytes", moved(LINKS, T0 + N0 + U0, T0 + N0 + N1 + "000000"), DAMAGED),
    # tree 8
    ("8: a link more", [put(BACK, T0 + N0 + U0)], DAMAGED),
    ("8: a link less", [cut(BACK, U0 + N0 + T0)], DAMAGED),
    ("8: another source", moved(BACK, U0 + N0 + T0, U0 + N0 + U0), DAMAGED),
    ("8: as in tree 7", moved(BACK, U0 + N0 + T0, T0 + N0 + U0), DAMAGED),
    ("8: a value that is not empty", [put(BACK, U0 + N0 + T0, "00")], DAMAGED),
]


def changed(maps, acts):
    """Maps with pairs put and cut; what is cut has to be there."""
    maps = {tree: dict(pairs) for tree, pairs in maps.items()}
    for tree, key, value in acts:
        if value is None:
            del maps[tree][key]
        else:
            maps[tree][key] = value
    return maps


def script_of_answers():
    """The script that asks, and the number of the line of each statement."""
    reads = [statement for statement in ANSWERS if not statement.startswith("new")]
    news = [statement for statement in ANSWERS if statement.startswith("new")]
    lines = ["session r", "begin read", *reads, "end", "begin", *news, "end"]
    order = ["order", "turn r begin", "turn r end", "turn r begin", "turn r end"]
    return "\n".join([*lines, *order, ""]).encode(), {statement: lines.index(statement) + 1 for statement in ANSWERS}


def against_the_hand(program, folder, files, outcome):
    """What differs between a run over files and an outcome from the table."""
    script, numbers = script_of_answers()
    write_files(folder, files)
    status, printed = run(program, folder, script)
    if outcome is DAMAGED:
        root_at = len(files[0]) - int.from_bytes(files[1][8:12], "big")
        if status != 8 or printed != b"xod: damaged file 0 at %d\n" % root_at:
            yield f"damage was to be told at {root_at}: status {status}, {printed[:200]!r}"
        if read_files(folder) != files:
            yield "the damaged files were changed"
        return
    lines = printed.decode().split("\n")
    if status != 0 or lines[1] != "2: at 1":
        yield f"the store was to be opened at commit 1: status {status}, {printed[:200]!r}"
        return
    for statement, answer in {**ANSWERS, **outcome}.items():
        if f"{numbers[statement]}: {answer}" != lines[numbers[statement] - 1]:
            yield f"{statement}: {lines[numbers[statement] - 1]!r}, wanted {answer!r}"


def made_by_the_program(program, work):
    """What differs between the files that the program makes of these rows in one commit, and the whole store as built here."""
    folder = os.path.join(work, "made")
    os.mkdir(folder)
    status, printed = run(program, folder, MADE)
    files = read_files(folder)
    found = check(files)
    if status != 0 or isinstance(found, Place) or found.maps != maps_of(ROWS):
        yield f"the program makes other trees: status {status}, {printed[:200]!r}, {found}"
    if files != store_of(maps_of(ROWS), 1):
        yield "the program makes other files"


def told(program, folder, acts, outcome):
    """All that differs for a row of the table."""
    files = store_of(changed(maps_of(ROWS), acts), 1)
    if isinstance(check(files), Place) != (outcome is DAMAGED):
        yield f"by the check: {check(files)}"
    yield from against_the_hand(program, folder, files, outcome)
    yield from differences(program, f"{folder}_again", files, ROWS)


def main(program):
    with work_folder() as work:
        lines = [f"the whole store: {text}" for text in made_by_the_program(program, work)]
        for number, (words, acts, outcome) in enumerate(TABLE):
            lines += [f"{words}: {text}" for text in told(program, os.path.join(work, str(number)), acts, outcome)]
    print("".join(f"{line}\n" for line in lines), end="")
    sys.exit(bool(lines))


if __name__ == "__main__":
    main(os.path.abspath(sys.argv[1]))
