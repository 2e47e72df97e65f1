#!/usr/bin/env python3
"""Changes each byte of a small store's files in turn, and compares what the program says with a check of these files.

    tests/damaged_bytes.py PROGRAM

The store is made by the program: two entities of two types, a link, and a property that each of three commits sets, with a
sync behind each commit, so that older blocks stand in the body and older marks in the ends. One type's name is the front of
the other's, so that a node has a value. Each byte is one more, one less, or has all its bits turned over; a byte of the ends
is 0 too, which closes a gate. Where the check of the changed files (tests/store_files.py) gives a bad place, the program has
to tell just this one, and to leave each byte. Where it finds rows of a commit, the program has to tell just these, and to
leave what an opening leaves. A line is printed for each difference.
"""
import concurrent.futures
import os
import sys

sys.dont_write_bytecode = True

from store_files import Found, Rows, check, rows_of
from store_runs import differences, read_files, run, work_folder

MADE = b"""session a
begin
new T as $x
new Tb as $y
set $x p 3
link $x l $y
commit
sync
begin
set $x p "Ab"
commit
sync
begin
set $x p "aB"
commit
sync
order
""" + b"turn a begin\nturn a flush\nturn a end\nturn a sync\n" * 3

ROWS = Rows([b"T", b"Tb"], [b"p"], [b"l"], [1, 1], {(0, 0), (1, 0)}, {((0, 0), b"p"): b"aB"}, {((0, 0), b"l", (1, 0))})


def made(program, folder):
    """The files that the program makes by the script."""
    os.mkdir(folder)
    status, printed = run(program, folder, MADE)
    if status != 0:
        sys.exit(f"the store was not made: status {status}, {printed!r}")
    files = read_files(folder)
    found = check(files)
    if not isinstance(found, Found) or found.commit != 3 or found.marks != 3 or rows_of(found.maps) != ROWS:
        sys.exit(f"the check finds another store than the script makes: {found}")
    return files


def changes(files):
    """Each file's number, a place in it, and another byte for there."""
    for number, data in sorted(files.items()):
        for at, byte in enumerate(data):
            others = {(byte + 1) % 256, (byte - 1) % 256, byte ^ 255} | ({0} if number % 2 else set())
            for other in sorted(others - {byte}):
                yield number, at, other


def told(program, work, files, change):
    """What differs where one byte is another one, a line each."""
    number, at, other = change
    changed = {**files, number: files[number][:at] + bytes([other]) + files[number][at + 1 :]}
    folder = os.path.join(work, f"{number}_{at}_{other}")
    return [f"byte {at} of file {number} as {other}: {text}" for text in differences(program, folder, changed, ROWS)]


def main(program):
    with work_folder() as work, concurrent.futures.ThreadPoolExecutor() as pool:
        files = made(program, os.path.join(work, "made"))
        # the first change is none
        tried = pool.map(lambda change: told(program, work, files, change), [(0, 0, files[0][0]), *changes(files)])
        lines = [line for told_lines in tried for line in told_lines]
    print("".join(f"{line}\n" for line in lines), end="")
    sys.exit(bool(lines))


if __name__ == "__main__":
    main(os.path.abspath(sys.argv[1]))
