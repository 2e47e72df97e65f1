#!/usr/bin/env python3
"""Measures runs of the built program over a store in a folder, beside the same work by a plain loop (bench/plain.rs).

    bench/store.py [PROGRAM]

PROGRAM is crates/xod/out/xod where none is given. The plain loop keeps a `BTreeMap` and one file, with a sync where the
script has one: no history, no index but the map, no snapshot. Each line: what was done, the seconds of the program and of
the loop, and the ratio. The program's seconds hold starting, reading the script and printing the transcript.

The lines of entities with five properties and two links come last, the best of RUNS runs each. There the loop keeps five
`BTreeMap`s, which have the keys of the store's tables of entities, properties, index, links and links back, and its file
takes one write a transaction and one sync at the end. The next three numbers are processor seconds of both and their
ratio, the starting of the loop included; the last two are the peak memory of both in MiB.
"""
import os
import subprocess
import sys
import tempfile
import time

HERE = os.path.dirname(os.path.abspath(__file__))
PROGRAM = os.path.abspath(sys.argv[1]) if len(sys.argv) > 1 else os.path.join(HERE, "../crates/xod/out/xod")


def run(folder, script):
    """The seconds of a run over a folder, and what it printed."""
    start = time.perf_counter()
    done = subprocess.run([PROGRAM, "replay"], input=script.encode(), cwd=folder, stdout=subprocess.PIPE, check=True)
    return time.perf_counter() - start, done.stdout.decode()


def told(what, seconds, folder, work, count):
    said = subprocess.run([f"{TOOLS}/plain", work, f"{folder}/plain", str(count)], stdout=subprocess.PIPE, check=True)
    plain = float(said.stdout)
    print(f"{what:55} {seconds:9.3f} {plain:9.4f} {seconds / plain:9.1f}", flush=True)


def commits(count, synced):
    """Commits of one entity each, with or without a sync behind each."""
    with tempfile.TemporaryDirectory() as folder:
        one = "begin\nnew T as $x\nset $x n 1\ncommit\n" + ("sync\n" if synced else "")
        turns = "turn a begin\nturn a flush\nturn a end\n" + ("turn a sync\n" if synced else "")
        seconds, text = run(folder, "session a\n" + one * count + "order\n" + turns * count)
        assert f"total commit {count} " in text
        told(f"{count} commits of one entity" + (", each synced" if synced else ""), seconds, folder, "synced" if synced else "commits", count)


def whole(count):
    """One commit of many entities, an opening, and finds by value."""
    with tempfile.TemporaryDirectory() as folder:
        made = "".join(f"new T as $x\nset $x n {number}\n" for number in range(count))
        seconds, text = run(folder, f"session a\nbegin\n{made}commit\norder\nturn a begin\nturn a flush\nturn a end\n")
        assert "total commit 1 " in text
        told(f"one commit of {count} entities with a property", seconds, folder, "whole", count)
        told("an opening of it, and an empty script", run(folder, "")[0], folder, "open", count)
        asked = "".join(f"query find T n {number}\n" for number in range(count))
        seconds, text = run(folder, f"session a\nbegin read\n{asked}end\norder\nturn a begin\nturn a end\n")
        assert text.count(": ids 0-") == count
        told(f"an opening and {count} finds by value", seconds, folder, "finds", count)


def value_of(number, prop):
    """A property of an entity: three that it has alone, one that two share, one that four share."""
    return (number, f'"Entity {number:08}"', f'"user{number}@example.org"', number // 2, f'"Team {number // 4}"')[prop]


def lines_of(number):
    """The lines that make an entity, with five properties and links to the two before it."""
    one = f"new T as $e{number % 3}\n"
    one += "".join(f"set $e{number % 3} {PROPS[prop]} {value_of(number, prop)}\n" for prop in range(5))
    if number >= 2:
        one += f"link $e{number % 3} next $e{(number - 1) % 3}\nlink $e{number % 3} over $e{(number - 2) % 3}\n"
    return one


def timed(folder, words, script=""):
    """A run of some words over a folder: its seconds, its processor seconds, its peak memory in MiB, and what it printed."""
    with tempfile.TemporaryFile() as source, tempfile.TemporaryFile() as sink:
        source.write(script.encode())
        source.seek(0)
        start = time.perf_counter()
        child = subprocess.Popen(words, stdin=source, stdout=sink, cwd=folder)
        _, status, usage = os.wait4(child.pid, 0)
        seconds = time.perf_counter() - start
        assert status == 0
        sink.seek(0)
        return seconds, usage.ru_utime + usage.ru_stime, usage.ru_maxrss / 1024, sink.read().decode()


def looped(folder, work, *counts):
    """The like run of the plain loop, whose seconds are those that it tells."""
    _, busy, peak, told = timed(folder, [f"{TOOLS}/plain", work, f"{folder}/plain", *map(str, counts)])
    return float(told), busy, peak


def best(what, runs, peak=False):
    """The line of the best of some runs of the program and of the loop."""
    seconds, busy, most = (min(numbers) for numbers in zip(*(run[0] for run in runs)))
    plain, plain_busy, plain_most = (min(numbers) for numbers in zip(*(run[1] for run in runs)))
    line = f"{what:55} {seconds:9.3f} {plain:9.4f} {seconds / plain:9.1f} {busy:9.3f} {plain_busy:9.4f} {busy / plain_busy:9.1f}"
    print(line + (f" {most:9.0f} {plain_most:9.0f}" if peak else ""), flush=True)


def entities(count, in_one, asked):
    """Entities made in transactions of some each, an opening, and finds by value."""
    commits = -(-count // in_one)
    batches = ("".join(lines_of(number) for number in range(first, min(count, first + in_one))) for first in range(0, count, in_one))
    script = "session a\n" + "".join(f"begin\n{batch}commit\n" for batch in batches)
    script += "order\n" + "turn a begin\nturn a flush\nturn a end\n" * commits
    of = [(turn // 5 * 7919 % count, turn % 5) for turn in range(asked)]
    lines = "".join(f"query find T {PROPS[prop]} {value_of(number, prop)}\n" for number, prop in of)
    finding = f"session a\nbegin read\n{lines}end\norder\nturn a begin\nturn a end\n"
    replay, makes, opens, finds = [PROGRAM, "replay"], [], [], []
    for _ in range(RUNS):
        with tempfile.TemporaryDirectory() as folder:
            *numbers, text = timed(folder, replay, script)
            assert f"total commit {commits} " in text
            makes.append((numbers, looped(folder, "entities", count, in_one)))
            if asked:
                *numbers, _ = timed(folder, replay)
                opens.append((numbers, looped(folder, "tables", count)))
                *numbers, text = timed(folder, replay, finding)
                assert text.count(": ids 0-") == asked and text.count(" 0-") == asked // 5 * 9
                finds.append((numbers, looped(folder, "found", count, asked)))
    best(f"{count} entities of 5 properties and 2 links in {commits}", makes, commits == 1)
    if asked:
        best("an opening of that store, and an empty script", opens)
        best(f"an opening of it and {asked} finds by value", finds)


RUNS = 5
PROPS = ("n", "name", "mail", "pair", "team")

with tempfile.TemporaryDirectory() as TOOLS:
    subprocess.run(["rustc", "-O", "-o", f"{TOOLS}/plain", os.path.join(HERE, "plain.rs")], check=True)
    print(f"{'':55} {'program':>9} {'plain':>9} {'ratio':>9}")
    commits(1000, False)
    commits(10000, False)
    commits(1000, True)
    whole(2000)
    whole(20000)
    print(f"{'':55} {'program':>9} {'plain':>9} {'ratio':>9} {'busy':>9} {'plain':>9} {'ratio':>9} {'peak':>9} {'plain':>9}")
    for size in (5000, 10000, 20000):
        entities(size, size, 0)
    for size in (5000, 10000, 20000):
        entities(size, 100, 5 * size)
