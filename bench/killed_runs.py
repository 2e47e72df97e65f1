#!/usr/bin/env python3
"""Kills runs of the built program over a folder, again and again, and starts it again. Run it by hand.

    bench/killed_runs.py [PROGRAM [TIMES]]

PROGRAM is crates/xod/out/xod where none is given. Each run makes commits of one entity each, with a sync behind each tenth,
and is killed at a random moment. Then a run that only reads tells at which commit the store is and how many entities it has:
as many as commits, and no fewer than before. 200 times over one folder, if no other number is given. What this shows is
what a killed process leaves; the system's own buffers stay.
"""
import os
import random
import subprocess
import sys
import tempfile
import time

HERE = os.path.dirname(os.path.abspath(__file__))
PROGRAM = os.path.abspath(sys.argv[1]) if len(sys.argv) > 1 else os.path.join(HERE, "../crates/xod/out/xod")
TIMES = int(sys.argv[2]) if len(sys.argv) > 2 else 200

ONE = "begin\nnew T as $x\nset $x n 1\ncommit\n"
TURNS = "turn a begin\nturn a flush\nturn a end\n"
TENTHS = 200
SCRIPT = "session a\n" + (ONE * 10 + "sync\n") * TENTHS + "order\n" + (TURNS * 10 + "turn a sync\n") * TENTHS
READER = "session r\nbegin read\ncount all T\nend\norder\nturn r begin\nturn r end\n"


def killed(place, seconds):
    """Starts a run, kills it after so long, and says whether it had ended by itself."""
    child = subprocess.Popen([PROGRAM, "replay"], cwd=place, stdin=subprocess.PIPE, stdout=subprocess.DEVNULL)
    child.stdin.write(SCRIPT.encode())
    child.stdin.close()
    time.sleep(seconds)
    ended = child.poll() is not None
    child.kill()
    child.wait()
    return ended


def found(place):
    """The commit that the store is at, and how many entities it has."""
    done = subprocess.run([PROGRAM, "replay"], input=READER.encode(), cwd=place, stdout=subprocess.PIPE)
    if done.returncode != 0:
        sys.exit(f"a reader ended with status {done.returncode}: {done.stdout!r}")
    lines = done.stdout.decode().splitlines()
    return int(lines[1].removeprefix("2: at ")), int(lines[2].removeprefix("3: count "))


def main():
    commit, ended, still = 0, 0, 0
    with tempfile.TemporaryDirectory() as place:
        for _ in range(TIMES):
            ended += killed(place, random.uniform(0.002, 0.6))
            now, entities = found(place)
            assert entities == now, f"{entities} entities at commit {now}"
            assert commit <= now, f"the store was at commit {commit}, and is at {now}"
            still += now == commit
            commit = now
    print(f"{TIMES} runs, {ended} of them ended before the kill, {still} made no commit; at commit {commit}")


if __name__ == "__main__":
    main()
