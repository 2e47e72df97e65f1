#!/usr/bin/env python3
"""Kills a program that commits, again and again, and checks each time what the store has. Run it by hand.

    bench/killed.py PROGRAM [TIMES]

PROGRAM is the one of bench/commits.txt, built. It writes in a fresh folder, is killed at a random moment, and the store is
checked: it is to be at the last commit that was told to be synced, or at a later one, with just the keys up to it. Then it
goes on with the same folder, 200 times if no other number is given. What this shows is what a killed process leaves; the
system's own buffers stay.
"""
import os
import random
import subprocess
import sys
import tempfile
import time


def written(program, place, seconds):
    """Writes for so long, and gives the last commit that was told to be synced; 0 where none was."""
    child = subprocess.Popen([program, "store", "write"], cwd=place, stdout=subprocess.PIPE)
    time.sleep(seconds)
    ended = child.poll()
    child.kill()
    told, _ = child.communicate()
    if ended is not None:
        sys.exit(f"it ended by itself, with status {ended}: {told[-200:]!r}")
    # A line that was cut off by the kill was not told.
    whole = told[: told.rfind(b"\n") + 1].split(b"\n")[:-1]
    return int(whole[-1].split()[1]) if whole else 0


def checked(program, place):
    """The commit that the store is at."""
    answer = subprocess.run([program, "store", "check"], cwd=place, capture_output=True)
    if answer.returncode != 0:
        sys.exit(f"the check failed with status {answer.returncode}: {answer.stdout!r} {answer.stderr!r}")
    return int(answer.stdout.split()[1])


def main():
    program = os.path.abspath(sys.argv[1])
    times = int(sys.argv[2]) if len(sys.argv) > 2 else 200
    synced, commit, ahead, silent = 0, 0, 0, 0
    with tempfile.TemporaryDirectory() as place:
        for _ in range(times):
            told = written(program, place, random.uniform(0.002, 0.3))
            silent += told == 0
            synced = max(commit, told)
            now = checked(program, place)
            assert synced <= now, f"commit {synced} was synced, and the store is at {now}"
            ahead += synced < now
            commit = now
    print(f"{times} kills, {silent} of them before a sync; {ahead} stores were ahead of what was told; at commit {commit}")


if __name__ == "__main__":
    main()
