#!/usr/bin/env python3
"""Measures how time and peak memory of `xod replay` grow with its input. Run it by hand; nothing in the gate does.

    bench/measure.py [PROGRAM]

The inputs are comment lines alone, `set` lines in one transaction, and statements of many forms, of 4, 8 and 16 MiB.
"""
import os
import resource
import subprocess
import sys
import tempfile
import time

MIB = 1 << 20
ORDER = b"commit\norder\nturn a begin\nturn a flush\nturn a end\n"


def comments(size):
    line = b"# a comment that means nothing, forty-eight bytes.\n"
    return line * (size // len(line))


def sets(size):
    front = b"session a\nbegin\nnew T as $x\n"
    pair = b"set $x p 3\nset $x p 4\n"
    return front + pair * ((size - len(front) - len(ORDER)) // len(pair)) + ORDER


def mixed(size):
    front = b"session a\nbegin\nnew T as $x\nnew T as $y\n"
    block = (
        b'set $x p 3\nset $x q "a text"\nlink $x l $y\nshow $x\nquery find T p 3\n'
        b"count intersect all T with T q\nunlink $x l $y\nunset $x q\nset $x p 4\n"
    )
    return front + block * ((size - len(front) - len(ORDER)) // len(block)) + ORDER


def measured(program, text):
    with tempfile.TemporaryFile() as source:
        source.write(text)
        source.seek(0)
        before = time.monotonic()
        child = subprocess.Popen([program, "replay"], stdin=source, stdout=subprocess.DEVNULL)
        _, status, usage = os.wait4(child.pid, 0)
        return time.monotonic() - before, usage.ru_maxrss * 1024, os.waitstatus_to_exitcode(status)


def main():
    here = os.path.dirname(os.path.dirname(os.path.abspath(__file__)))
    program = sys.argv[1] if len(sys.argv) > 1 else os.path.join(here, "crates/xod/out/xod")
    print("input     size MiB  seconds  peak MiB  peak/input  status")
    for name, make in (("comments", comments), ("sets", sets), ("mixed", mixed)):
        for size in (4, 8, 16):
            text = make(size * MIB)
            seconds, peak, status = measured(program, text)
            print(f"{name:9} {size:8}  {seconds:7.2f}  {peak / MIB:8.0f}  {peak / len(text):10.1f}  {status:6}")


if __name__ == "__main__":
    main()
