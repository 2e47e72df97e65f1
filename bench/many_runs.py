#!/usr/bin/env python3
"""Plays random scripts over stores in folders, one run after another, and compares all with a model over rows in Python.

    bench/many_runs.py [SECONDS [SEED [PROGRAM]]]

60 seconds, seed 1 and crates/xod/out/xod where none are given. Each store has one to six runs, each with one to three
sessions, a random order and a random target. After a run its status, its transcript, and the rows and the commit that the
files store (tests/store_files.py) have to be those of the model. Half of the runs are long ones that are killed at a random
moment, if they have not ended before: then the files have to store the rows after a front of the commits, and the next run
goes on from there. Scripts have no `do` blocks, no exclusive transactions and no stops. A difference is printed with its
seed and its script.
"""
import os
import random
import shutil
import signal
import subprocess
import sys
import time

HERE = os.path.dirname(os.path.abspath(__file__))
sys.path.insert(0, os.path.join(HERE, "../tests"))
sys.dont_write_bytecode = True

from store_files import LONGEST_TEXT, NO_ROWS, Found, Rows, check, count_pairs, rows_of
from store_runs import ids_of, quoted, read_files, shown, text_of_id, text_of_query, work_folder

TYPES, PROPERTIES, LINKS = (b"T", b"U", b"Tt"), (b"p", b"q", b"pp"), (b"l", b"m", b"lm")
VARIABLES = (b"$a", b"$b")
SHARED = ("begin", "flush", "revert", "end", "sync")
TARGETS = (None, 4096, 4096, 5000, 65536)


def copied(rows):
    return Rows(list(rows.types), list(rows.properties), list(rows.links), list(rows.nexts), set(rows.ids), dict(rows.values), set(rows.joined))


# ---- random scripts: a statement is a tuple of its first word and its parts, where a variable is bytes and an id a pair


def any_value(dice, longest):
    kind = dice.random()
    if kind < 0.15:
        return dice.choice((True, False))
    if kind < 0.5:
        return dice.choice((-3, -1, 0, 1, 2, 7, 2**63 - 1, -(2**63)))
    if kind < 0.85:
        return dice.choice((b"", b"a", b"A", b"ab", b"Ab", b'b"x\\', "Ü".encode(), "ü".encode()))
    return dice.choice((b"x", b"Y")) * dice.choice((300, 1023, LONGEST_TEXT, longest))


def any_id(dice, rows):
    return dice.choice(sorted(rows.ids)) if rows.ids and dice.random() < 0.85 else (dice.randrange(3), dice.randrange(4))


def any_entity(dice, rows):
    return dice.choice(VARIABLES) if dice.random() < 0.4 else any_id(dice, rows)


def simple_query(dice, rows):
    kind, prop, link = dice.choice(TYPES), dice.choice(PROPERTIES), dice.choice(LINKS)
    value, other = any_value(dice, LONGEST_TEXT), any_value(dice, LONGEST_TEXT)
    return dice.choice((
        ["all", kind], ["find", kind, prop, value], ["range", kind, prop, value, other],
        ["prefix", kind, prop, dice.choice((b"", b"a", b"A", b"x", b"ab"))], ["with", kind, prop], ["withlink", kind, link],
        ["linked", kind, link, any_id(dice, rows)], ["from", any_id(dice, rows), link],
    ))


def any_query(dice, rows, depth=0):
    if depth > 2 or dice.random() < 0.5:
        return simple_query(dice, rows)
    part = any_query(dice, rows, depth + 1)
    form = dice.choice(("union", "intersect", "minus", "targets", "sort", "skip", "take"))
    if form == "targets":
        return [form, dice.choice(LINKS), part]
    if form == "sort":
        return [form, dice.choice(PROPERTIES), dice.choice((b"up", b"down")), part]
    return [form, dice.randrange(4), part] if form in ("skip", "take") else [form, part, any_query(dice, rows, depth + 1)]


def any_statement(dice, rows):
    """A statement of an open transaction that does not end it."""
    entity, other = any_entity(dice, rows), any_entity(dice, rows)
    prop, link, kind = dice.choice(PROPERTIES), dice.choice(LINKS), dice.random()
    if kind < 0.2:
        return "new", dice.choice(TYPES), dice.choice(VARIABLES)
    if kind < 0.4:
        return "set", entity, prop, any_value(dice, LONGEST_TEXT + 1)
    if kind < 0.65:
        return dice.choice((
            ("unset", entity, prop), ("unlinkall", entity, link), ("delete", entity),
            *((word, entity, link, other) for word in ("link", "setlink", "unlink")),
        ))
    if kind < 0.9:
        return dice.choice((("show", entity), ("query", any_query(dice, rows)), ("count", any_query(dice, rows))))
    return (dice.choice(("revert", "flush", "flush", "sync")),)


def any_script(dice, rows, is_long):
    statements = []
    for _ in range(dice.randrange(20, 60) if is_long else dice.randrange(1, 4)):
        statements.append(("begin", dice.choice((b"", b"", b"", b" read"))))
        statements += [any_statement(dice, rows) for _ in range(dice.randrange(9))]
        statements.append((dice.choice(("end", "commit", "commit")),))
        statements += [("sync",)] * (dice.random() < 0.3)
    return statements


def spelled_entity(entity):
    return entity if isinstance(entity, bytes) else text_of_id(entity)


def spelled(statement):
    word, *parts = statement
    if word == "begin":
        return b"begin" + parts[0]
    if word == "new":
        return b"new %s as %s" % tuple(parts)
    if word in ("query", "count"):
        return word.encode() + b" " + text_of_query(parts[0])
    if word == "set":
        return b"set %s %s %s" % (spelled_entity(parts[0]), parts[1], quoted(parts[2]))
    return b" ".join([word.encode(), *(spelled_entity(part) for part in parts)])


# ---- the model


class Session:
    """A session over rows: where its script has come, its variables, its transaction, and its printed lines."""

    def __init__(self, name, statements, line):
        self.name, self.statements, self.line, self.at = name, statements, line, 0
        self.lines, self.variables, self.misses = [], {}, 0
        self.rows, self.base, self.changes, self.reads_alone, self.has_flushed = None, None, 0, False, False

    def say(self, answer):
        self.lines.append(b"%d: %s" % (self.line + self.at, answer))

    def next_shared(self):
        """The shared step that comes next; None where there is none."""
        for place, (word, *_) in enumerate(self.statements[self.at :]):
            if word == "commit":
                return "end" if self.has_flushed and place == 0 else "flush"
            if word in SHARED:
                return word
        return None

    def begin(self, rows, commit):
        self.rows, self.base, self.changes = copied(rows), commit, 0

    def answer_private(self):
        """Answers the private statements up to the next shared step."""
        while self.at < len(self.statements) and self.statements[self.at][0] not in (*SHARED, "commit"):
            self.say(self.private(*self.statements[self.at]))
            self.at += 1

    def private(self, word, *parts):
        if word in ("query", "count"):
            self.misses += 1
            ids = ids_of(self.rows, parts[0])
            return b"count %d" % len(ids) if word == "count" else b" ".join([b"ids", *map(text_of_id, ids)])
        entities = [] if word == "new" else [parts[0], *parts[2:]] if word in ("link", "setlink", "unlink") else [parts[0]]
        unset = [entity for entity in entities if isinstance(entity, bytes) and entity not in self.variables]
        if unset:
            return b"refused unset " + unset[0]
        entities = [self.variables.get(entity, entity) for entity in entities]
        if word == "show":
            return shown(self.rows, entities[0])
        return b"refused read only" if self.reads_alone else self.made(*parts) if word == "new" else self.acted(word, entities, *parts[1:])

    def made(self, kind, variable):
        if kind not in self.rows.types:
            self.rows.types.append(kind)
            self.rows.nexts.append(0)
        number = self.rows.types.index(kind)
        entity = (number, self.rows.nexts[number])
        self.rows.nexts[number] += 1
        self.rows.ids.add(entity)
        self.variables[variable] = entity
        self.changes += 1
        return text_of_id(entity)

    def acted(self, word, entities, *parts):
        needed = entities if word in ("link", "setlink") else entities[:1]
        missing = [entity for entity in needed if entity not in self.rows.ids]
        if missing:
            return b"refused no entity " + text_of_id(missing[0])
        if word == "set" and isinstance(parts[1], bytes) and len(parts[1]) > LONGEST_TEXT:
            return b"refused text too long %d" % len(parts[1])
        before = self.changes
        ACTS[word](self, *entities, *parts[: 2 if word == "set" else 1])
        return b"ok" if self.changes > before else b"same"

    def set(self, entity, prop, value):
        old = self.rows.values.get((entity, prop))
        if type(old) is not type(value) or old != value:
            self.list_name(self.rows.properties, prop)
            self.rows.values[entity, prop] = value
            self.changes += 1

    def unset(self, entity, prop):
        self.changes += self.rows.values.pop((entity, prop), None) is not None

    def delete(self, entity):
        for key in [key for key in self.rows.values if key[0] == entity]:
            del self.rows.values[key]
        self.cut_links(lambda link: entity in (link[0], link[2]))
        self.rows.ids.discard(entity)
        self.changes += 1

    def link(self, source, target, name):
        if (source, name, target) not in self.rows.joined:
            self.list_name(self.rows.links, name)
            self.rows.joined.add((source, name, target))
            self.changes += 1

    def set_link(self, source, target, name):
        self.cut_links(lambda link: link[:2] == (source, name) and link[2] != target)
        self.link(source, target, name)

    def unlink(self, source, target, name):
        self.cut_links(lambda link: link == (source, name, target))

    def unlink_all(self, source, name):
        self.cut_links(lambda link: link[:2] == (source, name))

    def cut_links(self, is_cut):
        cut = [link for link in self.rows.joined if is_cut(link)]
        self.rows.joined.difference_update(cut)
        self.changes += len(cut)

    @staticmethod
    def list_name(names, name):
        if name not in names:
            names.append(name)


ACTS = {
    "set": Session.set, "unset": Session.unset, "delete": lambda session, entity: session.delete(entity),
    "link": Session.link, "setlink": Session.set_link, "unlink": Session.unlink, "unlinkall": Session.unlink_all,
}


class World:
    """The newest rows and their commit, and the rows of each commit since the start of the run."""

    def __init__(self, rows, commit):
        self.rows, self.commit, self.past = rows, commit, {commit: rows}

    def take(self, session):
        """Takes a session's next shared step."""
        session.answer_private()
        word, *parts = session.statements[session.at]
        if word == "commit":
            session.say(b"ended" if session.has_flushed else self.flush(session))
            session.has_flushed = not session.has_flushed
            session.at += not session.has_flushed
            return
        if word == "begin":
            session.reads_alone = bool(parts[0])
        if word in ("begin", "revert"):
            session.begin(self.rows, self.commit)
        session.say({"sync": b"synced", "end": b"ended"}.get(word) or (self.flush(session) if word == "flush" else b"at %d" % self.commit))
        session.at += 1

    def flush(self, session):
        if not session.changes:
            return b"nothing"
        if session.base != self.commit:
            return b"conflict base %d now %d" % (session.base, self.commit)
        self.rows, self.commit = copied(session.rows), self.commit + 1
        self.past[self.commit] = self.rows
        session.base, session.changes = self.commit, 0
        return b"committed %d" % self.commit


# ---- runs


def played(dice, world, is_long):
    """A random script with its order, as bytes, and what a run of it prints but for the number of log files."""
    text, sessions, line, order = b"", [], 1, []
    for name in dice.sample((b"a", b"b", b"c", b"dd"), dice.randrange(1, 4)):
        statements = any_script(dice, world.rows, is_long)
        text += b"".join(words + b"\n" for words in [b"session " + name, *map(spelled, statements)])
        sessions.append(Session(name, statements, line + 1))
        line += 1 + len(statements)
    while going := [session for session in sessions if session.next_shared()]:
        session = dice.choice(going)
        order.append(b"turn %s %s" % (session.name, session.next_shared().encode()))
        world.take(session)
    for session in sessions:
        session.answer_private()
    told = [line for session in sessions for line in [b"session " + session.name, *session.lines]]
    total = b"total commit %d hits 0 misses %d files " % (world.commit, sum(session.misses for session in sessions))
    return text + b"\n".join([b"order", *order, b""]), b"\n".join([*told, total]), b"\n".join([b"", b"order", *order, b""])


def stored(folder):
    """What the files of a folder store, and how many log files they are."""
    files = read_files(folder) if os.path.isdir(os.path.join(folder, "xod-store")) else {}
    return check(files), count_pairs(files)


def killed(dice, words, folder, text, world, counts):
    """Kills a run at a random moment; what is wrong with what it leaves, or None. The world goes back to what is stored.
    A kill counts where the run had not ended by itself, and once more where it left some of the run's commits, not all."""
    child = subprocess.Popen(words, stdin=subprocess.PIPE, cwd=folder, stdout=subprocess.DEVNULL)
    child.stdin.write(text)
    child.stdin.close()
    time.sleep(dice.random() * 0.006)
    child.kill()
    is_killed = child.wait() == -signal.SIGKILL
    found, _ = stored(folder)
    if not isinstance(found, Found) or rows_of(found.maps) != world.past.get(found.commit):
        return f"killed, and no front of the commits is there: {found}"
    counts["killed"] += is_killed
    counts["killed between commits"] += is_killed and min(world.past) < found.commit < world.commit
    world.rows, world.commit = world.past[found.commit], found.commit
    return None


def ended(words, folder, text, wanted, world):
    """Plays a run to its end; what is wrong with it, or None."""
    done = subprocess.run(words, input=text, cwd=folder, stdout=subprocess.PIPE)
    found, log_files = stored(folder)
    whole = wanted[0] + b"%d" % log_files + wanted[1]
    if done.returncode != 0 or done.stdout != whole:
        lines = zip(done.stdout.split(b"\n"), whole.split(b"\n"))
        return f"status {done.returncode}, {next((pair for pair in lines if pair[0] != pair[1]), 'other lengths')}"
    if not isinstance(found, Found) or found.commit != world.commit or rows_of(found.maps) != world.rows:
        return f"other rows are stored: {found}"
    return None


def lived(dice, program, folder, counts):
    """The life of one store; the first thing that is wrong with it and its script, or None."""
    rows, commit = copied(NO_ROWS), 0
    for _ in range(dice.randrange(1, 7)):
        world, target, is_killed = World(rows, commit), dice.choice(TARGETS), dice.random() < 0.5
        text, *wanted = played(dice, world, is_killed)
        words = [program, "replay", *(["--target", str(target)] if target else [])]
        wrong = killed(dice, words, folder, text, world, counts) if is_killed else ended(words, folder, text, wanted, world)
        counts["long runs" if is_killed else "whole runs"] += 1
        if wrong:
            return wrong, text
        rows, commit = world.rows, world.commit
    return None


def main(seconds=60, seed=1, program=os.path.join(HERE, "../crates/xod/out/xod")):
    counts = dict.fromkeys(("stores", "whole runs", "long runs", "killed", "killed between commits"), 0)
    differences, end = 0, time.time() + float(seconds)
    with work_folder() as work:
        while time.time() < end:
            folder = os.path.join(work, str(counts["stores"]))
            os.mkdir(folder)
            wrong = lived(random.Random(f"{seed} {counts['stores']}"), os.path.abspath(program), folder, counts)
            if wrong:
                differences += 1
                print(f"seed {seed}, store {counts['stores']}: {wrong[0]}\n{wrong[1].decode()}", flush=True)
            shutil.rmtree(folder)
            counts["stores"] += 1
    print(", ".join(f"{count} {what}" for what, count in counts.items()) + f", {differences} differences")
    sys.exit(bool(differences))


if __name__ == "__main__":
    main(*sys.argv[1:])
