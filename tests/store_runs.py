"""Runs of the program over files that were written before, and what plain evaluation over rows says that they print.

A statement is a list of its words, or of queries: ["show", id], ["query", QUERY], ["new", NAME]. A query is a list of its
form and its parts: ["find", b"T", b"p", 3], ["union", QUERY, QUERY].
"""
import os
import re
import subprocess
import tempfile

from store_files import MOST_LOCALS, NO_ROWS, Place, check, count_pairs, folded, key_of, opened, rows_of

NAME = re.compile(rb"[A-Za-z_][A-Za-z0-9_]*")


def work_folder():
    """A folder for stores, in memory where the system has such a place: nothing of it is to outlive a crash."""
    return tempfile.TemporaryDirectory(dir="/dev/shm" if os.access("/dev/shm", os.W_OK) else None)


# ---- running


def write_files(folder, files):
    """A store's folder within a new folder."""
    os.makedirs(os.path.join(folder, "xod-store"))
    for number, data in files.items():
        with open(os.path.join(folder, "xod-store", f"{number}.log"), "wb") as file:
            file.write(data)


def read_files(folder):
    files = {}
    for name in os.listdir(os.path.join(folder, "xod-store")):
        if name.endswith(".log"):
            with open(os.path.join(folder, "xod-store", name), "rb") as file:
                files[int(name.removesuffix(".log"))] = file.read()
    return files


def run(program, folder, script):
    """The status of a run, and what it printed on both streams."""
    done = subprocess.run([program, "replay"], input=script, cwd=folder, stdout=subprocess.PIPE, stderr=subprocess.STDOUT)
    return done.returncode, done.stdout


# ---- texts


def text_of_id(entity):
    return b"%d-%d" % entity


def quoted(value):
    """A value as scripts and transcripts have it."""
    if isinstance(value, bool):
        return b"true" if value else b"false"
    if isinstance(value, int):
        return b"%d" % value
    return b'"' + value.replace(b"\\", b"\\\\").replace(b'"', b'\\"') + b'"'


def text_of_part(part):
    """A part of a query that is no value: a query, an id, a count or a name."""
    if isinstance(part, list):
        return text_of_query(part)
    if isinstance(part, tuple):
        return text_of_id(part)
    return b"%d" % part if isinstance(part, int) else part


def text_of_query(query):
    """A query as a script has it: its form and its parts, which are values behind the names of a type and a property."""
    parts = 3 if query[0] in ("find", "range", "prefix") else len(query)
    return b" ".join([query[0].encode(), *map(text_of_part, query[1:parts]), *map(quoted, query[parts:])])


# ---- queries over rows


def type_of(rows, entity):
    return rows.types[entity[0]]


def of_type(rows, name):
    return sorted(entity for entity in rows.ids if type_of(rows, entity) == name)


def with_key(rows, kind, name, is_wanted):
    """The ids of a type that have a property with a wanted value."""
    having = [entity for entity in of_type(rows, kind) if (entity, name) in rows.values]
    return [entity for entity in having if is_wanted(rows.values[entity, name])]


def targets(rows, sources, link):
    return sorted({target for source, name, target in rows.joined if name == link and source in sources})


def sources(rows, kind, link, is_wanted):
    having = {source for source, name, target in rows.joined if name == link and is_wanted(target)}
    return [entity for entity in of_type(rows, kind) if entity in having]


def sorted_by(rows, name, direction, ids):
    """By the keys of a property: equal ones by rising id, and in both directions those without it last."""
    having = sorted(entity for entity in ids if (entity, name) in rows.values)
    having.sort(key=lambda entity: key_of(rows.values[entity, name]), reverse=direction == b"down")
    return having + sorted(entity for entity in ids if (entity, name) not in rows.values)


def starts(value, front):
    return isinstance(value, bytes) and folded(value).startswith(folded(front))


FORMS = {
    "all": of_type,
    "find": lambda rows, kind, name, value: with_key(rows, kind, name, lambda own: key_of(own) == key_of(value)),
    "range": lambda rows, kind, name, low, high: with_key(rows, kind, name, lambda own: key_of(low) <= key_of(own) <= key_of(high)),
    "prefix": lambda rows, kind, name, front: with_key(rows, kind, name, lambda own: starts(own, front)),
    "with": lambda rows, kind, name: with_key(rows, kind, name, lambda own: True),
    "withlink": lambda rows, kind, link: sources(rows, kind, link, lambda target: True),
    "linked": lambda rows, kind, link, target: sources(rows, kind, link, lambda own: own == target),
    "from": lambda rows, source, link: targets(rows, [source], link),
    "union": lambda rows, one, other: sorted(set(ids_of(rows, one)) | set(ids_of(rows, other))),
    "intersect": lambda rows, one, other: sorted(set(ids_of(rows, one)) & set(ids_of(rows, other))),
    "minus": lambda rows, one, other: sorted(set(ids_of(rows, one)) - set(ids_of(rows, other))),
    "targets": lambda rows, link, query: targets(rows, ids_of(rows, query), link),
    "sort": lambda rows, name, direction, query: sorted_by(rows, name, direction, ids_of(rows, query)),
    "skip": lambda rows, count, query: ids_of(rows, query)[count:],
    "take": lambda rows, count, query: ids_of(rows, query)[:count],
}


def ids_of(rows, query):
    """The ids that a query finds in rows, in the order of its answer."""
    return FORMS[query[0]](rows, *query[1:])


# ---- statements that tell the rows


def shown(rows, entity):
    """What `show` answers."""
    if entity not in rows.ids:
        return b"refused no entity " + text_of_id(entity)
    values = sorted((name, value) for (of, name), value in rows.values.items() if of == entity)
    links = sorted((name, target) for source, name, target in rows.joined if source == entity)
    parts = [name + b"=" + quoted(value) for name, value in values] + [name + b">" + text_of_id(target) for name, target in links]
    return b" ".join([text_of_id(entity), type_of(rows, entity), *parts])


def drawn(rows, nexts, kind):
    """What `new` answers, where `nexts` has the next local number of each type by name, and takes the one that is drawn."""
    number, local = list(nexts).index(kind) if kind in nexts else len(nexts), nexts.get(kind, 0)
    if local == MOST_LOCALS:
        return b"refused ids spent %d" % number
    nexts[kind] = local + 1
    return text_of_id((number, local))


def queries_of_type(rows, kind):
    """Queries of the ids of a type, by each name and value that rows have."""
    yield ["all", kind]
    for name in filter(NAME.fullmatch, rows.properties):
        yield ["with", kind, name]
        yield ["sort", name, b"up", ["all", kind]]
        yield ["take", 1, ["sort", name, b"down", ["all", kind]]]
        yield ["minus", ["all", kind], ["with", kind, name]]
        yield ["range", kind, name, False, b"\xf4\x8f\xbf\xbf"]
    for name in filter(NAME.fullmatch, rows.links):
        yield ["withlink", kind, name]
        yield ["targets", name, ["all", kind]]


def queries_of_rows(rows):
    """Queries of all forms, which ask for all that rows have."""
    for kind in filter(NAME.fullmatch, rows.types):
        yield from queries_of_type(rows, kind)
    for (entity, name), value in sorted(rows.values.items(), key=lambda item: item[0]):
        kind = type_of(rows, entity)
        if NAME.fullmatch(kind) and NAME.fullmatch(name):
            yield ["find", kind, name, value]
            yield ["range", kind, name, value, value]
            if isinstance(value, bytes):
                yield ["prefix", kind, name, value]
    for source, name, target in sorted(rows.joined):
        kind = type_of(rows, source)
        if NAME.fullmatch(kind) and NAME.fullmatch(name):
            yield ["linked", kind, name, target]
            yield ["from", source, name]
            yield ["skip", 1, ["union", ["from", source, name], ["intersect", ["all", kind], ["withlink", kind, name]]]]


def statements_of(*asked):
    """Statements that ask for all that some rows have, each once: shows, queries, and `new` for each type and one besides."""
    shows = [["show", entity] for rows in asked for entity in sorted(rows.ids)]
    shows += [["show", (kind, local + 1)] for rows in asked for kind, local in sorted(rows.ids)]
    queries = [["query", query] for rows in asked for query in queries_of_rows(rows)]
    news = [["new", kind] for rows in asked for kind in [*filter(NAME.fullmatch, rows.types), b"Fresh"]]
    return list({spelled_statement(statement, 0): statement for statement in shows + queries + news}.values())


# ---- scripts and transcripts


def is_new(statement):
    return statement[0] == "new"


def spelled_statement(statement, number):
    if statement[0] == "show":
        return b"show " + text_of_id(statement[1])
    return b"query " + text_of_query(statement[1]) if statement[0] == "query" else b"new %s as $n%d" % (statement[1], number)


def framed(statements):
    """Lines of a session, each with its statement or None: what reads alone first; then what draws, in a transaction that
    commits nothing."""
    reads = [statement for statement in statements if not is_new(statement)]
    news = [statement for statement in statements if is_new(statement)]
    lines = [(b"begin read", None)] + [(spelled_statement(statement, 0), statement) for statement in reads] + [(b"end", None)]
    lines += [(b"begin", None)] + [(spelled_statement(statement, number), statement) for number, statement in enumerate(news)]
    return lines + [(b"end", None)]


ORDER = [b"turn r begin", b"turn r end", b"turn r begin", b"turn r end"]


def script_of(statements):
    return b"\n".join([b"session r", *(line for line, _ in framed(statements)), b"order", *ORDER, b""])


def transcript_of(statements, commit, rows, log_files):
    """What a run of the statements' script prints over rows at a commit."""
    nexts = dict(zip(rows.types, rows.nexts))
    lines, queries = [b"session r"], 0
    for number, (line, statement) in enumerate(framed(statements), 2):
        if statement is None:
            answer = b"ended" if line == b"end" else b"at %d" % commit
        elif statement[0] == "show":
            answer = shown(rows, statement[1])
        elif is_new(statement):
            answer = drawn(rows, nexts, statement[1])
        else:
            queries += 1
            answer = b" ".join([b"ids", *map(text_of_id, ids_of(rows, statement[1]))])
        lines.append(b"%d: %s" % (number, answer))
    lines.append(b"total commit %d hits 0 misses %d files %d" % (commit, queries, log_files))
    return b"\n".join([*lines, b"order", *ORDER, b""])


def differences(program, folder, files, usual_rows=NO_ROWS):
    """Runs the program over files in a new folder, and gives what differs from what the check of these files says, a text
    each. The script asks for what `usual_rows` have, and for what the rows have that the check finds."""
    found = check(files)
    is_damaged = isinstance(found, Place)
    rows = usual_rows if is_damaged else rows_of(found.maps)
    statements = statements_of(usual_rows, rows)
    after = files if is_damaged else opened(files, found)
    wanted = b"xod: damaged file %d at %d\n" % found if is_damaged else transcript_of(statements, found.commit, rows, count_pairs(after))
    write_files(folder, files)
    status, printed = run(program, folder, script_of(statements))
    if status != (8 if is_damaged else 0):
        yield f"status {status}, and printed {printed[:200]!r}, where the check gives {wanted[:60]!r}"
    elif printed != wanted:
        yield f"printed {first_other_line(printed, wanted)}"
    if read_files(folder) != after:
        yield "left other files"


def first_other_line(printed, wanted):
    """The first line that differs, as it was printed and as it was wanted."""
    for line, other in zip(printed.split(b"\n"), wanted.split(b"\n")):
        if line != other:
            return f"{line!r}, wanted {other!r}"
    return f"{len(printed)} bytes, wanted {len(wanted)}"
