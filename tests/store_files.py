"""The files of a store, by docs/FORMATS.md alone: what is written, and what a check of files finds.

Nothing here is taken from the program. Files are a dict from the number of a volume file to its bytes; an address is a pair
of a log file's number and a place in its body, and pairs compare as addresses do. Maps are a dict from the number of a tree
to a dict from keys to values, where a tree without keys is an empty dict.
"""
import collections

NAMES, NUMBERS, NEXT, ENTITIES, PROPERTIES, INDEX, LINKS, BACK = TREES = range(1, 9)
LIST_TYPES, LIST_PROPERTIES, LIST_LINKS = range(1, 4)
LEAF, NODE, ROOT = 1, 2, 3
FORMAT = 1
MARK = 13
CLOSED = bytes(MARK)
LAST_LOG_FILE = 2**32 - 1

MOST_NAMES = 4096
LONGEST_NAME = 255
LONGEST_TEXT = 1024
MOST_LOCALS = 2**32


def u16(number):
    return number.to_bytes(2, "big")


def u32(number):
    return number.to_bytes(4, "big")


def u64(number):
    return number.to_bytes(8, "big")


def number_in(data):
    return int.from_bytes(data, "big")


# ---- records

# a leaf, whose value is there and which has no children, or a node; `value` is None in a node without one
Branch = collections.namedtuple("Branch", "key value children")
# the commit, and a list of pairs of a tree's number and its address
Root = collections.namedtuple("Root", "commit trees")


def spelled_links(links):
    return b"".join(bytes([byte]) + u32(file) + u64(place) for byte, (file, place) in links)


def spelled_part(part):
    return u16(len(part)) + part


def spelled(record):
    """The one spelling of a record."""
    if isinstance(record, Root):
        front = bytes([ROOT, FORMAT]) + u64(record.commit) + bytes([len(record.trees)])
        return front + spelled_links(record.trees)
    if not record.children:
        return bytes([LEAF]) + spelled_part(record.key) + spelled_part(record.value)
    value = b"\0" if record.value is None else b"\1" + spelled_part(record.value)
    return bytes([NODE]) + spelled_part(record.key) + value + u16(len(record.children)) + spelled_links(record.children)


class NoRecord(Exception):
    """No record stands at the front of the bytes."""


class Bytes:
    """Bytes that are read from a place on."""

    def __init__(self, data, at):
        self.data, self.at = data, at

    def take(self, count):
        taken = self.data[self.at : self.at + count]
        if len(taken) < count:
            raise NoRecord
        self.at += count
        return taken

    def number(self, count):
        return number_in(self.take(count))

    def part(self):
        return self.take(self.number(2))

    def one_of(self, *numbers):
        number = self.number(1)
        if number not in numbers:
            raise NoRecord
        return number

    def links(self, count):
        """Links whose bytes rise strictly."""
        links = [(self.number(1), (self.number(4), self.number(8))) for _ in range(count)]
        if any(link[0] >= later[0] for link, later in zip(links, links[1:])):
            raise NoRecord
        return links


def taken_node(data):
    key = data.part()
    value = data.part() if data.one_of(0, 1) else None
    count = data.number(2)
    if count > 256 or count < (2 if value is None else 1):
        raise NoRecord
    return Branch(key, value, data.links(count))


def taken_root(data):
    data.one_of(FORMAT)
    commit, count = data.number(8), data.number(1)
    if count > 32:
        raise NoRecord
    return Root(commit, data.links(count))


def record_at(body, at):
    """The record that stands at a place of some bytes, and the place behind it; None where none stands there whole."""
    data = Bytes(body, at)
    try:
        kind = data.one_of(LEAF, NODE, ROOT)
        record = Branch(data.part(), data.part(), []) if kind == LEAF else taken_node(data) if kind == NODE else taken_root(data)
    except NoRecord:
        return None
    return record, data.at


# ---- tries, blocks and whole stores


def put(body, record):
    """Puts a record behind a body of log file 0, and gives its address."""
    at = len(body)
    body.extend(spelled(record))
    return 0, at


def common_front(keys):
    """The longest front that all keys share: that of the least and the greatest."""
    least, greatest = min(keys), max(keys)
    length = 0
    while length < len(least) and least[length] == greatest[length]:
        length += 1
    return least[:length]


def put_trie(body, pairs):
    """Puts the trie of pairs, of which there is one at least: children before their parents, by rising byte."""
    front = common_front(pairs)
    below = collections.defaultdict(dict)
    for key, value in pairs.items():
        if key != front:
            below[key[len(front)]][key[len(front) + 1 :]] = value
    children = [(byte, put_trie(body, below[byte])) for byte in sorted(below)]
    return put(body, Branch(front, pairs.get(front), children))


def spelled_mark(end, back, gate):
    return u64(end) + u32(back) + bytes([gate])


def store_of(maps, commit):
    """The files of a store that came to these maps in one block: a body, and ends with one open mark."""
    body = bytearray()
    trees = [(tree, put_trie(body, maps[tree])) for tree in TREES if maps[tree]]
    _, root_at = put(body, Root(commit, trees))
    return {0: bytes(body), 1: spelled_mark(len(body), len(body) - root_at, 1) + CLOSED}


# ---- rows and their tables

# The lists of names, which are bytes; for each type its next local number; the set of the ids, pairs of a type's number and
# a local number; a dict from pairs of an id and a name to the value, which is a bool, an int, or the bytes of a text; and
# the set of the links, each a source, a name and a target.
Rows = collections.namedtuple("Rows", "types properties links nexts ids values joined")

NO_ROWS = Rows([], [], [], [], set(), {}, set())


def folded(text):
    """A text with `A` to `Z` as `a` to `z`, and no other byte changed."""
    return bytes(byte + 32 if 65 <= byte <= 90 else byte for byte in text)


def key_of(value):
    """The key of a value, by which the index finds it."""
    if isinstance(value, bool):
        return bytes([1, value])
    if isinstance(value, int):
        return b"\2" + u64(value + 2**63)
    return b"\3" + folded(value) + b"\0"


def stored(value):
    """A value as it is stored."""
    if isinstance(value, bool):
        return bytes([1, value])
    if isinstance(value, int):
        return b"\2" + value.to_bytes(8, "big", signed=True)
    return b"\3" + value


def id_bytes(entity):
    return u32(entity[0]) + u32(entity[1])


def is_text(text):
    """UTF-8 without a control character."""
    try:
        text.decode("utf-8")
    except UnicodeDecodeError:
        return False
    return all(byte >= 32 and byte != 127 for byte in text)


def are_names(names):
    fit = all(1 <= len(name) <= LONGEST_NAME and is_text(name) for name in names)
    return fit and len(set(names)) == len(names) <= MOST_NAMES


def is_value(value):
    return not isinstance(value, bytes) or (is_text(value) and len(value) <= LONGEST_TEXT)


def is_sound(rows):
    """Whether names, next numbers, entities, properties and links go together and keep to the limits."""
    drawn = all(kind < len(rows.nexts) and local < rows.nexts[kind] for kind, local in rows.ids)
    return (
        are_names(rows.types) and are_names(rows.properties) and are_names(rows.links)
        and len(rows.nexts) == len(rows.types) and all(number <= MOST_LOCALS for number in rows.nexts)
        and drawn
        and all(entity in rows.ids and name in rows.properties and is_value(value) for (entity, name), value in rows.values.items())
        and all(source in rows.ids and target in rows.ids and name in rows.links for source, name, target in rows.joined)
    )


def maps_of(rows):
    """The tables of rows whose names are listed: the eight trees."""
    maps = {tree: {} for tree in TREES}
    for place, names in ((LIST_TYPES, rows.types), (LIST_PROPERTIES, rows.properties), (LIST_LINKS, rows.links)):
        for number, name in enumerate(names):
            maps[NAMES][bytes([place]) + u32(number)] = name
            maps[NUMBERS][bytes([place]) + name] = u32(number)
    maps[NEXT] = {u32(kind): u64(number) for kind, number in enumerate(rows.nexts)}
    maps[ENTITIES] = {id_bytes(entity): b"" for entity in rows.ids}
    for (entity, name), value in rows.values.items():
        number = u32(rows.properties.index(name))
        maps[PROPERTIES][id_bytes(entity) + number] = stored(value)
        maps[INDEX][u32(entity[0]) + number + key_of(value) + u32(entity[1])] = b""
    for source, name, target in rows.joined:
        number = u32(rows.links.index(name))
        maps[LINKS][id_bytes(source) + number + id_bytes(target)] = b""
        maps[BACK][id_bytes(target) + number + id_bytes(source)] = b""
    return maps


# ---- the rows of maps


def names_in(pairs, place):
    """What stands at the keys of a list, by rising key."""
    return [pairs[key] for key in sorted(pairs) if len(key) == 5 and key[0] == place]


def id_in(data):
    return number_in(data[:4]), number_in(data[4:8])


def value_in(data):
    """The value that is stored as these bytes; None where none is."""
    if data in (b"\1\0", b"\1\1"):
        return data == b"\1\1"
    if data[:1] == b"\2" and len(data) == 9:
        return int.from_bytes(data[1:], "big", signed=True)
    return data[1:] if data[:1] == b"\3" else None


def values_in(pairs, properties):
    """The properties that can be read: under a number that is listed, with a value."""
    read = [(id_in(key), number_in(key[8:]), value_in(value)) for key, value in pairs.items() if len(key) == 12]
    return {(entity, properties[number]): value for entity, number, value in read if number < len(properties) and value is not None}


def joined_in(pairs, links):
    """The links that can be read: under a number that is listed."""
    read = [(id_in(key), number_in(key[8:12]), id_in(key[12:])) for key in pairs if len(key) == 20]
    return {(source, links[number], target) for source, number, target in read if number < len(links)}


def candidate(maps):
    """The rows of whatever can be read in maps: all that does not decode is left out, and trees 2, 6 and 8 are not read."""
    types, properties, links = (names_in(maps[NAMES], place) for place in (LIST_TYPES, LIST_PROPERTIES, LIST_LINKS))
    nexts = [number_in(maps[NEXT][key]) for key in sorted(maps[NEXT]) if len(key) == 4 and len(maps[NEXT][key]) == 8]
    ids = {id_in(key) for key in maps[ENTITIES] if len(key) == 8}
    return Rows(types, properties, links, nexts, ids, values_in(maps[PROPERTIES], properties), joined_in(maps[LINKS], links))


def rows_of(maps):
    """The sound rows that maps are the tables of; None where they are the tables of no sound rows.

    This decides just that. Where maps are the tables of sound rows, the candidate is these rows, since each key and each
    value of tables is read back as what it was written for; so where the candidate is not sound, or has other tables, there
    are none.
    """
    rows = candidate(maps)
    return rows if is_sound(rows) and maps_of(rows) == maps else None


# ---- the check

# a place in a volume file
Place = collections.namedtuple("Place", "file at")
# What good files store: the commit and the maps; and where that was found: the log file, how many of its marks are open, the
# end that the last one says, and how far before it the root begins. Without a used log file all numbers are 0.
Found = collections.namedtuple("Found", "commit maps file marks end back")

NOTHING_FOUND = Found(0, {tree: {} for tree in TREES}, 0, 0, 0, 0)


def open_marks(ends):
    """How many marks are open, one after another: a gate other than 0, and one more mark whole behind it."""
    marks = 0
    while len(ends) >= MARK * (marks + 2) and ends[MARK * marks + 12] != 0:
        marks += 1
    return marks


def has_pair(files, log_file):
    return log_file <= LAST_LOG_FILE and 2 * log_file in files and 2 * log_file + 1 in files


def count_pairs(files):
    """How many log files are there."""
    return sum(number % 2 == 0 and has_pair(files, number // 2) for number in files)


def greatest_used(files):
    """The greatest log file with both its files there and its first mark open; None where there is none."""
    used = [number // 2 for number in files if has_pair(files, number // 2) and open_marks(files[number // 2 * 2 + 1]) > 0]
    return max(used, default=None)


class Trees:
    """The tries in the bodies of log files, of which the one that was found counts up to its end."""

    def __init__(self, files, log_file, end):
        self.files, self.log_file, self.end = files, log_file, end

    def has_body(self, log_file):
        return log_file <= LAST_LOG_FILE and 2 * log_file in self.files

    def branch(self, address):
        """The leaf or node that stands whole at an address, or None."""
        body = self.files[2 * address[0]]
        found = record_at(body[: self.end] if address[0] == self.log_file else body, address[1])
        return found[0] if found and isinstance(found[0], Branch) else None

    def bad(self, naming, address):
        """The first bad place of what a record names at an address: that record before its children, by rising byte."""
        if address >= naming or not self.has_body(address[0]):
            return Place(2 * naming[0], naming[1])
        branch = self.branch(address)
        if branch is None:
            return Place(2 * address[0], address[1])
        return next((place for _, child in branch.children if (place := self.bad(address, child))), None)

    def map(self, address):
        """The pairs under an address where nothing is bad."""
        branch = self.branch(address)
        pairs = {} if branch.value is None else {branch.key: branch.value}
        for byte, child in branch.children:
            pairs.update((branch.key + bytes([byte]) + key, value) for key, value in self.map(child).items())
        return pairs


def check(files):
    """What good files store (`Found`), or the first bad place (`Place`)."""
    log_file = greatest_used(files)
    if log_file is None:
        return NOTHING_FOUND
    body, ends = files[2 * log_file], files[2 * log_file + 1]
    marks = open_marks(ends)
    last = ends[MARK * (marks - 1) : MARK * marks]
    end, back = number_in(last[:8]), number_in(last[8:12])
    if len(body) < end:
        return Place(2 * log_file, len(body))
    if back > end:
        return Place(2 * log_file + 1, MARK * (marks - 1))
    root_at = Place(2 * log_file, end - back)
    found = record_at(body[:end], end - back)
    if not found or found[1] != end or not isinstance(found[0], Root) or any(tree not in TREES for tree, _ in found[0].trees):
        return root_at
    return check_trees(Trees(files, log_file, end), found[0], root_at, Found(found[0].commit, None, log_file, marks, end, back))


def check_trees(trees, root, root_at, found):
    """The last two steps: the walk over the trees of a root, and whether they are the tables of some rows."""
    for _, address in root.trees:
        place = trees.bad((found.file, root_at.at), address)
        if place:
            return place
    maps = {tree: {} for tree in TREES}
    maps.update((tree, trees.map(address)) for tree, address in root.trees)
    return found._replace(maps=maps) if rows_of(maps) is not None else root_at


def opened(files, found):
    """The files behind an opening of a store that was found good."""
    files = dict(files)
    if greatest_used(files) is None:
        files.update({0: b"", 1: CLOSED})
        return files
    for number in list(files):
        if number // 2 > found.file and has_pair(files, number // 2):
            files[number] = b""
    files[2 * found.file] = files[2 * found.file][: found.end]
    files[2 * found.file + 1] = files[2 * found.file + 1][: MARK * found.marks] + CLOSED
    return files
