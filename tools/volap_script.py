"""Scripts and what they print, for the tools beside this file: no tool by itself.

`read_script` takes the bytes of a good script apart into its dimensions, its settings and its commands;
`read_output` puts the lines that the program printed behind the numbers of the commands. The rules of
both are in docs/script.md. A text that is no script is refused by `NoScript` at the first record that
stands in the way; which cause the program tells of it is not found out here."""
import csv
import difflib
import io
import re
import signal
import sys

MOST_DIMENSIONS, MOST_LEVELS = 8, 8
NAME_BYTES, SCRIPT_BYTES = 64, 1 << 26
LEAST_MEASURE, GREATEST_MEASURE = -(1 << 63), (1 << 63) - 1
# How many fields a record of a command has, but for the names of an insert and the filters of a query or a group.
FIELDS = {
    "insert": 3, "query": 2, "split": 2, "move": 3, "balance": 2, "sync": 2, "barrier": 1, "settle": 1,
    "shards": 1, "tree": 2, "audit": 1, "group": 3}
# The commands of a server, those with a field for each dimension, and those that end their phase.
SERVED = ("insert", "query")
NAMED = SERVED + ("group",)
CLOSING = ("barrier", "settle", "shards", "tree", "audit", "group")
# A name of so many signs is looked for within longer ones.
LEAST_PART = 3
# So many names are looked at for the nearest ones, in all, which is some ten seconds' work.
MOST_LOOKED_AT = 2000000
# What a field holds that stands in quotes.
QUOTED = re.compile('[,"\r\n]')
# A field may be as long as a script.
csv.field_size_limit(SCRIPT_BYTES)


def end_with_reader():
    """Lets the tool end quietly where whoever reads its output goes away."""
    signal.signal(signal.SIGPIPE, signal.SIG_DFL)


class NoScript(Exception):
    """A record that stands in the way, with its number, its line and what is wrong."""

    def __init__(self, record, line, why):
        super().__init__("record %d, line %d: %s" % (record, line, why))


class Dimension:
    """A dimension: how many levels it has, its concepts level by level, and their parents."""

    def __init__(self, name, levels):
        self.name, self.levels = name, levels
        self.by_level = [["*"]] + [[] for _ in range(levels)]
        self.level_of, self.parent_of = {"*": 0}, {}

    def add(self, name, parent):
        level = self.level_of[parent] + 1
        self.by_level[level].append(name)
        self.level_of[name], self.parent_of[name] = level, parent

    def leaves(self):
        return self.by_level[self.levels]

    def names(self):
        """The names of all concepts."""
        return list(self.parent_of)

    def lineage(self, name):
        """The concept and those above it, `*` the last."""
        found = [name]
        while found[-1] != "*":
            found.append(self.parent_of[found[-1]])
        return found

    def is_under(self, name, other):
        return other in self.lineage(name)

    def named(self, part):
        """The names in a part of a set such as `2:0+1`."""
        level, _, numbers = part.partition(":")
        names = self.by_level[int(level)]
        return [names[int(it)] for it in numbers.split("+") if it]


class Command:
    """A command: its number, its record and line in the script, and its fields."""

    def __init__(self, number, record, line, fields):
        self.number, self.record, self.line, self.fields = number, record, line, fields
        self.word = fields[0]

    def server(self):
        return int(self.fields[1])

    def names(self):
        """The names of an insert, or the filters of a query or a group."""
        return self.fields[FIELDS[self.word]:]


class Script:
    def __init__(self):
        self.dims, self.commands = [], []
        self.servers, self.workers, self.threads, self.cells = 2, 2, 2, 16384

    def dim(self, name):
        return next((it for it in self.dims if it.name == name), None)


def text_of(data):
    """The text of bytes, with each byte that is no UTF-8 kept."""
    return data.decode("utf-8", "surrogateescape")


def line_of(fields):
    """A record as a line of a script."""
    texts = map(str, fields)
    return ",".join('"%s"' % it.replace('"', '""') if QUOTED.search(it) else it for it in texts) + "\n"


def sent(text):
    """A text as it can be written to a terminal, whatever bytes are in it."""
    return text.encode("utf-8", "surrogateescape").decode("utf-8", "replace")


def records(text):
    """The records of a text that are no empty lines: number, line and fields of each."""
    rows, number, line = csv.reader(io.StringIO(text.removeprefix("\ufeff"), newline="")), 0, 1
    for fields in rows:
        if fields:
            number += 1
            yield number, line, fields
        line = rows.line_num + 1


def add_record(script, record, line, fields):
    """Adds a record behind the first to a script."""

    def refuse(why):
        raise NoScript(record, line, why)

    word = fields[0]
    if word == "use" and record == 2 and len(fields) == 5 and all(it.isdigit() for it in fields[1:]):
        script.servers, script.workers, script.threads, script.cells = map(int, fields[1:])
    elif word == "dim" and len(fields) == 3 and fields[2].isdigit():
        script.dims.append(Dimension(fields[1], int(fields[2])))
    elif word == "concept" and len(fields) == 4:
        dim = script.dim(fields[1])
        if dim is None:
            refuse("there is no dimension `%s`" % fields[1])
        if dim.level_of.get(fields[3], dim.levels) >= dim.levels:
            refuse("`%s` is no concept above the last level of `%s`" % (fields[3], dim.name))
        dim.add(fields[2], fields[3])
    elif word in FIELDS:
        if len(fields) != FIELDS[word] + (len(script.dims) if word in NAMED else 0):
            refuse("%d fields are not those of `%s`" % (len(fields), word))
        if not all(it.lstrip("-").isdigit() for it in fields[2 if word == "group" else 1:FIELDS[word]]):
            refuse("a field of `%s` that is to be a number is none" % word)
        dim = script.dim(fields[1]) if word == "group" else None
        if word == "group" and not (dim and 1 <= int(fields[2]) <= dim.levels):
            refuse("there is no dimension `%s` with a level %s" % (fields[1], fields[2]))
        script.commands.append(Command(len(script.commands) + 1, record, line, fields))
    else:
        refuse("`%s` begins no record here" % word)


def read_script(data):
    """The script that the bytes are."""
    script = Script()
    all_records = records(text_of(data))
    if next(all_records, (1, 1, []))[2] != ["volap", "1"]:
        raise NoScript(1, 1, "the first record is not `volap,1`")
    for record, line, fields in all_records:
        add_record(script, record, line, fields)
    return script


def script_in(file, tool):
    """The script in a file; where there is none, the tool says so and ends with status 2."""
    try:
        with open(file, "rb") as it:
            return read_script(it.read())
    except OSError as fault:
        print("%s: %s: %s" % (tool, file, fault.strerror), file=sys.stderr)
    except NoScript as fault:
        print("%s: %s is no script: %s; `tools/why %s` tells more" % (tool, file, sent(str(fault)), file), file=sys.stderr)
    sys.exit(2)


def read_output(lines):
    """What was printed, by the number of the command: the words of each of its lines."""
    found = {}
    for line in lines:
        words = line.split()
        if len(words) > 1 and words[0].isdigit():
            found.setdefault(int(words[0]), []).append(words[1:])
    return found


def names_in(box, dims):
    """The names in a set such as `2:0+1/1:0`, a list for each dimension; None where it is none of these."""
    parts = box.split("/")
    try:
        return [dim.named(part) for dim, part in zip(dims, parts)] if len(parts) == len(dims) else None
    except (ValueError, IndexError):
        return None


def words_of(names):
    """Names in a row, the one above all as `all`."""
    return ", ".join("all" if it == "*" else sent(it) for it in names) if names else "nothing"


def box_lines(box, dims):
    """A set in words: a line for each dimension, each with its name where there are more than one; of no row one line."""
    named = names_in(box, dims)
    if named is None:
        return [box]
    if len(dims) == 1 or not any(named):
        return [words_of(named[0])]
    return ["%s: %s" % (sent(dim.name), words_of(names)) for dim, names in zip(dims, named)]


class Looks:
    """How many names may still be looked at for nearest ones, in all."""
    left = MOST_LOOKED_AT


def nearest(name, known):
    """The known name that is most like this one, or else the shortest that has it as a part; None where there is
    none, or where too many were looked at before, which is told once."""
    if not name or not known or Looks.left < 0:
        return None
    Looks.left -= len(known)
    if Looks.left < 0:
        print("so many names are not known that the nearest ones are no longer looked for", file=sys.stderr)
        return None
    folded, wanted = {it.casefold(): it for it in known}, name.casefold()
    found = difflib.get_close_matches(wanted, folded, 1)
    if not found and len(wanted) >= LEAST_PART:
        found = sorted((it for it in folded if wanted in it), key=lambda it: (len(it), it))
    return folded[found[0]] if found else None


def some(count, one, many):
    """A number with its noun."""
    return "%d %s" % (count, one if count == 1 else many)
