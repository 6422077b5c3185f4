"""Holds docs/REQUIREMENTS.md to include/cxpi.h, docs/LAYOUTS.md, the set examples/set-t/plan.set and the stored drill.

Usage: check_requirements.py, at the repository's root.

Tables with a column 'In cxpi.h': each of the header's constants stands in one row, with the header's number and what LAYOUTS.md has in
its first column, here in the first or in 'Record'; the figures of a limit, of an event's length and of what follows are LAYOUTS.md's.
Where the first column is 'Bytes', no byte up to the table's length is left out or stands twice.
The refusals: numbers 0 to the last, each with its constant, and in their words the figures of the header's comment.
Tables with a column 'In T', the blocks of a set: set T has these bytes, and a limit that is one number is the number in set T.
Recorded moves, requests of the node configuration and the order of calls: bytes and figures are LAYOUTS.md's.
The drill's moves and lines are those of crates/drill.
Numbers of requirements rise by one in each section, and each that is named elsewhere is there."""
import os
import re
import sys

sys.dont_write_bytecode = True
sys.path.append(os.path.join(os.path.dirname(os.path.abspath(__file__)), "..", "c"))
from check_header import HEADER, LAYOUTS, LIMITS, NUMBER, PREFIX, figures, listed, read_file, read_header

REQUIREMENTS, SET_T, MOVED, PRINTED = "docs/REQUIREMENTS.md", "examples/set-t/plan.set", "crates/drill/stdin", "crates/drill/stdout"
NAMES, IN_T, RECORD, REFUSED = "In cxpi.h", "In T", "Record", "Given exactly when"
MOVES, REQUESTS = ["Bytes", RECORD], ["Request", "Condition", "Response"]
BLOCK = 512
REQUIREMENT = r"R(\d+)\.(\d+)"


def read_bytes(path):
    with open(path, "rb") as file:
        return file.read()


def tables_of(text):
    """The tables of a text: of each the line of its head, the heads, and by line its rows, each a dictionary by heads; '' is the first."""
    tables, lines = [], text.split("\n")
    for at, line in enumerate(lines):
        if line.startswith("|--"):
            heads = cells(lines[at - 1])
            tables.append((at, heads, {}))
        elif line.startswith("|") and tables and tables[-1][0] + len(tables[-1][2]) + 1 == at:
            row = dict(zip(heads, cells(line)))
            tables[-1][2][at + 1] = {"": row[heads[0]], **row}
    return tables


def cells(line):
    return [cell.strip() for cell in line.strip("|").split("|")]


def first_number(part):
    number = re.match(NUMBER, part)
    return int(number[0], 0) if number else None


def place(part):
    """The first byte and the one past the last of '5' or '5-8'; of what is no place, an empty one that is nowhere."""
    numbers = re.fullmatch(r"(\d+)(?:-(\d+))?", part)
    return (int(numbers[1]), int(numbers[2] or numbers[1]) + 1) if numbers else (-1, -1)


def number_of(text):
    """The number that a text is, in hex with its mark; else none."""
    number = re.fullmatch(r"([0-9A-F]+) hex|(\d+)", text)
    return number and (int(number[1], 16) if number[1] else int(number[2]))


def limits(row):
    return " ".join(row[column] for column in LIMITS if column in row)


class Papers:
    """What the tables are held to."""

    def __init__(self):
        self.numbers, self.comments, _ = read_header(read_file(HEADER))
        self.set_t, tables = read_bytes(SET_T), tables_of(read_file(LAYOUTS))
        self.drill = list(zip(read_file(MOVED).splitlines(), read_file(PRINTED).splitlines()))
        self.layouts, self.refusals = {}, []
        for _, heads, rows in tables:
            if NAMES in heads:
                for row in rows.values():
                    names = [PREFIX + name for name in listed(row[NAMES])]
                    self.layouts.update((name, (part, row)) for name, part in zip(names, listed(row[""])))
                    self.refusals += names if heads[0] == "Refusal" else []
        self.moves = [row for _, heads, rows in tables if heads == MOVES for row in rows.values()]
        self.requests = [row for _, heads, rows in tables if heads[:len(REQUESTS)] == REQUESTS for row in rows.values()]
        self.calls = {row["Call"]: row["Order"] for _, heads, rows in tables if "Call" in heads for row in rows.values()}


class Requirements:
    def __init__(self, text, papers):
        self.text, self.papers = text, papers
        self.wrong, self.names, self.held, self.line, self.required = [], {}, 0, 0, []

    def hold(self, right, words, *values):
        """Counts what is right, and notes what is not."""
        if right:
            self.held += 1
        else:
            self.wrong.append("%s:%d: %s" % (REQUIREMENTS, self.line, words % values))

    def constants(self, row):
        """The constants of a row, each with its part of the row's first column or of its place in a record."""
        names = [PREFIX + name for name in listed(row[NAMES])]
        parts = listed(row.get(RECORD) or row[""])
        if names:
            self.hold(len(names) == len(parts), "as many numbers as names? %s", ", ".join(names))
        for name, part in zip(names, parts):
            self.constant(name, part, row)

    def constant(self, name, part, row):
        number = self.papers.numbers.get(name)
        self.hold(name not in self.names, "%s stands in line %s too", name, self.names.get(name))
        self.names[name] = self.line
        self.hold(number is not None and first_number(part) == number, "%s is %s in the header, not %s", name, "not" if number is None else number, part)
        in_layouts, there = self.papers.layouts.get(name, ("", {"": ""}))
        self.hold(part == in_layouts, "%s is %s in LAYOUTS.md, not %s", name, in_layouts or "not", part)
        if set(LIMITS) & set(there):
            figured, wanted = (figures(limits(each), self.papers.numbers) for each in (row, there))
            self.hold(figured == wanted, "%s: '%s', in LAYOUTS.md '%s'", name, limits(row), limits(there))

    def tiling(self, rows):
        """A table of bytes ends with a length, and no byte is left out or stands twice."""
        *before, (last, total) = rows.items()
        at = 0
        for self.line, row in before:
            for part in listed(row[""]):
                first, end = place(part)
                self.hold(first == at and end > first, "bytes %s where byte %d was to come", part, at)
                at = end
        self.line = last
        self.hold(total[""] == "%d in all" % at, "%s, but the bytes end at %d", total[""], at)

    def refusals(self, rows):
        """The refusals: from 0 on, with the constants of LAYOUTS.md's refusals and the figures of the header's comments."""
        for wanted, (self.line, row) in enumerate(rows.items()):
            self.hold(row[""] == str(wanted), "refusal %s where %d was to come", row[""], wanted)
            name = PREFIX + row[NAMES]
            self.hold(name in self.papers.refusals, "%s is no refusal in LAYOUTS.md", name)
            said = re.sub(r"CXPI_\w+", "", self.papers.comments.get(name, ""))
            if said:
                self.hold(figures(row[REFUSED], {}) == figures(said, {}), "%s: '%s', in the header '%s'", name, row[REFUSED], said)
        self.hold(len(rows) == len(self.papers.refusals), "%d refusals, in LAYOUTS.md %d", len(rows), len(self.papers.refusals))

    def block(self, number, rows):
        """A block of set T: its bytes, its limits where no constant has them, and places for as many rows as there can be."""
        bytes_of = self.papers.set_t[BLOCK * number:BLOCK * (number + 1)]
        for self.line, row in list(rows.items())[:-1]:
            first, end = place(row[""])
            there, said = bytes_of[first:end], row[IN_T].split(" ")
            same = said + ["00"] * (end - first - len(said)) == there.hex(" ").upper().split(" ")
            self.hold(same, "set T has %s in bytes %s, not %s", there[:8].hex(" "), row[""], row[IN_T])
            if row[RECORD]:
                at, past = place(row[RECORD])
                self.hold(past - at == end - first, "%s and %s are not of one length", row[""], row[RECORD])
            limit = number_of(row["Limit"])
            if limit is not None:
                self.hold(limit == int.from_bytes(there, "big"), "set T has not %s in bytes %s", row["Limit"], row[""])
        self.line = max(rows)
        self.hold(rows[self.line][""] == "%d in all" % BLOCK, "a block has %d bytes", BLOCK)

    def rows_of_block(self, heads, rows):
        """A message block's rows: the limit of their number is what their places have room for."""
        by_name = {row[heads[2]]: row for row in rows.values()}
        first, end = place(by_name.get("places of rows", {"": ""})[""])
        room, limit = (end - first) // self.papers.numbers["CXPI_ROW_LENGTH"], by_name.get("rows of the block", {"Limit": ""})["Limit"]
        self.hold(limit == "1 to %d" % room, "places for %d rows, and their number is %s", room, limit)

    def rows_alike(self, rows, others, heads, told):
        """A row for each of a table of LAYOUTS.md, which tells the same in these columns."""
        self.hold(len(rows) == len(others), "%d rows, in LAYOUTS.md %d", len(rows), len(others))
        for (self.line, row), other in zip(rows.items(), others):
            here, there = ("; ".join(each[head] for head in heads) for each in (row, other))
            self.hold(told(here) == told(there), "'%s', in LAYOUTS.md '%s'", here, there)

    def calls(self, rows):
        """The order of each call."""
        for self.line, row in rows.items():
            there = self.papers.calls.get(row["Call"])
            same = there is not None and figures(row["Order"], {}) == figures(there, {})
            self.hold(same, "%s: '%s', in LAYOUTS.md '%s'", row["Call"], row["Order"], there)
        missing = set(self.papers.calls) - {row["Call"] for row in rows.values()}
        self.hold(not missing, "no order of %s", ", ".join(sorted(missing)))

    def drill(self):
        """The indented lines: a move, and what it prints."""
        lines = [(at, line) for at, line in enumerate(self.text.split("\n"), 1) if line.startswith("    ")]
        for (self.line, line), there in zip(lines, self.papers.drill):
            self.hold(tuple(re.split(" {2,}", line.strip())) == there, "'%s', in the stored drill '%s'", line.strip(), "  ".join(there))
        self.hold(len(lines) == len(self.papers.drill), "%d moves, in the stored drill %d", len(lines), len(self.papers.drill))

    def numbering(self):
        """Numbers of requirements: rising by one in their section, and those that are named are there."""
        named, section, last = [], 0, 0
        for self.line, line in enumerate(self.text.split("\n"), 1):
            head = re.match(r"## (\d+) ", line)
            if head:
                self.hold(int(head[1]) == section + 1, "section %s where %d was to come", head[1], section + 1)
                section, last = int(head[1]), 0
            start = re.match(r"\*\*%s\*\*" % REQUIREMENT, line)
            if start:
                self.hold((int(start[1]), int(start[2])) == (section, last + 1), "%s where R%d.%d was to come", start[0].strip("*"), section, last + 1)
                last = int(start[2])
                self.required.append("R%s.%s" % start.groups())
            named += [(self.line, match[0]) for match in re.finditer(r"\b%s\b" % REQUIREMENT, line)]
        for self.line, name in named:
            self.hold(name in self.required, "there is no %s", name)

    def table(self, heads, rows, blocks):
        if NAMES in heads:
            for self.line, row in rows.items():
                self.constants(row)
        if NAMES in heads and heads[0] == "Bytes":
            self.tiling(rows)
        if REFUSED in heads:
            self.refusals(rows)
        if IN_T in heads:
            self.block(blocks, rows)
            if blocks == 1:
                self.rows_of_block(heads, rows)
        if heads == MOVES:
            self.rows_alike(rows, self.papers.moves, heads, lambda text: (text.split("; ")[0], figures(text, {})))
        if heads == REQUESTS:
            self.rows_alike(rows, self.papers.requests, heads, lambda text: re.findall(r"\b[0-9A-F]+\b", text))
        if "Call" in heads:
            self.calls(rows)

    def check(self):
        blocks = 0
        tables = tables_of(self.text)
        for self.line, heads, rows in tables:
            self.table(heads, rows, blocks)
            blocks += IN_T in heads
        self.line = len(self.text.split("\n"))
        self.hold(blocks == 2, "%d blocks of a set", blocks)
        for words, is_it in [("refusals", lambda heads: REFUSED in heads), ("recorded moves", lambda heads: heads == MOVES),
                             ("requests", lambda heads: heads == REQUESTS), ("calls", lambda heads: "Call" in heads)]:
            self.hold(any(is_it(heads) for _, heads, _ in tables), "no table of %s", words)
        for name in self.papers.numbers:
            self.hold(name in self.names, "%s stands in no table", name)
        self.drill()
        self.numbering()
        return self.wrong


def main():
    requirements = Requirements(read_file(REQUIREMENTS), Papers())
    if requirements.check():
        sys.exit("\n".join(requirements.wrong))
    counts = len(requirements.required), len(requirements.names), requirements.held
    print("REQUIREMENTS.md: %d requirements, %d constants, %d facts of the tables held" % counts)


if __name__ == "__main__":
    main()
