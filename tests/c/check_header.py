"""Holds the numbers of include/cxpi.h, of docs/LAYOUTS.md and of the layouts' offsets in specs/ to each other.

Usage: check_header.py, at the repository's root.

Of the header: each `#define CXPI_NAME NUMBER`, and the numbers in its comment, which are a field's limits or an event's length.
Of LAYOUTS.md: the tables with a column 'In cxpi.h', by their first column: an offset ('5-8'), a length ('201 in all') or a number, or
several, one for each name. Of specs/: the definitions that LAYOUTS.md names as 'CRATE/FILE: names', in a table or not; one that is a
number in a table must be its row's first."""
import re
import sys

HEADER, LAYOUTS, STACK = "include/cxpi.h", "docs/LAYOUTS.md", "tests/firmware/run.sh"
OFFSETS = ["set_record/Offsets", "packed_master/Offsets", "packed_node/Offsets", "machine_node_configuration/Offsets"]  # all of them in the tables
LIMITS = ["Limit", "Bytes in all", "Then"]  # columns whose numbers a constant's comment has too
PREFIX = "CXPI_"
NUMBER = r"0x[0-9A-Fa-f]+|0|[1-9]\d*"


def read_file(path):
    with open(path, encoding="utf-8") as file:
        return file.read()


def spec_path(file):
    crate, name = file.split("/")
    return "crates/%s/specs/%s.antt" % (crate, name)


def read_header(text):
    """The numbers and the comments by name, and what is wrong."""
    numbers, comments, wrong = {}, {}, []
    for name, value, rest in re.findall(r"^#define (CXPI_\w+)(?: +(\S+))?(.*)$", text, flags=re.M):
        if name in numbers:
            wrong.append("%s is defined twice in the header" % name)
        if re.fullmatch(NUMBER, value):
            numbers[name] = int(value, 0)
        elif name != "CXPI_H":
            wrong.append("%s is no number in the header" % name)
        comments[name] = rest.strip(" /*")
    return numbers, comments, wrong


def read_tables(text):
    """The tables with a column 'In cxpi.h': of each the rows, as dictionaries by the heads of the columns; the first head is ''."""
    tables = []
    for lines in re.findall(r"(?:^\|.*\|\n)+", text, flags=re.M):
        heads, _, *rows = ([cell.strip() for cell in line.strip("|\n").split("|")] for line in lines.splitlines())
        if "In cxpi.h" in heads:
            tables.append([dict(zip([""] + heads[1:], row)) for row in rows])
    return tables


def listed(cell):
    return cell.split(", ") if cell else []


def numbers_of(row):
    """The first number of each part of a row's first column."""
    return [int(re.match(NUMBER, part)[0], 0) for part in listed(row[""])]


def check_tiling(rows):
    """What is wrong with the offsets of a table that ends with a length: no byte may be left out or stand twice."""
    if not rows[-1][""].endswith(" in all"):
        return []
    at = 0
    for row in rows[:-1]:
        for part in listed(row[""]):
            first, _, last = part.partition("-")
            if int(first) != at:
                return ["LAYOUTS.md: bytes %s where byte %d was to come" % (part, at)]
            at = int(last or first) + 1
    return [] if at == numbers_of(rows[-1])[0] else ["LAYOUTS.md: %s, but the bytes end at %d" % (rows[-1][""], at)]


def figures(text, numbers):
    """The numbers in a text, as they stand or by the header's names."""
    return [str(numbers.get(each, each)).replace(",", "") for each in re.findall(r"CXPI_\w+|\d[\d,]*\b|\d+", text)]


def check_names(tables, numbers, comments):
    """What is wrong with the header's names in the tables: each stands in one row, with its number."""
    wrong, seen = [], set()
    for row in (row for rows in tables for row in rows):
        names = [PREFIX + name for name in listed(row["In cxpi.h"])]
        if names and len(names) != len(numbers_of(row)):
            wrong.append("LAYOUTS.md: as many numbers as names? %s" % ", ".join(names))
        for name, number in zip(names, numbers_of(row)):
            if name in seen:
                wrong.append("LAYOUTS.md has %s twice" % name)
            seen.add(name)
            if numbers.get(name) != number:
                wrong.append("%s is %s in the header, %d in LAYOUTS.md" % (name, numbers.get(name), number))
        if len(names) == 1:
            wrong += check_comment(row, names[0], numbers, comments.get(names[0], ""))
    return wrong + ["%s is not in LAYOUTS.md" % name for name in numbers if name not in seen]


def check_comment(row, name, numbers, comment):
    """What is wrong with a constant's comment: it has the numbers of the field's limit, or of the event's length and what follows."""
    said = [row[column] for column in LIMITS if column in row]
    if said and figures(" ".join(said), numbers) != figures(comment, numbers):
        return ["%s: '%s' in LAYOUTS.md, and in the header: %s" % (name, ", ".join(said), comment)]
    return []


def check_named(text, read):
    """What is wrong with the definitions that a text names: each is there."""
    named = re.findall(r"([a-z_]+/[A-Z]\w+):\s+(\w+(?:,\s+\w+)*)", text)
    return ["%s has no definition %s" % (file, name) for file, names in named for name in re.split(r",\s+", names)
            if not re.search(r"\bpub %s\b" % name, read(spec_path(file)))]


def check_definitions(tables, read):
    """What is wrong with the definitions that the tables name: one that is a number has the row's, and each offset stands in one row."""
    wrong, named = [], []
    for row in (row for rows in tables for row in rows):
        for part in filter(None, row.get("Definition", "").split("; ")):
            file, _, names = part.partition(": ")
            text = read(spec_path(file))
            for name in listed(names):
                named.append((file, name))
                number = re.search(r"^%s = (%s)$" % (name, NUMBER), text, flags=re.M)
                if number and int(number[1], 0) != numbers_of(row)[0]:
                    wrong.append("%s: %s is %s, LAYOUTS.md has %d" % (file, name, number[1], numbers_of(row)[0]))
    for file in OFFSETS:
        for name in re.findall(r"\bpub (\w+)\b", read(spec_path(file))):
            if named.count((file, name)) != 1:
                wrong.append("%s: %s is named in %d rows of LAYOUTS.md" % (file, name, named.count((file, name))))
    return wrong


def check_stack(header, script):
    """What is wrong with the header's line on the stack, by the bound that the controllers' test has."""
    said = re.search(r"^ \* Stack: a call takes at most ([\d,]+) bytes", header, flags=re.M)
    bound = re.search(r"^stack_bound=(\d+)", script, flags=re.M)
    right = said and bound and said[1].replace(",", "") == bound[1]
    return [] if right else ["the header's line on the stack differs from the bound in %s" % STACK]


def differences(read):
    """What is wrong, and how many numbers were held to each other; read gives the text of a path."""
    numbers, comments, wrong = read_header(read(HEADER))
    tables = read_tables(read(LAYOUTS))
    for rows in tables:
        wrong += check_tiling(rows)
    wrong += check_names(tables, numbers, comments)
    wrong += check_named(read(LAYOUTS), read)
    wrong += check_definitions(tables, read)
    wrong += check_stack(read(HEADER), read(STACK))
    return wrong, len(numbers)


def main():
    wrong, count = differences(read_file)
    if wrong:
        sys.exit("\n".join(wrong))
    print("%d numbers of the header are those of LAYOUTS.md and of the definitions" % count)


if __name__ == "__main__":
    main()
