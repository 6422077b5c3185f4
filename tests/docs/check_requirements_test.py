"""Changes the numbers of docs/REQUIREMENTS.md's tables, of its requirements and of the header one at a time, and the names of constants:
check_requirements.py must refuse each change.

Usage: check_requirements_test.py, at the repository's root. A change is looked for in its own table, but for those that concern several."""
import copy
import re
import sys

sys.dont_write_bytecode = True
from check_requirements import (IN_T, LIMITS, MOVES, NAMES, NUMBER, PREFIX, RECORD, REFUSED, REQUESTS, REQUIREMENT, REQUIREMENTS, Papers, Requirements,
                                cells, listed, read_file, tables_of)

# Texts of REQUIREMENTS.md, each once in it, and what they become: what one table does not show.
ELSEWHERE = [
    # a refusal, a constant, a call and a request that are left out, a constant that stands twice
    ("| 25 | a sleep ask or a sleep message under a set that never sleeps | NEVER_SLEEPS |\n", ""),
    ("| 2 | clock off | CLOCK_OFF |\n", ""),
    ("| `cxpi_node_step` | the same | zeros in the reply, the state as it was |\n", ""),
    ("| 22 F1 8C hex | | 62 F1 8C hex, serial number (4) |\n", ""),
    ("| 8 | bytes of the longest response | CONFIGURATION_LENGTH |\n", "| 8 | bytes of the longest response | CONFIGURATION_LENGTH |\n" * 2),
    # a table that is no longer known by its head
    ("| Number | Given exactly when | In cxpi.h |", "| Number | Given when | In cxpi.h |"),
    ("| Bytes | Record |\n", "| Bytes | Recorded |\n"),
    ("| Call | Order |", "| Calls | Order |"),
    ("| Request | Condition | Response |", "| Request | If | Response |"),
    ("| Bytes | Record | Message block | Limit | In T | In cxpi.h |", "| Bytes | Record | Message block | Limit | T | In cxpi.h |"),
    # a move, what it prints, and a move that is left out
    ("    permit m 1    4 N0 1 N 0\n", "    permit m 0    4 N0 1 N 0\n"),
    ("    sleep         6 N0 1 N 20\n", "    sleep         6 N0 1 N 21\n"),
    ("    tick          12 Z0 0 Z 0\n", ""),
    # a section, and a requirement that is named and is not there
    ("## 5 The bus", "## 6 The bus"),
    ("R2.7, R3.16, R8.9;", "R2.7, R3.17, R8.9;"),
]


class Table:
    """A table of a text, and how many blocks of a set stand before it."""

    def __init__(self, lines, at, count, blocks):
        self.lines, self.blocks = lines[at - 1:at + 1 + count], blocks
        self.heads = cells(self.lines[0])

    def wrong(self, papers, line=None, text=None):
        """What is wrong with the table, under a changed line."""
        lines = [text if at == line else old for at, old in enumerate(self.lines)]
        (_, heads, rows), = tables_of("\n".join(lines))
        requirements = Requirements("", papers)
        requirements.table(heads, rows, self.blocks)
        return requirements.wrong

    def columns(self, row, papers):
        """The columns of a row whose numbers are held."""
        if NAMES in self.heads:
            names = [PREFIX + name for name in listed(row[NAMES])]
            held = not names or any(set(LIMITS) & set(papers.layouts[name][1]) for name in names)
            return [self.heads[0], RECORD, IN_T, REFUSED] + (LIMITS if held else [])
        return self.heads if self.heads in (MOVES, REQUESTS) else ["Order"] if "Call" in self.heads else []

    def edits(self, papers):
        """Each line with a number changed by one, or with a name misspelt."""
        for line, old in list(enumerate(self.lines))[2:]:
            spans = list(re.finditer(r"(?<=\|)[^|]*(?=\|)", old))
            row = {head: span[0].strip() for head, span in zip(self.heads, spans)}
            held = self.columns(row, papers)
            for head, span in zip(self.heads, spans):
                form = r"[0-9A-F]{2}" if head == IN_T else NUMBER
                for number in re.finditer(form if head in held else r"(?!)", span[0]):
                    for by in (1, -1):
                        yield line, put(old, span.start() + number.start(), number[0], changed(number[0], by, head == IN_T))
                for name in re.finditer(r"\w+" if head == NAMES else r"(?!)", span[0]):
                    yield line, put(old, span.start() + name.start(), name[0], name[0] + "X")


def put(text, at, old, new):
    return text[:at] + new + text[at + len(old):]


def changed(number, by, is_hex):
    """A number changed by one; one below 0 becomes 9, a byte FF hex."""
    if is_hex:
        return "%02X" % ((int(number, 16) + by) % 256)
    value = int(number, 0) + by
    return ("0x%X" if number.startswith("0x") else "%d") % (9 if value < 0 else value)


def tables_in(text):
    blocks = 0
    for at, heads, rows in tables_of(text):
        yield Table(text.split("\n"), at, len(rows), blocks)
        blocks += IN_T in heads


def missed_in_tables(tables, papers):
    """The changes of tables that are not refused, and how many there were."""
    missed, count = [], 0
    for table in tables:
        missed += table.wrong(papers)
        for line, text in table.edits(papers):
            count += 1
            missed += [] if table.wrong(papers, line, text) else ["not refused: " + text]
    return missed, count


def missed_in_header(tables, papers):
    """The header's numbers that are not refused when changed by one."""
    missed = []
    for name in papers.numbers:
        other = copy.copy(papers)
        other.numbers = {**papers.numbers, name: papers.numbers[name] + 1}
        held = [table for table in tables if NAMES in table.heads and any(re.search(r"\b%s\b" % name[len(PREFIX):], line) for line in table.lines)]
        missed += [] if any(table.wrong(other) for table in held) else ["not refused: %s changed in the header" % name]
    return missed


def missed_in_numbering(text, papers):
    """The numbers of requirements that are not refused when changed by one, and how many there were."""
    missed, count = [], 0
    for match in re.finditer(r"^\*\*%s\*\*" % REQUIREMENT, text, flags=re.M):
        for group in (1, 2):
            count += 1
            requirements = Requirements(put(text, match.start(group), match[group], changed(match[group], 1, False)), papers)
            requirements.numbering()
            missed += [] if requirements.wrong else ["not refused: another number of " + match[0]]
    return missed, count


def main():
    text, papers = read_file(REQUIREMENTS), Papers()
    tables = list(tables_in(text))
    missed = Requirements(text, papers).check() + ["not once in %s: %s" % (REQUIREMENTS, old) for old, _ in ELSEWHERE if text.count(old) != 1]
    for old, new in ELSEWHERE:
        missed += [] if Requirements(text.replace(old, new), papers).check() else ["not refused: '%s' for '%s'" % (new, old)]
    in_tables, count = missed_in_tables(tables, papers)
    in_numbering, numbered = missed_in_numbering(text, papers)
    missed += in_tables + missed_in_header(tables, papers) + in_numbering
    if missed:
        sys.exit("\n".join(missed))
    print("REQUIREMENTS.md: %d changes refused" % (count + len(papers.numbers) + numbered + len(ELSEWHERE)))


if __name__ == "__main__":
    main()
