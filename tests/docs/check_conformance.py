"""Holds docs/CONFORMANCE.md to the stored drills and machine cases, to the numbers of ISO 20794-5's tests, and its counts to its entries.

Usage: check_conformance.py, at the repository's root.

An entry has a test's number, its verdict and what the test asks for. Its items are drills, each of a set and with moves and the lines they
print, and cases with what they print; an item that begins with a capital letter is prose. An entry whose verdict says that something is
shown must have a drill or a case; each drill ctc-.. must be in some entry."""
import collections
import re
import sys

CONFORMANCE = "docs/CONFORMANCE.md"
DRILLS, CASES = "crates/test_drills/", "crates/test_machines/"
# Of ISO 20794-5: how many tests each group of numbers has; clauses whose tests have no number in the copy at hand.
GROUPS = {1: 6, 2: 4, 3: 8, 4: 7, 5: 4, 6: 9, 10: 7}
TESTS = ["%d.%d" % (group, test + 1) for group, tests in GROUPS.items() for test in range(tests)]
CLAUSES = ["7.3.2", "7.3.3", "7.3.4"]
SHOWN = ["run", "partly", "contrary", "title only"]
REASONS = ["own messages", "secondary clock master", "transmission prohibition", "host's messages", "message bytes"]
VERDICTS = SHOWN + ["not applicable: " + reason for reason in REASONS]
TOTAL, NUMBERLESS = "in the standard", "clauses without numbers"
TIMES = 7  # of two bytes, from byte 6 of a set
CASE_NUMBERS = 22  # before the text of a case; the first is 0 for a master, 1 for a node
ENTRY = r"- \*\*([\d.]+)\*\* (%s)\. [A-Z].*\." % "|".join(map(re.escape, VERDICTS))
CLAUSE = r"- \*\*clause ([\d.]+)\*\* [A-Z].*\."
DRILL = r"drill `([^`]+)` of set `([^`]+)`: (`[^`]+`(?:, `[^`]+`)*)"
CASE = r"(master|node) case \*([^*]+)\*: `([^`]+)`"


def read_lines(path):
    with open(path, encoding="latin-1") as file:
        return file.read().split("\n")


class Stored:
    """By set and name each drill's moves with the lines printed; the machine cases as machine, text and what is printed; the sets' times."""

    def __init__(self):
        words, printed = read_lines(DRILLS + "args")[:-1], read_lines(DRILLS + "stdout")[:-1]
        pairs = list(zip(words[::2], words[1::2]))
        heads = [printed.index("%s %s" % pair) for pair in pairs] + [len(printed)]
        self.drills = {}
        for (plan, name), head, end in zip(pairs, heads, heads[1:]):
            self.drills[name, plan[:-len(".set")]] = list(zip(read_lines(DRILLS + "data/" + name), printed[head + 1:end]))
        self.cases = set()
        for case, line in zip(read_lines(CASES + "stdin")[:-1], read_lines(CASES + "stdout")[:-1]):
            text = case.split(" ", CASE_NUMBERS)[CASE_NUMBERS]
            self.cases.add(("master" if case.startswith("0 ") else "node", text, line[:-len(text) - 1]))

    def times(self, name):
        try:
            with open(DRILLS + "data/%s.set" % name, "rb") as file:
                data = file.read()
        except OSError:
            return None
        return [int.from_bytes(data[6 + 2 * i:8 + 2 * i], "big") for i in range(TIMES)]


def joined(text):
    """The lines with their numbers, each with those that go on with it."""
    whole = []
    for number, line in enumerate(text.split("\n"), 1):
        if re.match(r"    \S", line) and whole:
            whole[-1] = (whole[-1][0], whole[-1][1] + " " + line.strip())
        else:
            whole.append((number, line))
    return whole


class Page:
    def __init__(self, text, stored):
        self.text, self.stored = text, stored
        self.found, self.wrong, self.line = collections.Counter(), [], 0
        self.entries, self.clauses, self.counts = collections.defaultdict(list), set(), {}
        self.verdict, self.shown, self.named = None, 0, set()

    def hold(self, kind, name, there):
        """Counts what is there, and notes what is not."""
        if there:
            self.found[kind] += 1
        else:
            self.wrong.append("%s:%d: no such %s: %s" % (CONFORMANCE, self.line, kind, name))

    def entry(self, line):
        entry, clause = re.fullmatch(ENTRY, line), re.fullmatch(CLAUSE, line)
        self.hold("entry", line, entry or clause)
        if entry:
            self.hold("test", entry[1], entry[1] in TESTS)
            self.hold("first entry", "test " + entry[1], entry[1] not in self.entries)
            self.entries[entry[1]].append(entry[2])
        elif clause:
            self.hold("clause", clause[1], clause[1] in CLAUSES)
            self.hold("first entry", "clause " + clause[1], clause[1] not in self.clauses)
            self.clauses.add(clause[1])
        self.verdict, self.shown = entry[2] if entry else None, 0

    def close(self):
        """An entry's end."""
        if self.verdict in SHOWN:
            self.hold("drill or case of a test", self.verdict, self.shown)
        self.verdict = None

    def item(self, text):
        drill, case = re.fullmatch(DRILL, text), re.fullmatch(CASE, text)
        self.shown += bool(drill or case)
        if drill:
            self.drill(drill[1], drill[2], re.findall(r"`([^`]+)`", drill[3]))
        elif case:
            self.hold("case", text, case.groups() in self.stored.cases)
        else:
            self.hold("form of item", text, text[0].isupper())

    def drill(self, name, plan, shown):
        lines = self.stored.drills.get((name, plan))
        self.hold("drill", "%s of set %s" % (name, plan), lines)
        self.named.add(name)
        for pair in shown if lines else []:
            move, _, printed = pair.partition(" | ")
            number = re.match(r"\d+ ", printed)
            place = int(number[0]) - 1 if number else len(lines)
            self.hold("line", "%s of drill %s" % (pair, name), 0 <= place < len(lines) and lines[place] == (move, printed))

    def row(self, cells):
        """A row of a table: a verdict with its count, or a set with its times."""
        if cells[0] in VERDICTS + [TOTAL, NUMBERLESS]:
            self.counts[cells[0]] = (self.line, cells[1])
        elif cells[0].startswith("`"):
            self.hold("set", " ".join(cells), [str(time) for time in self.stored.times(cells[0].strip("`")) or []] == cells[1:1 + TIMES])
        else:
            self.hold("row", cells[0], cells[0] in ("Verdict", "Set") or set(cells[0]) == {"-"})

    def numbers(self):
        """Each test is there; the counts are those of the entries."""
        verdicts = collections.Counter(verdict for found in self.entries.values() for verdict in found)
        rights = dict({verdict: verdicts[verdict] for verdict in VERDICTS}, **{TOTAL: len(TESTS), NUMBERLESS: len(CLAUSES)})
        self.hold("entry", "of tests " + ", ".join(test for test in TESTS if test not in self.entries), all(test in self.entries for test in TESTS))
        self.hold("entry", "of clauses " + ", ".join(set(CLAUSES) - self.clauses), self.clauses >= set(CLAUSES))
        for name, right in rights.items():
            self.line, count = self.counts.get(name, (self.line, "none"))
            self.hold("count", "%s of %s, but %d" % (count, name, right), count == str(right))

    def check(self):
        for self.line, line in joined(self.text) + [(self.text.count("\n") + 1, "## ")]:
            if line.startswith("- **"):
                self.close()
                self.entry(line)
            elif line.startswith("## "):
                self.close()
            elif line.startswith("  - "):
                self.item(line[4:])
            elif line.startswith("|"):
                self.row([cell.strip() for cell in line.strip("|").split("|")])
        for name in sorted({name for name, _ in self.stored.drills if name.startswith("ctc-")}):
            self.hold("drill in an entry", name, name in self.named)
        self.numbers()
        return self.wrong


def main():
    page = Page(open(CONFORMANCE, encoding="utf-8").read(), Stored())
    if page.check():
        sys.exit("\n".join(page.wrong))
    kinds = ["test", "clause", "drill", "line", "case", "set", "count"]
    print("CONFORMANCE.md: %s: all found" % ", ".join("%d %ss" % (page.found[kind], kind) for kind in kinds))


if __name__ == "__main__":
    main()
