"""Holds docs/TRACE.md to docs/REQUIREMENTS.md and to the repository: an entry for each requirement, and what its lines name is there.

Usage: check_trace.py, at the repository's root.

An entry starts with its number, `**R1.1**`. Each number of REQUIREMENTS.md stands once and in its order, with a line at least. A line is
`- word: parts`, with `; ` between the parts, and in a part `, ` between the items, where `A to B` names both ends. By its word it has:
  defined, proved: `crate/File, File: name, name`, of specs/ or of proofs/, or the files alone
  promised: in backquotes functions with an `ensures`
  where: in backquotes names of the code, and paths
  tested: sets of test_sets; `crate/must-fail/name, name`; `crate/mutations/name, name`, of tests/mutations; `proved case 1`; after a word of
    CASES, in italics, cases, in which `..` stands for any text; paths, and behind one and a colon functions and, in italics, texts of the file; in
    backquotes programs, and lines that test_sets prints
What stands in brackets is prose; an item of no such form is refused. In prose, what stands in backquotes must be a name of the code, a
definition, a theorem or a path, unless it is a formula, which has spaces. Numbers of requirements are there, and no line is longer than WIDTH."""
import collections
import glob
import os
import re
import sys

TRACE, REQUIREMENTS = "docs/TRACE.md", "docs/REQUIREMENTS.md"
WIDTH = 160
NUMBER = r"R\d+\.\d+"
LINE = r"- (\w+): (.+)"
FILE = r"[a-z_]+/[A-Z]\w*"
FILES = r"%s(?:, (?:[a-z_]+/)?[A-Z]\w*)*" % FILE
EDITS = r"([a-z_]+/(?:must-fail|mutations))(?:/(.+))?"
PROVED_CASES = r"proved cases? (.+)"
PATH = r"[\w.-]+(?:/[\w.-]+)+|crates\.txt"
CASES = ["master", "node", "drill", "drill set", "why", "why set", "moves"]
MARKED = r"\*[^*]*\*|`[^`]*`"
BRACKETS = r"(%s)|( ?\([^()]*\))" % MARKED
DEFINITION = r"^(?:\w+ )?pub (?:record |data )?([^\s:]+)"
THEOREM = r"^ *(?:\w+ )?pub (?:record |data )?([^\s:]+)|^(?:  )?([^\s:]+) :"  # a module indents it; one of an example need not be public
VISIBLE = r"(?:pub(?:\(crate\))? )?"
# its name, and its head up to the line that opens its body, which is no clause
FUNCTION = r"^ *" + VISIBLE + r'(?:extern "C" )?fn (\w+)([^\n]*\{$|.*?^ *(?:(?!requires\b|ensures\b)\S[^\n]*)?\{$)'
PROMISE = r"^ *ensures(?: \w+)? \{"  # `ensures { .. }`, and with its name where a function has several
FORMULA = r" |NAME|CRATE|^(?:ensures|requires)$"  # and forms of names, and words of the language
CASE_NUMBERS = 22  # before the text of a line of test_machines; the first is 0 for a master, 1 for a node


def read_file(path):
    with open(path, encoding="utf-8") as file:
        return file.read()


def lines_of(path):
    return read_file(path).splitlines()


def stated(folder, form):
    """By crate/File what each file of specs/ or proofs/ states."""
    named = {}
    for path in glob.glob("crates/*/%s/*.antt" % folder):
        crate, file = path.split("/")[1], os.path.basename(path)[:-len(".antt")]
        named[crate + "/" + file] = {match[match.lastindex] for match in re.finditer(form, read_file(path), flags=re.M)}
    return named


class Code:
    """What the crates' src declares: names by themselves and with their crate or type, and of the functions those with a promise."""

    def __init__(self):
        self.crates = {os.path.basename(path) for path in glob.glob("crates/*")}
        self.names, self.promised = set(self.crates), set()
        for path in glob.glob("crates/*/src/*.rt"):
            self.read(path.split("/")[1], read_file(path))

    def read(self, crate, text):
        for kind, name, body in re.findall(r"^" + VISIBLE + r"(struct|enum) (\w+) \{\n(.*?)^\}", text, flags=re.M | re.S):
            self.names |= {name, crate + "::" + name}
            members = re.findall(r"^    " + VISIBLE + r"(\w+)[:,({ ]", body, flags=re.M)
            dot = "." if kind == "struct" else "::"
            self.names |= {owner + dot + member for owner in (name, crate + "::" + name) for member in members} | set(members)
        methods = re.findall(r"^impl (\w+) \{\n(.*?)^\}", text, flags=re.M | re.S)
        for owner, body in methods + [(crate, re.sub(r"^impl (\w+) \{\n(.*?)^\}", "", text, flags=re.M | re.S))]:
            for name in re.findall(r"^ *" + VISIBLE + r"const (\w+)", body, flags=re.M):
                self.names |= {name, owner + "::" + name}
            for name, head in re.findall(FUNCTION, body, flags=re.M | re.S):
                self.names |= {name, owner + "::" + name}
                if re.search(PROMISE, head, flags=re.M):
                    self.promised |= {name, owner + "::" + name}


class Repository:
    def __init__(self):
        self.required = re.findall(r"^\*\*(%s)\*\*" % NUMBER, read_file(REQUIREMENTS), flags=re.M)
        self.specs, self.proofs, self.code = stated("specs", DEFINITION), stated("proofs", THEOREM), Code()
        self.names = self.code.names.union(*self.specs.values(), *self.proofs.values())
        self.edits = {path[len("crates/"):-len(".edit")] for path in glob.glob("crates/*/must-fail/*.edit")}
        mutations = [path[:-len(".edit")].split("/")[-2:] for path in glob.glob("tests/mutations/*/*.edit")]
        self.edits |= {"/mutations/".join(path) for path in mutations}
        self.sets = {path[:-len(".set")] for path in lines_of("crates/test_sets/args")}
        lines = [line.split(" ", CASE_NUMBERS) for line in lines_of("crates/test_machines/stdin")]
        self.cases = {"master": [line[-1] for line in lines if line[0] == "0"], "node": [line[-1] for line in lines if line[0] == "1"]}
        for name, folder in [("drill", "crates/test_drills"), ("why", "tests/why")]:
            arguments = lines_of(folder + "/args")
            self.cases[name], self.cases[name + " set"] = arguments[1::2], [path[:-len(".set")] for path in arguments[::2]]
        self.cases["moves"] = [path[:-len(".moves")] for path in lines_of("crates/test_moves/args")]
        self.printed = read_file("crates/test_sets/stdout")
        self.proved_cases = len(re.findall(r"^    (?:∷ )?(?:Reads|Steps) ", read_file("crates/test_proved_cases/specs/Cases.antt"), flags=re.M))

    def has_case(self, kind, text):
        form = re.compile(".*".join(map(re.escape, re.split(r" ?\.\. ?", text))))
        return any(form.fullmatch(case) for case in self.cases[kind])

    def has_printed(self, line):
        """A line that the sets' program prints; N is any number."""
        return re.search("^%s$" % line.replace(" N ", r" \d+ "), self.printed, flags=re.M)


def split(text, at):
    """The parts of a text between separators that are neither in italics nor in backquotes."""
    kept = re.sub(MARKED, lambda match: "\0" * len(match[0]), text)
    ends = [match.span() for match in re.finditer(at, kept)]
    starts = [0] + [end for _, end in ends]
    return [text[start:end] for start, end in zip(starts, [start for start, _ in ends] + [len(text)])]


def items(part):
    """The items of a list; of two with `to` between them, both."""
    return [end for item in split(part, ", ") for end in split(item, " to ")]


def paragraphs(text):
    """Paragraphs, items and heads with the number of their first line, the lines of each joined."""
    found, inside = [], False
    for number, line in enumerate(text.split("\n"), 1):
        if inside and line and not re.match(r"- |#|\d+\. |\*\*", line):
            found[-1][1] += " " + line.strip()
        elif line:
            found.append([number, line])
        inside = bool(line)
    return found


class Trace:
    def __init__(self, text, repository):
        self.text, self.repository = text, repository
        self.found, self.wrong, self.line, self.entries = collections.Counter(), [], 0, []
        self.forms = {"defined": self.defined, "proved": self.proved, "promised": self.promised, "where": self.where, "tested": self.tested}

    def note(self, words):
        self.wrong.append("%s:%d: %s" % (TRACE, self.line, words))

    def hold(self, kind, name, there):
        """Counts a name that is there, and notes one that is not."""
        if there:
            self.found[kind] += 1
        else:
            self.note("no such %s: %s" % (kind, name))

    def stated(self, kind, files, part):
        """Files of specs/ or proofs/, and what each of them states."""
        if not re.fullmatch(FILES + "(?:: .+)?", part):
            return self.note("no such form: " + part)
        heads, *named = part.split(": ")
        crate = ""
        for head in heads.split(", "):
            crate = head.split("/")[0] if "/" in head else crate
            file = crate + "/" + head.split("/")[-1]
            self.hold("file", "%s of a %s" % (file, kind), file in files)
            for name in items(named[0]) if named else []:
                self.hold(kind, "%s: %s" % (file, name), name in files.get(file, ()))

    def defined(self, part):
        self.stated("definition", self.repository.specs, part)

    def proved(self, part):
        self.stated("theorem", self.repository.proofs, part)

    def promised(self, part):
        for item in items(part):
            self.hold("promise", item, re.fullmatch(r"`.*`", item) and item.strip("`") in self.repository.code.promised)

    def where(self, part):
        for item in items(part):
            if item.startswith("`"):
                self.code(item.strip("`"))
            else:
                self.path(item)

    def path(self, path):
        self.hold("path", path, re.fullmatch(PATH, path) and os.path.exists(path))

    def code(self, name):
        if re.fullmatch(PATH, name):
            self.path(name)
        else:
            self.hold("name", name, name in self.repository.names)

    def prose(self, text):
        for name in re.findall(r"`([^`]*)`", text):
            if not re.search(FORMULA, name):
                self.code(name)

    def tested(self, part):
        edits, proved_cases = re.fullmatch(EDITS, part), re.fullmatch(PROVED_CASES, part)
        cases, of_file = re.fullmatch(r"(%s) (\*.+\*)" % "|".join(CASES), part), re.fullmatch("(%s): (.+)" % PATH, part)
        if edits:
            self.edits(*edits.groups())
        elif proved_cases:
            for number in items(proved_cases[1]):
                self.hold("proved case", number, number.isdigit() and 1 <= int(number) <= self.repository.proved_cases)
        elif cases:
            for case in items(cases[2]):
                self.hold("case", "%s, of %s" % (case, cases[1]), self.repository.has_case(cases[1], case.strip("*")))
        elif of_file:
            self.of_file(*of_file.groups())
        else:
            for item in items(part):
                self.test(item)

    def edits(self, folder, names):
        """Edits of a crate, or all of them."""
        if names is None:
            self.hold("path", folder, any(edit.startswith(folder + "/") for edit in self.repository.edits))
        for name in items(names) if names else []:
            self.hold("edit", folder + "/" + name, folder + "/" + name in self.repository.edits)

    def of_file(self, path, named):
        """Functions and texts of a file."""
        self.path(path)
        text = read_file(path) if os.path.isfile(path) else ""
        for item in items(named):
            if item.startswith("*"):
                self.hold("text", "%s of %s" % (item, path), '"%s"' % item.strip("*") in text)
            else:
                self.hold("function", "%s of %s" % (item, path), re.search(r"^[\w ]+\b%s\(" % re.escape(item), text, flags=re.M))

    def test(self, item):
        name = item.strip("`")
        if item.startswith("`") and " " in name:
            self.hold("output", name, self.repository.has_printed(name))
        elif item.startswith("`"):
            self.hold("program", name, name in self.repository.code.crates)
        elif re.fullmatch(PATH, item):
            self.path(item)
        else:
            self.hold("set", item, item in self.repository.sets)

    def item(self, word, text):
        for match in re.finditer(BRACKETS, text):
            self.prose(match[2] or "")
        if word in self.forms:
            for part in split(re.sub(BRACKETS, r"\1", text), "; "):
                self.forms[word](part)
        else:
            self.note("no such line: " + word)

    def numbers(self):
        """An entry for each requirement, once and in order, and something that carries it."""
        required, numbers = self.repository.required, [number for _, number, _ in self.entries]
        for self.line, number, carried in self.entries:
            if numbers.count(number) > 1:
                self.note("not the only entry: " + number)
            if not carried:
                self.note("nothing carries it: " + number)
        for number in required:
            if number not in numbers:
                self.note("no entry: " + number)
        known = [number for number in numbers if number in required]
        if known != sorted(known, key=required.index):
            self.note("not in order")

    def paragraph(self, text):
        entry, item = re.match(r"\*\*(%s)\*\* ." % NUMBER, text), re.fullmatch(LINE, text)
        for number in re.findall(r"\b%s\b" % NUMBER, text):
            self.hold("number", number, number in self.repository.required)
        if entry:
            self.entries.append([self.line, entry[1], 0])
        if self.entries and item:
            self.entries[-1][2] += 1
            self.item(*item.groups())
        elif self.entries and text.startswith("- "):
            self.note("no such line: " + text)
        else:
            self.prose(text)

    def check(self):
        for self.line, line in enumerate(self.text.split("\n"), 1):
            if len(line) > WIDTH:
                self.note("longer than %d" % WIDTH)
        for self.line, text in paragraphs(self.text):
            self.paragraph(text)
        self.numbers()
        return self.wrong


def main():
    trace = Trace(read_file(TRACE), Repository())
    if trace.check():
        sys.exit("\n".join(trace.wrong))
    counts = ", ".join("%d %ss" % (count, kind) for kind, count in sorted(trace.found.items()))
    print("TRACE.md: %d entries, %s: all found" % (len(trace.entries), counts))


if __name__ == "__main__":
    main()
