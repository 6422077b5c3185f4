"""Holds every Markdown file to the repository: where its links lead, the paths that it names, the length of its lines, and what it cites.

Usage: check_links.py, at the repository's root.

A link or an image leads to what the repository has, and with a #fragment to a heading; one with a scheme is not followed. A path that
begins with a folder of FOLDERS, and a name as the top and docs have them, is there; in a path `*`, CRATE and FILE stand for any text
without `/`, and docs/changes and docs/PORT.md may have names of their day (docs/changes/NAMES.md). target/, out/ of a crate and .git are
no part of the repository.
A page that says what the drill prints has the moves and lines of crates/drill.
The two papers from which the product was built are called by their numbers in PAPERS alone; other pages, and sources, cite requirements."""
import collections
import os
import posixpath
import re
import sys

NAMES, OF_THEIR_DAY = "docs/changes/NAMES.md", ("docs/changes/", "docs/PORT.md")
OUTSIDE = r"\.git|target|crates/\w+/out"
PAPERS = ["docs/%s.md" % name for name in ("SOURCES", "DECISIONS", "CONFORMANCE", "TRACE", "REQUIREMENTS")]
FOLDERS = "crates|tests|docs|tools|include|firmware|examples"
PATH = r"(?<![\w./*-])(?:%s)/[\w./*-]*" % FOLDERS
NAME = r"(?<![\w./-])(?:[A-Z]+\.md|crates\.txt|Makefile)\b"
ANY = r"\*|\bCRATE\b|\bFILE\b"
LINK = r"\]\(([^()\s]*)|^\[[^\]]+\]:\s+(\S+)"
CITED = r"ocuments?[\s#*/]+0[12]\b"  # over the end of a comment's line too
WIDTH, README, README_WIDTH, README_LINES = 160, "README.md", 120, 120
DRILL = r"^    (\w+(?: \w+)*) +(\d+ [NSZ][0-3] [01] \S+ \d+)(?:  |$)"  # a move and its line
DRILL_HEADING, MOVES, LINES = "\n## What the drill prints\n", "crates/drill/stdin", "crates/drill/stdout"


def read_bytes(path):
    with open(path, "rb") as file:
        return file.read()


def read_file(path):
    return read_bytes(path).decode("utf-8")


def anchors(text):
    """The fragments that lead to a text's headings."""
    found = collections.Counter()
    for heading in re.findall(r"^#+ +(.*?) *$", re.sub(r"^```.*?^```", "", text, flags=re.M | re.S), flags=re.M):
        anchor = re.sub(r"[^\w -]", "", heading.lower()).replace(" ", "-")
        yield "%s-%d" % (anchor, found[anchor]) if found[anchor] else anchor
        found[anchor] += 1


class Repository:
    """Its files and folders by their paths, and the names that were changed."""

    def __init__(self):
        self.files, self.paths = [], {"."}
        for folder, folders, files in os.walk("."):
            folders[:] = [name for name in folders if not re.fullmatch(OUTSIDE, posixpath.normpath(posixpath.join(folder, name)))]
            self.files += sorted(posixpath.normpath(posixpath.join(folder, name)) for name in files if name != ".git")
            self.paths.update(posixpath.normpath(posixpath.join(folder, name)) for name in folders)
        self.paths.update(self.files)
        self.changed = set(re.findall(r"^\| `([^`]+)` \|", read_file(NAMES), flags=re.M))

    def has(self, path):
        path = posixpath.normpath(path)
        form = "[^/]*".join(map(re.escape, re.split(ANY, path)))
        return path in self.paths or any(re.fullmatch(form, each) for each in self.paths)


class Page:
    def __init__(self, path, text, repository):
        self.path, self.text, self.repository = path, text, repository
        self.folder, self.wrong, self.held, self.line = posixpath.dirname(path), [], collections.Counter(), 0

    def hold(self, kind, right, what):
        """Counts what is right, and notes what is not."""
        if right:
            self.held[kind] += 1
        else:
            self.wrong.append("%s:%d: wrong %s: %s" % (self.path, self.line, kind, what))

    def link(self, target):
        if re.match(r"[a-z]+:", target):
            return
        path, _, fragment = target.partition("#")
        path = posixpath.normpath(posixpath.join(self.folder, path)) if path else self.path
        there = target and path in self.repository.paths
        self.hold("link", there, target)
        if there and fragment:
            text = self.text if path == self.path else read_file(path) if path.endswith(".md") else ""
            self.hold("heading", fragment in anchors(text), target)

    def named(self, path):
        of_its_day = self.path.startswith(OF_THEIR_DAY) and path in self.repository.changed
        self.hold("path", of_its_day or self.repository.has(path), path)

    def name(self, name):
        self.hold("name", any(self.repository.has(posixpath.join(folder, name)) for folder in ("", "docs", self.folder)), name)

    def length(self, line):
        most = README_WIDTH if self.path == README else WIDTH
        self.hold("width", len(line) <= most, "%d characters, not %d" % (len(line), most))

    def cited(self):
        """In the whole text, since a line may end within."""
        for match in [] if self.path in PAPERS or self.path.startswith(OF_THEIR_DAY) else re.finditer(CITED, self.text):
            self.line = self.text.count("\n", 0, match.start()) + 1
            self.hold("citation", False, "d" + " ".join(match[0].split()))

    def drill(self):
        """The moves and lines under that heading, each with the stored one."""
        shown = re.findall(DRILL, self.text, flags=re.M)
        stored = list(zip(read_file(MOVES).splitlines(), read_file(LINES).splitlines()))
        self.hold("number of moves", len(shown) == len(stored), "%d, not %d" % (len(shown), len(stored)))
        for have, want in zip(shown, stored):
            self.hold("move", have == want, "%s, not %s" % (" | ".join(have), " | ".join(want)))

    def check(self):
        lines = self.text.split("\n")[:-1]
        for self.line, line in enumerate(lines, 1):
            self.length(line)
            for match in re.finditer(LINK, re.sub(r"`[^`]*`", "", line)):
                self.link(match[match.lastindex])
            for path in re.findall(PATH, line):
                self.named(path.rstrip("."))
            for name in re.findall(NAME, line):
                self.name(name)
        if self.path == README:
            self.hold("height", len(lines) <= README_LINES, "%d lines, not %d" % (len(lines), README_LINES))
        if DRILL_HEADING in self.text:
            self.drill()
        self.cited()
        return self.wrong


class Source(Page):
    """Any other file, held to what it cites alone."""

    def check(self):
        self.cited()
        return self.wrong


def page_of(path, data, repository):
    return Page(path, data.decode("utf-8"), repository) if path.endswith(".md") else Source(path, data.decode("latin-1"), repository)


def main():
    repository = Repository()
    pages = [page_of(path, read_bytes(path), repository) for path in repository.files]
    wrong = [line for page in pages for line in page.check()]
    if wrong:
        sys.exit("\n".join(wrong))
    held = sum((page.held for page in pages), collections.Counter())
    counts = len(pages), sum(path.endswith(".md") for path in repository.files), *(held[kind] for kind in ("link", "heading", "path", "name", "move"))
    print("links: %d files, %d of Markdown with %d links, %d headings, %d paths, %d names and %d moves: all found" % counts)


if __name__ == "__main__":
    main()
