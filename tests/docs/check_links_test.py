"""Changes copies of Markdown files and of a source in one place each: check_links.py must refuse each copy for what was changed in it, and
refuse no text that has nothing but what a file may have.

Usage: check_links_test.py, at the repository's root."""
import sys

sys.dont_write_bytecode = True
from check_links import PAPERS, README, README_LINES, Repository, page_of, read_file

ARCHITECTURE, W_204, HOST, SOURCE = "docs/ARCHITECTURE.md", "docs/changes/W-204.md", "examples/firmware/README.md", "tests/c/run.sh"
PORT = "docs/PORT.md"
NUMBER = " 0" + "1"  # apart, since this file may not cite either

# A file, a text that is once in it, or none for the file's end, what it becomes, and what is then wrong.
WRONG = [
    # links: a file, an image, a file beside, out of the repository, into target, with a title, of a reference, to nothing
    (README, "](docs/LAYOUTS.md)", "](docs/LAYOUT.md)", "link: docs/LAYOUT.md"),
    (README, "](tests/picture/drill.svg)", "](tests/picture/drills.svg)", "link: tests/picture/drills.svg"),
    (HOST, "](../../README.md#", "](../README.md#", "link: ../README.md#what-the-drill-prints"),
    (README, "](CHANGELOG.md)", "](../CHANGELOG.md)", "link: ../CHANGELOG.md"),
    (README, "](CHANGELOG.md)", "](/CHANGELOG.md)", "link: /CHANGELOG.md"),
    (README, "](CHANGELOG.md)", "](target)", "link: target"),
    (README, "](CHANGELOG.md)", '](CHANGES.md "versions")', "link: CHANGES.md"),
    (README, "", "[versions]: CHANGES.md\n", "link: CHANGES.md"),
    (README, "](CHANGELOG.md)", "]()", "link: "),
    # headings: of the file itself, of another, a second one of the same words, of what has none
    (README, "](#the-firmware)", "](#firmware)", "heading: #firmware"),
    (README, "## The firmware\n", "## For the firmware\n", "heading: #the-firmware"),
    (README, "REQUIREMENTS.md#2-refusals", "REQUIREMENTS.md#refusals", "heading: docs/REQUIREMENTS.md#refusals"),
    (README, "](#the-firmware)", "](#the-firmware-1)", "heading: #the-firmware-1"),
    (README, "](examples/set-t/moves)", "](examples/set-t/moves#tick)", "heading: examples/set-t/moves#tick"),
    # paths: in backquotes, in a command, a folder, a form that nothing has, a folder that only a file is, a former name where none may be
    (README, "`examples/set-t/plan.set`", "`examples/set-t/plans.set`", "path: examples/set-t/plans.set"),
    (README, "examples/station/station.c ", "examples/station/stations.c ", "path: examples/station/stations.c"),
    (ARCHITECTURE, "", "Code is in `crate/` and `crates/bus/sources/`.\n", "path: crates/bus/sources/"),
    (ARCHITECTURE, "", "`crates/*/source`\n", "path: crates/*/source"),
    (ARCHITECTURE, "", "`crates/CRATE/specs/FILE.rt`\n", "path: crates/CRATE/specs/FILE.rt"),
    (ARCHITECTURE, "", "`include/*.c`\n", "path: include/*.c"),
    (ARCHITECTURE, "", "`tests/runs`\n", "path: tests/runs"),
    (W_204, "", "`tests/run`\n", "path: tests/run"),
    (PORT, "", "`tools/makeproof`\n", "path: tools/makeproof"),
    (ARCHITECTURE, "", "`tools/mkproof`\n", "path: tools/mkproof"),
    # names of the top and of docs
    (README, "", "CHANGES.md\n", "name: CHANGES.md"),
    (ARCHITECTURE, "", "`LAYOUT.md`\n", "name: LAYOUT.md"),
    # width and height
    (README, "", 121 * "x" + "\n", "width: 121 characters, not 120"),
    (README, "", 121 * "µ" + "\n", "width: 121 characters, not 120"),
    (ARCHITECTURE, "", 161 * "x" + "\n", "width: 161 characters, not 160"),
    (W_204, "", 161 * "x" + "\n", "width: 161 characters, not 160"),
    (README, "", README_LINES * "x\n", "height: "),
    # README's drill: a move, a line, one left out
    (README, "req 16 ok    7 N0 1 N 0", "req 16 bad   7 N0 1 N 0", "move: req 16 bad | 7 N0 1 N 0"),
    (README, "8 N1 1 N 0     accepted", "8 N1 1 N 1     accepted", "move: sleep | 8 N1 1 N 1"),
    (README, "    tick         12 Z0 0 Z 0    node 0 sleeps\n", "", "number of moves: 11, not 12"),
    # citations: of a page, over the end of a line, of a source, of both papers
    (README, "", "Document%s has it.\n" % NUMBER, "citation: document" + NUMBER),
    (HOST, "", "the document\n%s\n" % NUMBER.strip(), "citation: document" + NUMBER),
    (SOURCE, "", "# document%s\n" % NUMBER, "citation: document" + NUMBER),
    (SOURCE, "", "# the documents\n# %s and 02\n" % NUMBER.strip(), "citation: documents #" + NUMBER),
]

# A file, and a text that it may be.
RIGHT = [
    (README, "[versions](CHANGELOG.md), [docs](docs), [examples](docs/../examples/), [ISO](https://www.iso.org/none#such)\n"),
    (README, "## A `title`, twice\n## A title twice\n[first](#a-title-twice), [second](#a-title-twice-1)\n"),
    (README, "`[x](nothing)`, `target/lib/none.a`, `tests/*/make.py`, `crates/CRATE/specs`, `nothing/docs/none`, crates/bus.\n"),
    (README, 120 * "µ" + "\n"),
    (HOST, 160 * "µ" + "\n"),
    (W_204, "`tests/runs`; document%s\n" % NUMBER),
    (PORT, "`tools/mkproof`\n"),
    (SOURCE, "# see crates/test_drills/data/document-01, docs/NONE.md; %s\n" % (200 * "x")),
] + [(path, "document%s\n" % NUMBER) for path in PAPERS]


def main():
    repository, missed = Repository(), []
    for path, old, new, why in WRONG:
        text = read_file(path)
        missed += ["not once in %s: %s" % (path, old)] if old and text.count(old) != 1 else []
        wrong = page_of(path, (text.replace(old, new) if old else text + new).encode("utf-8"), repository).check()
        missed += [] if any(": wrong " + why in line for line in wrong) else ["not refused: %s: %s" % (path, new)]
    for path, text in RIGHT:
        missed += ["refused: " + line for line in page_of(path, text.encode("utf-8"), repository).check()]
    if missed:
        sys.exit("\n".join(missed))
    print("links: %d changed copies refused, %d right texts taken" % (len(WRONG), len(RIGHT)))


if __name__ == "__main__":
    main()
