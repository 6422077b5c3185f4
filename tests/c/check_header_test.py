"""Changes each number of the header, of LAYOUTS.md and of the offsets by one: check_header.py must find it, and the probes a constant's.

Usage: check_header_test.py ARCHIVE, at the repository's root: the archive to which the header is held. The probes are compiled with
each changed header, so that a number that header, LAYOUTS.md and offsets had wrong alike would be found by the archive."""
import concurrent.futures
import os
import re
import subprocess
import sys
import tempfile

sys.dont_write_bytecode = True
import check_header
from check_header import HEADER, LAYOUTS, LIMITS, NUMBER, OFFSETS, read_file, spec_path


def changed(text, start, end, by):
    written = "0x%X" if text.startswith("0x", start) else "%d"
    return text[:start] + written % (int(text[start:end], 0) + by) + text[end:]


def edits(text, places):
    """A text with each number changed by one, up and down; places has the start and the end of each."""
    for start, end in places:
        for by in (1, -1):
            if int(text[start:end], 0) + by >= 0:
                yield text[max(text.rfind("\n", 0, start), 0):end].strip(), by, changed(text, start, end, by)


def within(match, group):
    """The places of the numbers in a part of a match; a number with commas has several."""
    return [tuple(match.start(group) + at for at in number.span()) for number in re.finditer(NUMBER, match[group])]


def constants(text):
    return [match.span(1) for match in re.finditer(r"^#define CXPI_\w+ +(%s)" % NUMBER, text, flags=re.M)]


def comments(text, names):
    """The numbers in the comments of these constants."""
    defined = re.finditer(r"^#define CXPI_(\w+) +\d+ +/\*(.*)\*/$", text, flags=re.M)
    return [place for match in defined if match[1] in names for place in within(match, 2)]


def cells(text, name):
    """The cells of a column, '' the first, in the tables that are held to the header, each with the header's names in its row."""
    for table in re.finditer(r"^\|([^\n]*In cxpi\.h[^\n]*)\n\|[-|]*\n((?:\|[^\n]*\n)+)", text, flags=re.M):
        heads = [""] + [head.strip() for head in table[1].split("|")[1:]]
        if name in heads:
            for row in re.finditer(r"[^\n]+", table[2]):
                columns = list(re.finditer(r"(?<=\|)[^|]*(?=\|)", row[0]))
                start = table.start(2) + row.start() + columns[heads.index(name)].start()
                yield re.compile(r"[^|]*").match(text, start), columns[heads.index("In cxpi.h")][0].strip().split(", ")


def places(text):
    return [match.span(1) for match in re.finditer(r"^\w+ = (\d+)$", text, flags=re.M)]


def is_found(path, text):
    """Whether check_header.py finds something wrong with another text of that file."""
    wrong, _ = check_header.differences(lambda read: text if read == path else read_file(read))
    return wrong != []


def probes_fail(archive, text):
    """Whether the probes, compiled with that header, find something wrong with the archive."""
    with tempfile.TemporaryDirectory() as folder:
        with open(os.path.join(folder, "cxpi.h"), "w", encoding="utf-8") as file:
            file.write(text)
        program = os.path.join(folder, "probes")
        subprocess.run(["gcc", "-std=c11", "-I" + folder, "tests/c/probes.c", archive, "-o", program], check=True)
        return subprocess.run([program], stdout=subprocess.DEVNULL, check=False).returncode != 0


def main():
    archive = sys.argv[1]
    header, layouts = read_file(HEADER), read_file(LAYOUTS)
    limits = [(cell, names[0]) for column in LIMITS for cell, names in cells(layouts, column) if len(names) == 1]
    in_layouts = [place for cell, _ in [*cells(layouts, ""), *limits] for place in within(cell, 0)]
    tried = [(HEADER, *edit) for edit in edits(header, constants(header) + comments(header, {name for _, name in limits}))]
    tried += [(LAYOUTS, *edit) for edit in edits(layouts, in_layouts)]
    for path in map(spec_path, OFFSETS):
        tried += [(path, *edit) for edit in edits(read_file(path), places(read_file(path)))]
    tried += [(HEADER, "the stack", 0, header.replace(" * Stack: a call takes at most ", " * Stack: a call takes at most 1")),
              (HEADER, "a constant left out", 0, re.sub(r"^#define CXPI_FILLER .*\n", "", header, flags=re.M)),
              (HEADER, "a constant too many", 0, header.replace("#define CXPI_FILLER", "#define CXPI_OTHER 0\n#define CXPI_FILLER")),
              (LAYOUTS, "a row left out", 0, re.sub(r"^\| 9 \| of a set alone.*\n", "", layouts, flags=re.M)),
              (LAYOUTS, "no such definition", 0, layouts.replace("record_entry", "record_record")),
              (LAYOUTS, "no such definition of a call", 0, layouts.replace("configure_leaves", "configure_keeps"))]
    missed = ["%s: %s, by %d: not found" % (path, what, by) for path, what, by, text in tried if not is_found(path, text)]

    probed = list(edits(header, constants(header)))
    with concurrent.futures.ThreadPoolExecutor(os.cpu_count()) as pool:
        found = list(pool.map(lambda edit: probes_fail(archive, edit[2]), probed))
    missed += ["%s, by %d: no probe fails" % (what, by) for (what, by, _), fails in zip(probed, found) if not fails]
    if missed:
        sys.exit("\n".join(missed))
    print("%d changed numbers found; of the header's %d each by the probes too" % (len(tried), len(probed)))


if __name__ == "__main__":
    main()
