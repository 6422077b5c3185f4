"""Finds array lengths and loop bounds that are written as numbers though the number has a name.

Usage: check_limits.py, at the repository's root.

A name is a constant of the crates' src, a definition of specs/ that is a number, or one of include/cxpi.h: of a limit or a length. Offsets
are no limits. A number below LEAST says too little to be held to a name."""
import glob
import re
import sys

LEAST = 10
NUMBER = r"(\d+)(?![\w.])"
FOLDED = r"\((?:[^()]|\([^()]*\))*\)|\S+"  # what a fold is over: a name, or a term in brackets
# where each kind of source says a length or a bound
BOUNDS = {
    ".rt": [r";\s*" + NUMBER + r"\s*\]", r"\bwhile\b[^{]*?<=?\s*\(?" + NUMBER, r"\.\.=?\s*\(?" + NUMBER],
    ".antt": [r"\b(?:tab|replicate)\s+" + NUMBER, r"\b(?:all_to|any_to|first_to|sum_to)\s+(?:" + FOLDED + r")\s+" + NUMBER],
    ".c": [r"^\s*(?:\w[\w *]*[ *]|.*, \*?)\w+(?:\[\w+\])*\[" + NUMBER + r"\]", r"\bfor \([^;]*;[^;]*<=?\s*" + NUMBER],
}
BOUNDS[".h"] = BOUNDS[".cpp"] = BOUNDS[".c"]
SOURCES = ["crates/*/src/*.rt", "crates/*/specs/*.antt", "examples/*/*.c", "tests/c/*.c*", "tests/c/*.h", "tests/firmware/*.c", "include/*.h"]


def read_file(path):
    with open(path, encoding="utf-8") as file:
        return file.read()


def named_in(pattern, form):
    """The numbers that have a name in some files, each with its names."""
    named = {}
    for path in sorted(glob.glob(pattern)):
        for name, number in re.findall(form, read_file(path), flags=re.M):
            if LEAST <= int(number) and not re.search(r"_AT$|_at$", name):
                named.setdefault(int(number), []).append(name)
    return named


def limits():
    """By a source's ending the numbers that have a name there."""
    code = named_in("crates/*/src/*.rt", r"const (\w+): \w+ = (\d+);")
    specs = named_in("crates/*/specs/*.antt", r"^(\w+) = (\d+)$")
    header = named_in("include/cxpi.h", r"^#define (CXPI_(?:\w*LENGTH\w*|MOST_\w+|REQIDS)) +(\d+)")
    return {".rt": code, ".antt": specs, ".c": header, ".h": header, ".cpp": header}


def wrong_in(path, text, named):
    """The lengths and bounds of a source that have a name."""
    ending = path[path.rindex("."):]
    wrong = []
    for number, line in enumerate(text.split("\n"), 1):
        line = re.sub(r"^\s*(?://|--|\*|/\*).*", "", line)
        for form in BOUNDS[ending]:
            for bound in re.findall(form, line):
                if int(bound) in named[ending]:
                    wrong.append("%s:%d: %s, which is %s" % (path, number, bound, " or ".join(sorted(set(named[ending][int(bound)])))))
    return wrong


def main():
    named = limits()
    paths = sorted({path for pattern in SOURCES for path in glob.glob(pattern)})
    wrong = [line for path in paths for line in wrong_in(path, read_file(path), named)]
    if wrong:
        sys.exit("\n".join(wrong))
    print("%d sources: no length and no bound is a number that has one of %d names" % (len(paths), sum(len(set(sum(by.values(), []))) for by in list(named.values())[:3])))


if __name__ == "__main__":
    main()
