"""Feeds run.py a repository of one source and a stand-in for rt: an edit that a case shows, and edits for which it must fail."""
import os
import shutil
import subprocess
import sys
import tempfile

RUN = os.path.abspath(os.path.join(os.path.dirname(__file__), "run.py"))
SOURCE = "let limit = 3;\nlet room = 8;\n"
# By the source: 4 is printed, 6 stops at a fault, 2 is not compiled, 1 ends otherwise; anything else is as stored, the input and the arguments with their files.
RT = """#!/bin/sh
case $(cat src/lib.rt) in
*"limit = 4"*) echo 4; exit 0 ;;
*"limit = 6"*) echo 3; exit 4 ;;
*"limit = 2"*) echo "the front end rejected the crate" >&2; exit 2 ;;
*"limit = 1"*) echo "killed" >&2; exit 6 ;;
esac
cat
echo "$@"
exit ${STATUS:-0}
"""
STORED = {"args": "a.set\nb\n", "data/a.set": "", "stdin": "3\n", "stdout": "3\ntry --seconds 300 --data a.set=data/a.set -- a.set b\n"}


def tried(edit, **environment):
    """The status and the last line for an edit."""
    with tempfile.TemporaryDirectory() as folder:
        files = {"crates.txt": "part:\n", "crates/part/src/lib.rt": SOURCE, "tests/mutations/part/one.edit": edit, "rt": RT}
        files.update(("crates/part/" + path, text) for path, text in STORED.items())
        for path, text in files.items():
            path = os.path.join(folder, path)
            os.makedirs(os.path.dirname(path), exist_ok=True)
            with open(path, "w") as file:
                file.write(text)
        os.chmod(os.path.join(folder, "rt"), 0o755)
        if not edit:
            shutil.rmtree(os.path.join(folder, "tests"))
        done = subprocess.run([sys.executable, RUN, os.path.join(folder, "rt")], cwd=folder, env={**os.environ, **environment},
                              stdout=subprocess.PIPE, text=True)
        with open(os.path.join(folder, "crates/part/src/lib.rt")) as source:
            assert source.read() == SOURCE, "the repository was changed"
        return done.returncode, done.stdout


def edit(new, old="let limit = 3;", program="program: part\n"):
    return "# a rule\n%sfile: src/lib.rt\nold: %s\nnew: %s\n" % (program, old, new)


def main():
    missed = []
    for number in (4, 6):
        if tried(edit("let limit = %d;" % number)) != (0, "1 edits of the code, each shown by a stored case\n"):
            missed.append("an edit that a case shows, %d" % number)
    failing = [("none", "", "no edit"), ("as stored", edit("let limit = 5;"), "prints what it has stored"),
               ("not compiled", edit("let limit = 2;"), "did not run"), ("does not end", edit("let limit = 1;"), "did not run"),
               ("not there", edit("let limit = 4;", "let limits = 3;"), "is 0 times"), ("twice", edit("var", "let"), "is 2 times"),
               ("another line", edit("let limit = 4;") + "then: this\n", "no such line")]
    for name, text, said in failing:
        status, output = tried(text)
        missed += [] if status == 1 and said in output else [name]
    status, output = tried(edit("let limit = 4;"), STATUS="1")
    missed += [] if status == 1 and "part without an edit" in output else ["a program that fails without an edit"]
    for name in missed:
        print("not refused:", name)
    print("edits that a case shows pass, by the output and by a fault, %d others are refused" % (len(failing) + 1))
    sys.exit(bool(missed))


if __name__ == "__main__":
    main()
