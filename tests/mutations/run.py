"""Each wrong edit of the code, tests/mutations/CRATE/NAME.edit, must make a test program print something else than it has stored, or stop at
a fault.

Nothing is proved here: `rt try` builds a program and runs it. But code and definition are proved equal, so a case that refuses the wrong code
would refuse the same change of the definition too. An edit has the form of a must-fail edit (CONTRIBUTING.md), of the crate's src/ alone, and a
line `program: NAME`. As many are tried at once as there are processors, each in a copy of the crates.

Usage: run.py [RT], at the repository's root: the command rt (its stand-in, in run_test.py).
"""
import concurrent.futures
import glob
import os
import queue
import shutil
import subprocess
import sys
import tempfile

SECONDS = 300  # of a program at most
FAULT = 4  # the status of a try that stopped at an index out of bounds or the like


class Wrong(Exception):
    pass


def read(path):
    """The program of an edit, and what it changes: a file, the old text and the new."""
    program, file, old, changes = None, None, None, []
    crate = os.path.basename(os.path.dirname(path))
    with open(path) as lines:
        for line in lines.read().splitlines():
            word, _, rest = line.partition(": ")
            if word == "program":
                program = rest
            elif word == "file":
                file = os.path.join("crates", crate, rest)
            elif word == "old":
                old = rest
            elif word == "new":
                changes.append((file, old, rest))
            elif not line.startswith("#"):
                raise Wrong("no such line: " + line)
    if not program or not changes:
        raise Wrong("no program, or nothing that it changes")
    return program, changes


def lines_of(path):
    if not os.path.exists(path):
        return []
    with open(path) as lines:
        return lines.read().splitlines()


def bytes_of(path):
    if not os.path.exists(path):
        return b""
    with open(path, "rb") as file:
        return file.read()


def run(rt, top, program):
    """The status of a program that is not proved, whether it printed what it has stored, and what was said of it."""
    crate = os.path.join(top, "crates", program)
    data = sorted(os.path.basename(path) for path in glob.glob(os.path.join(crate, "data", "*")))
    words = [word for name in data for word in ("--data", "%s=data/%s" % (name, name))]
    done = subprocess.run([rt, "try", "--seconds", str(SECONDS), *words, "--", *lines_of(os.path.join(crate, "args"))], cwd=crate,
                          input=bytes_of(os.path.join(crate, "stdin")), stdout=subprocess.PIPE, stderr=subprocess.PIPE)
    return done.returncode, done.stdout == bytes_of(os.path.join(crate, "stdout")), done.stderr.decode(errors="replace")


def change(top, changes):
    for file, old, new in changes:
        path = os.path.join(top, file)
        with open(path) as source:
            text = source.read()
        if text.count(old) != 1:
            raise Wrong("'%s' is %d times in %s" % (old, text.count(old), file))
        with open(path, "w") as source:
            source.write(text.replace(old, new))


def judge(rt, top, program, changes):
    """Makes an edit, runs its program, and takes the edit back; says what is wrong, or nothing."""
    kept = {file: open(os.path.join(top, file)).read() for file, _, _ in changes}
    try:
        change(top, changes)
        status, as_stored, said = run(rt, top, program)
    except (Wrong, OSError) as reason:
        return str(reason)
    finally:
        for file, text in kept.items():
            with open(os.path.join(top, file), "w") as source:
                source.write(text)
    if status not in (0, FAULT):
        return "%s did not run:\n%s" % (program, said)
    return "%s prints what it has stored" % program if as_stored else None


def judge_stored(rt, top, program):
    """The same of a program without an edit, which prints what it has stored."""
    status, as_stored, said = run(rt, top, program)
    return None if status == 0 and as_stored else "%s without an edit:\n%s" % (program, said)


def main():
    rt = shutil.which(sys.argv[1] if len(sys.argv) > 1 else "rt")
    paths, edits, wrong = sorted(glob.glob("tests/mutations/*/*.edit")), {}, []
    for path in paths:
        try:
            edits[path] = read(path)
        except Wrong as reason:
            wrong.append("%s: %s" % (path, reason))
    with tempfile.TemporaryDirectory() as folder, concurrent.futures.ThreadPoolExecutor(os.cpu_count()) as pool:
        copies = queue.Queue()
        for copy in range(os.cpu_count()):
            top = os.path.join(folder, str(copy))
            os.mkdir(top)
            shutil.copy("crates.txt", top)
            shutil.copytree("crates", os.path.join(top, "crates"), ignore=shutil.ignore_patterns("out"))
            copies.put(top)

        def tried(judged, *words):
            """What is found in a copy that nobody else has meanwhile."""
            top = copies.get()
            try:
                return judged(rt, top, *words)
            finally:
                copies.put(top)

        stored = [pool.submit(tried, judge_stored, program) for program in sorted({program for program, _ in edits.values()})]
        edited = {path: pool.submit(tried, judge, *edit) for path, edit in edits.items()}
        wrong += [found.result() for found in stored if found.result()]
        wrong += ["%s: %s" % (path, found.result()) for path, found in edited.items() if found.result()]
    wrong += [] if edits else ["no edit"]
    for line in wrong:
        print(line)
    print("%d edits of the code, each shown by a stored case%s" % (len(paths), " but %d" % len(wrong) if wrong else ""))
    sys.exit(bool(wrong))


if __name__ == "__main__":
    main()
