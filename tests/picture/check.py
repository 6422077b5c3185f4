"""Checks tools/picture.py: the picture of the example drill is the stored one; pictures of 12 and of 500 lines, of all that a line may
hold, are XML with a number for each move and a mark for each refusal, within the picture and apart; lines of other kinds are refused.

Usage: check.py, at the repository's root."""
import subprocess
import sys
import tempfile
import xml.etree.ElementTree as ElementTree

PICTURE = [sys.executable, "tools/picture.py"]
SVG = "{http://www.w3.org/2000/svg}"
WRONG = ["1 S0 0 S", "2 S0 0 S 0", "1 S4 0 S 0", "1 S0 0 S 0\n2 S0 0 SS 0", "1 S0 0 S 0\nwhy 0 wake\n2 S0 0 S 0", "set 4\n1 S0 0 S 0"]


def drawn(lines, *options):
    return subprocess.run(PICTURE + list(options), input=lines, capture_output=True, text=True)


def made_lines(count, nodes):
    """Lines with each state, phase and refusal, errors, and lines that were no move."""
    for k in range(1, count + 1):
        state = "NNNSZ"[k // 4 % 5]
        phase = k // 2 % 4 if state == "N" else 0
        letters = "".join("NSZ"[(k + node) // 5 % 3] + "!" * ((k + node) % 11 == 0) for node in range(nodes))
        yield "%d ?" % k if k % 9 == 0 else "%d %s%d %d %s %d" % (k, state, phase, state == "N", letters, k % 26 if k % 3 else 0)


def within(part, width, height):
    """A box or a line lies in the picture, a text begins in it."""
    x, y = (float(part.get(name, part.get(name + "1"))) for name in "xy")
    right, below = x + float(part.get("width", 0)), y + float(part.get("height", 0))
    return 0 <= x and 0 <= y and max(right, float(part.get("x2", 0))) <= width and max(below, float(part.get("y2", 0))) <= height


def check_apart(root):
    """No two marks of a row lie on each other."""
    marks = [part for part in root.iter(SVG + "rect") if part.get("class") in ("refusal", "none")]
    for one, two in zip(marks, marks[1:]):
        if one.get("y") == two.get("y"):
            assert float(one.get("x")) + float(one.get("width")) <= float(two.get("x")), "two marks overlap"


def check_words():
    """Words of a script are shown as they stand, whatever its bytes, and cut where they are long."""
    with tempfile.NamedTemporaryFile() as script:
        script.write(b"tick\n<a&b>\n\x00\xff\r\n" + b"x" * 1000)
        script.flush()
        lines = drawn("1 Z0 0 Z 0\n2 ?\n3 ?\n4 ?\n", "--moves", script.name).stdout
    words = [part.text for part in ElementTree.fromstring(lines).iter(SVG + "text") if part.get("transform")]
    assert words == ["tick", "<a&b>", "...", "x" * 20], "words are %r" % words


def check_made(count, nodes):
    lines = list(made_lines(count, nodes))
    root = ElementTree.fromstring(drawn("\n".join(lines + ["why 0 aged", ""])).stdout)
    texts = [(part.get("class"), part.text) for part in root.iter(SVG + "text")]
    for number in range(1, count + 1):
        assert ("mid", str(number)) in texts, "no column of move %d" % number
    numbers = [line.split()[-1] for line in lines if not line.endswith(" 0")]
    marks = [words for kind, words in texts if kind == "mid on"]
    told = sorted(set(numbers) - {"?"}, key=int)  # the legend's, behind the lanes'
    assert marks == numbers + told, "the marks are not the refusals"
    assert ("head", "why 0 aged") in texts, "the line why is missing"
    check_apart(root)
    size = float(root.get("width")), float(root.get("height"))
    assert all(within(part, *size) for kind in ("rect", "line", "text") for part in root.iter(SVG + kind)), "a part lies outside"


def main():
    with open("crates/drill/stdout") as file:
        printed = file.read()
    with open("tests/picture/drill.svg") as file:
        stored = file.read()
    if drawn(printed, "--moves", "examples/set-t/moves").stdout != stored:
        sys.exit("the picture of the example drill is not tests/picture/drill.svg")
    ElementTree.fromstring(stored)
    for count, nodes in ((12, 1), (12, 16), (500, 1), (500, 16)):
        check_made(count, nodes)
    check_words()
    assert "the revision is 0" in drawn("set 4\n").stdout, "a refused set is not told in words"
    for lines in WRONG:
        refused = drawn(lines)
        assert refused.returncode == 1 and not refused.stdout, "%r is drawn" % lines
    assert drawn("1 S0 0 S 0\n", "--moves", "examples/set-t/moves").returncode == 1, "twelve moves for one line are drawn"
    print("picture: the example drill as stored; 12 and 500 lines of 1 and 16 nodes")


if __name__ == "__main__":
    main()
