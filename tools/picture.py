#!/usr/bin/env python3
"""Draws the lines of drill, why or replay as a timeline in SVG: a column for each move, with lanes for the clock, the master and its phase,
each node with its network error, and the refusals.

Usage: picture.py [--moves FILE] < LINES > PICTURE.svg
FILE has the moves that the drill or why took, and each column then has its move in words."""
import argparse
import os
import re
import sys
from itertools import groupby
from xml.sax.saxutils import escape

HEADERS = os.path.join(os.path.dirname(os.path.abspath(__file__)), os.pardir, "include")
STATES = {"N": "Normal", "S": "Standby", "Z": "Sleep"}
PHASES = {"0": "Open", "1": "Sending", "2": "Withdrawn", "3": "Closing"}
COLUMNS = 40  # of a row of the timeline; the moves behind go on in the next row
WIDTH, WIDEST = 960, 64  # of a row's columns together, and of one
LEFT, MARGIN = 80, 12  # the lanes' names, and the border
LANE, BAR, LETTER = 22, 16, 6.5  # the heights of a lane and of its bar, the width of a letter
WORDS = 20  # letters of a move that are shown
STYLE = """text{font:11px sans-serif;fill:#111}.mid{text-anchor:middle}.end{text-anchor:end}.head{font-weight:bold}.paper{fill:#fff}
.grid{stroke:#ddd}.clock{fill:#cde;stroke:#246;stroke-width:1.5}rect.bar{stroke:#555;stroke-width:.7}
.Normal{fill:#b7e1b0}.Standby{fill:#ffe08a}.Sleep{fill:#c9cdd6}
.Open{fill:#fff}.Sending{fill:#9ecbf0}.Withdrawn{fill:#f3c6a5}.Closing{fill:#cdb4e8}
.error{fill:#c00}.refusal{fill:#c00}text.on{fill:#fff;font-weight:bold}.none{fill:#777}"""


class Move:
    """What a line tells: of a line `?`, nothing but that it was no move."""

    def __init__(self, number, master=None, phase=None, clock=None, nodes=(), refusal=0):
        self.number, self.master, self.phase, self.clock, self.nodes, self.refusal = number, master, phase, clock, nodes, refusal


def read_move(line, number):
    found = re.fullmatch(r"(\d+) (?:\?|([NSZ])([0-3]) ([01]) ((?:[NSZ]!?)+) (\d+))", line)
    if not found or int(found[1]) != number:
        raise ValueError("line %d is none of drill, why or replay: %r" % (number, line))
    if found[2] is None:
        return Move(number)
    return Move(number, found[2], found[3], found[4], re.findall(r"[NSZ]!?", found[5]), int(found[6]))


def read_lines(text):
    """The moves, and the line behind them: why's, or that of a refused set."""
    lines = text.splitlines()
    last = lines.pop() if lines and re.match(r"why |set \d+$", lines[-1]) else ""
    moves = [read_move(line, number) for number, line in enumerate(lines, 1)]
    if len({len(move.nodes) for move in moves if move.master}) > 1:
        raise ValueError("the lines differ in their number of nodes")
    return moves, last


def read_words(path, count):
    """The moves in words, a script's lines; the last may lack its end."""
    with open(path, encoding="latin-1", newline="") as file:
        lines = file.read().split("\n")
    if lines[-1] == "":
        lines.pop()
    if len(lines) != count:
        raise ValueError("%s has %d moves, the lines are %d" % (path, len(lines), count))
    return [re.sub(r"[^ -~]", ".", line)[:WORDS] for line in lines]


def refusal_words():
    """The refusals' words, from the headers."""
    with open(os.path.join(HEADERS, "cxpi.h")) as file:
        numbers = dict(re.findall(r"#define (CXPI_\w+) (\d+)", file.read()))
    with open(os.path.join(HEADERS, "cxpi_text.h")) as file:
        return {int(numbers[name]): words for name, words in re.findall(r'case (\w+):\s+return "([^"]*)"', file.read())}


def text(x, y, words, kind="", turned=False):
    styled = ' class="%s"' % kind if kind else ""
    turn = ' transform="rotate(-90 %g %g)"' % (x, y) if turned else ""
    return '<text x="%g" y="%g"%s%s>%s</text>' % (x, y, styled, turn, escape(words))


def box(x, y, width, height, kind):
    return '<rect x="%g" y="%g" width="%g" height="%g" class="%s"/>' % (x, y, width, height, kind)


def spans(values):
    """Equal values in a row as one: where it starts, how many, and the value; gaps (None) are left out."""
    at = 0
    for value, same in groupby(values):
        count = len(list(same))
        if value is not None:
            yield at, count, value
        at += count


def bars(values, names, y, column):
    """A lane of bars, each with its name where that has room and its letter elsewhere; a value with `!` has the mark of an error."""
    for at, count, value in spans(values):
        name, width, error = names[value[0]], count * column, value[1:]
        x = LEFT + at * column
        yield box(x, y, width, BAR, "bar " + name)
        if error:
            yield box(x, y + BAR - 4, width, 4, "error")
        words = name + " !" if error else name
        yield text(x + width / 2, y + 11, words if len(words) * LETTER <= width else value, "mid")


def line(x1, y1, x2, y2, kind):
    return '<line x1="%g" y1="%g" x2="%g" y2="%g" class="%s"/>' % (x1, y1, x2, y2, kind)


def clock_lane(values, y, column):
    for at, count, value in spans(values):
        x, width = LEFT + at * column, count * column
        yield box(x, y, width, BAR, "clock") if value == "1" else line(x, y + BAR, x + width, y + BAR, "clock")


def refusals(moves, y, column):
    for at, move in enumerate(moves):
        mark = "?" if move.master is None else str(move.refusal)
        if mark != "0":
            middle = LEFT + (at + 0.5) * column
            yield box(middle - 9, y, 18, BAR, "none" if mark == "?" else "refusal")
            yield text(middle, y + 12, mark, "mid on")


def timeline(moves, words, nodes, top, column):
    """A row of the timeline, and where it ends."""
    high = max((len(line) for line in words), default=0) * LETTER
    y = top + high + 14
    names = ["clock", "master", "phase"] + ["node %d" % node for node in range(nodes)] + ["refusal"]
    bottom, drawn = y + 6 + LANE * len(names), []
    for at, move in enumerate(moves):
        x = LEFT + at * column
        drawn.append(line(x, y + 4, x, bottom, "grid"))
        drawn.append(text(x + column / 2, y, str(move.number), "mid"))
        if words:
            drawn.append(text(x + column / 2 + 4, y - 14, words[at], turned=True))
    drawn.append(text(LEFT - 8, y, "move", "end"))
    lanes = [y + 6 + LANE * k for k in range(len(names))]
    drawn += [text(LEFT - 8, lane + 12, name, "end") for lane, name in zip(lanes, names)]
    drawn += clock_lane([move.clock for move in moves], lanes[0], column)
    drawn += bars([move.master for move in moves], STATES, lanes[1], column)
    drawn += bars([move.phase if move.master == "N" else None for move in moves], PHASES, lanes[2], column)
    for node in range(nodes):
        drawn += bars([move.nodes[node] if move.master else None for move in moves], STATES, lanes[3 + node], column)
    drawn += refusals(moves, lanes[-1], column)
    return drawn, bottom + MARGIN


def legend(numbers, top):
    """The colours' names, then the refusals in words."""
    x, drawn = LEFT, [text(LEFT - 8, top + 12, "legend", "end")]
    kinds = [("bar " + name, "%s %s" % (letter, name)) for names in (STATES, PHASES) for letter, name in names.items()]
    kinds += [("clock", "clock on"), ("error", "! network error"), ("refusal", "refusal"), ("none", "? no move")]
    for kind, name in kinds:
        drawn += [box(x, top, 14, 14, kind), text(x + 19, top + 11, name)]
        x += 27 + len(name) * LETTER
    said, y = refusal_words(), top
    for number in sorted(numbers):
        y += LANE
        drawn += [box(LEFT, y, 18, BAR, "refusal"), text(LEFT + 9, y + 12, str(number), "mid on")]
        drawn.append(text(LEFT + 25, y + 12, said.get(number, "no refusal number")))
    return drawn, y + LANE + MARGIN


def picture(moves, last, words):
    nodes = max((len(move.nodes) for move in moves), default=0)
    column = min(WIDEST, WIDTH // min(COLUMNS, len(moves) or 1))
    drawn, y = [], MARGIN
    for first in range(0, len(moves), COLUMNS):
        row, y = timeline(moves[first:first + COLUMNS], words[first:first + COLUMNS], nodes, y, column)
        drawn += row
    if last:
        drawn.append(text(LEFT, y + 12, last, "head"))
        y += LANE
    numbers = {move.refusal for move in moves} - {0} | {int(number) for number in re.findall(r"^set (\d+)", last)}
    row, y = legend(numbers, y)
    width = LEFT + WIDTH + MARGIN
    head = '<svg xmlns="http://www.w3.org/2000/svg" width="%g" height="%g" viewBox="0 0 %g %g">' % (width, y, width, y)
    return "\n".join([head, "<style>%s</style>" % STYLE, box(0, 0, width, y, "paper")] + drawn + row + ["</svg>"]) + "\n"


def main():
    about, usage = __doc__.split("\n\nUsage: ")
    options = argparse.ArgumentParser(description=about, usage=usage.split("\n")[0])
    options.add_argument("--moves", metavar="FILE", help="the moves that the drill or why took, shown in words")
    path = options.parse_args().moves
    try:
        moves, last = read_lines(sys.stdin.read())
        words = read_words(path, len(moves)) if path else []
    except (OSError, ValueError) as wrong:
        sys.exit("picture.py: %s" % wrong)
    sys.stdout.write(picture(moves, last, words))


if __name__ == "__main__":
    main()
