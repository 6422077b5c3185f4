#!/usr/bin/env python3
"""The most stack that each exported function can take, whatever its input, from the compiled code.

Usage: stack.py NAME [BOUND], NAME.s and NAME.su being what archives.sh leaves of a module. A call that can take more than the bound is an
error.

Frames are clang's own (-fstack-usage), summed along the deepest chain of calls in the assembly. The sum is exact down to the C library: no frame
has a variable size, no function calls itself, none is called through a pointer, or it is an error. What memcpy and its like take comes on
top."""
import re
import sys

# What a call may need of the C library: copying and filling, and of the compiler's run time the division that a Cortex-M0+ lacks.
LIBRARY = re.compile(r'mem(?:cpy|move|set)|__aeabi_mem(?:cpy|move|set|clr)[48]?|__aeabi_uidiv(?:mod)?')
CONDITION = r'(?:eq|ne|hs|cs|lo|cc|mi|pl|vs|vc|hi|ls|ge|lt|gt|le)'
CALL = re.compile(rf'\t(?:b(?:l|{CONDITION})?(?:\.[wn])?|call|tail|jal|j)\t("[^"]+"|[\w.]+)(?![\w.,])')
THROUGH_A_POINTER = re.compile(rf'\t(?:blx|bx{CONDITION}?(?!\w*\tlr\b)|jalr)\b')
LABEL = re.compile(r'("[^"]+"|[\w.]+):')


class Unbounded(Exception):
    """The stack cannot be told from the code."""


def read_frames(text):
    frames = {}
    for line in text.splitlines():
        place, size, kind = line.split('\t')
        name = place.split(':', 1)[1]
        if kind != 'static':
            raise Unbounded(f'{name} has a frame of variable size')
        frames[name] = int(size)
    return frames


def read_calls(text, frames):
    """The functions that each function calls: those of the archive, and those of the C library."""
    calls, library, current = {name: set() for name in frames}, {name: set() for name in frames}, None
    for line in text.splitlines():
        label, call = LABEL.match(line), CALL.match(line)
        if label and label[1].strip('"') in frames:
            current = label[1].strip('"')
        if THROUGH_A_POINTER.match(line):
            raise Unbounded(f'{current}: {line.strip()}')
        if call and not call[1].startswith('.L'):
            callee = call[1].strip('"')
            if callee in frames:
                calls[current].add(callee)
            elif LIBRARY.fullmatch(callee):
                library[current].add(callee)
            else:
                raise Unbounded(f'{current} calls {callee}')
    return calls, library


def deepest(name, frames, calls, above=()):
    if name in above:
        raise Unbounded(f'{name} calls itself')
    return frames[name] + max((deepest(callee, frames, calls, (*above, name)) for callee in calls[name]), default=0)


def main():
    if len(sys.argv) not in (2, 3):
        sys.exit(__doc__)
    name = sys.argv[1]
    bound = int(sys.argv[2]) if len(sys.argv) == 3 else None
    try:
        with open(f'{name}.su', encoding='utf-8') as file:
            frames = read_frames(file.read())
        with open(f'{name}.s', encoding='utf-8') as file:
            text = file.read()
        calls, library = read_calls(text, frames)
        exported = sorted(each.strip('"') for each in re.findall(r'^\t\.globl\t(\S+)', text, re.M))
        stack = {call: deepest(call, frames, calls) for call in exported}
    except Unbounded as reason:
        sys.exit(f'{name}: no bound on the stack: {reason}')
    for call, size in stack.items():
        print(f'{call:22}{size:6}')
    print('C library:', ' '.join(sorted(set().union(*library.values()))))
    over = [call for call, size in stack.items() if bound is not None and size > bound]
    if over:
        sys.exit(f'{name}: more than {bound} bytes of stack: {" ".join(over)}')


if __name__ == '__main__':
    main()
