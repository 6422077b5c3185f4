#!/usr/bin/env python3
"""Retargets the LLVM module of the C calls from x86-64 to a controller with 32-bit pointers.

Usage: retarget.py MODULE HEADER TARGET OUT [ATTRIBUTE]..

MODULE is the module that rattle hands to clang, as text. HEADER declares the exported functions, and may declare those of other modules. TARGET is any module of the new target, of
which the two lines `target ..` are taken. OUT is the module retargeted, each function with the attributes given (optsize).

The code stays as it is: usize has 64 bits, and a place has the size and the offsets that it has on x86-64, where a pointer fills
the first four of its eight bytes. What changes: the target, four attributes that are x86-64's, names with `::`, which get a dot for it, places
of one pointer, which are made eight bytes long, records, which are read part by part where x86-64 has the parts, and the lengths of the exported functions,
which become 32 bits wide (`size_t`) and are extended by zeros on entry.

And zeros go where nothing can tell (class Zeros): rattle sets each place to zero where its function begins, and clang does not see in functions of
this length that most are written whole before they are read, and keeps a copy of a state for each.

That is right of a module in which nothing depends on the width of a pointer, and of no other. So every line has one of the few forms
below or the module is refused: no pointer becomes a number or is compared but with null, steps over memory are in bytes, alignments are written out,
records are of numbers and are only read, nothing is called outside but LLVM's memmove, memset and trap. And no byte of a pointer is read
or written as a number, or copied or set to zero without the rest (class Places)."""
import re
import sys
from collections import namedtuple

REGISTER = r'%[\w.]+'
NUMBER = r'i(?:1|8|16|32|64)'
RECORD = r'{ i(?:8|16|32|64)(?:, i(?:8|16|32|64))* }'
RESULT = rf'(?:{NUMBER}|{RECORD})'
VALUE = rf'(?:{REGISTER}|-?\d+|true|false)'
NAME = r'@(?:"[^"]+"|\w+)'
LABEL = rf'label {REGISTER}'
NOTES = r'(?:, !(?:noundef|range) !\d+)*'
FORMS = {kind: re.compile(form) for kind, form in {
    'load': rf'({REGISTER}) = load ({RESULT}|ptr), ptr ({REGISTER}), align (\d+){NOTES}',
    'store': rf'store ({NUMBER}|ptr) ({VALUE}), ptr ({REGISTER}), align \d+',
    'place': rf'({REGISTER}) = alloca (?:{NUMBER}|ptr|\[(\d+) x i8\]), align \d+',
    'step': rf'({REGISTER}) = getelementptr (?:inbounds )?(?:nuw )?i8, ptr ({REGISTER}), i64 ({VALUE})',
    'move': rf'call void @llvm\.memmove\.p0\.p0\.i64\(ptr ({REGISTER}), ptr ({REGISTER}), i64 ({VALUE}), i1 false\)',
    'fill': rf'call void @llvm\.memset\.p0\.i64\(ptr ({REGISTER}), i8 ({VALUE}), i64 ({VALUE}), i1 false\)',
    'call': rf'(?:call void|{REGISTER} = call {RESULT}) ({NAME})\((.*)\)',
    'part': rf'{REGISTER} = extractvalue {RECORD} {REGISTER}, \d+',
    'null': rf'{REGISTER} = icmp eq ptr ({REGISTER}), null',
    'reckon': rf'{REGISTER} = (?:add|sub|mul|udiv|urem|and|or|xor|shl|lshr)(?: nuw| nsw| exact)* {NUMBER} {VALUE}, {VALUE}',
    'compare': rf'{REGISTER} = icmp (?:eq|ne|ult|ule|ugt|uge) {NUMBER} {VALUE}, {VALUE}',
    'widen': rf'{REGISTER} = (?:zext|trunc)(?: nuw| nsw| nneg)* {NUMBER} {VALUE} to {NUMBER}',
    'go': rf'br (?:{LABEL}|i1 {VALUE}, {LABEL}, {LABEL})',
    'switch': rf'switch {NUMBER} {VALUE}, {LABEL} \[|{NUMBER} (?:-?\d+|true|false), {LABEL}|\]',
    'return': rf'ret (?:void|{NUMBER} {VALUE}|{RECORD} {REGISTER})',
    'trap': r'call void @llvm\.trap\(\)|unreachable',
    'label': r'[\w.]+:',
}.items()}
DEFINE = re.compile(rf'define (internal )?(?:noundef )?(zeroext )?(void|{RESULT}) ({NAME})\((.*)\) (#\d+) {{')
PARAMETER = re.compile(rf'(ptr|{NUMBER}) (?:noundef )?(?:zeroext )?({REGISTER})')
ARGUMENT = re.compile(rf'(ptr|{NUMBER}) ({VALUE})')
X86_64 = {
    'target datalayout = "e-m:e-p270:32:32-p271:32:32-p272:64:64-i64:64-i128:128-f80:128-n8:16:32:64-S128"',
    'target triple = "x86_64-unknown-linux-gnu"',
}
OUTSIDE_LINES = [re.compile(form) for form in (
    r'',
    r'source_filename = "rattle"',
    r'declare void @llvm\.(?:memmove\.p0\.p0\.i64|memset\.p0\.i64|trap)\([\w ,()]*\) #[1-9]\d*',
    r'attributes #[1-9]\d* = { [\w:() ,]* }',
    r'!llvm\.ident = !{!0}',
    r'!0 = !{!"rattle logic=[0-9a-f]+"}',
    r'!\d+ = !{(?:i\d+ -?\d+, i\d+ -?\d+)?}',
)]
# Of the module's own functions. `noinline` keeps x86-64's stack small, and goes: on a controller a call that is one function takes less.
OWN_ATTRIBUTES = re.compile(r'attributes (#\d+) = { (?:noinline )?nounwind "probe-stack"="inline-asm" "stack-probe-size"="3072" "target-cpu"="x86-64-v2" }')
POINTER = 8  # bytes of a pointer in a place
BYTES = {'i1': 1, 'i8': 1, 'i16': 2, 'i32': 4, 'i64': 8}
C_TYPES = {'uint8_t': 'i8', 'uint16_t': 'i16', 'uint32_t': 'i32', 'size_t': 'i64', 'void': 'void'}

Function = namedtuple('Function', 'head exported result parameters body')  # head: the line's index; body: (index, kind, match) of each line


class Refused(Exception):
    """The module has something that is not known to be independent of a pointer's width."""


def read_lines(text):
    """The lines of a module without comments."""
    return [re.sub(r'\s*;.*$', '', line) for line in text.splitlines()]


def parsed(index, line):
    for kind, form in FORMS.items():
        match = form.fullmatch(line.strip())
        if match:
            return index, kind, match
    raise Refused(f'line {index + 1}: {line.strip()}')


def read_functions(lines):
    """The functions by name; a line of any other form is refused."""
    functions, groups, own, others, body = {}, set(), [], set(), None
    for index, line in enumerate(lines):
        if body is not None:
            if line == '}':
                body = None
            elif line:
                body.append(parsed(index, line))
            continue
        define = DEFINE.fullmatch(line)
        if define:
            parameters = [PARAMETER.fullmatch(each) for each in define[5].split(', ')] if define[5] else []
            if None in parameters or define[4] in functions:
                raise Refused(f'line {index + 1}: {line}')
            body = []
            groups.add(define[6])
            functions[define[4]] = Function(index, not define[1], (define[2] or '') + define[3], [each.groups() for each in parameters], body)
        elif OWN_ATTRIBUTES.fullmatch(line):
            own.append(OWN_ATTRIBUTES.fullmatch(line)[1])
        elif line in X86_64 or any(form.fullmatch(line) for form in OUTSIDE_LINES):
            others.update(re.findall(r'#\d+', line))
        else:
            raise Refused(f'line {index + 1}: {line}')
    if body is not None or not X86_64.issubset(lines) or not own or sorted(groups) != sorted(own) or groups & others:
        raise Refused('no whole module for x86-64')
    return functions


def parts_of(kind):
    """The numbers of a record with the offsets that they have on x86-64; a number is its own part."""
    parts, end = [], 0
    for part in kind.strip('{ }').split(', '):
        end += -end % BYTES[part]
        parts.append((part, end))
        end += BYTES[part]
    return parts


def bytes_of(kind):
    """The bytes of a number, or of a record up to the end of its last part."""
    last, offset = parts_of(kind)[-1]
    return offset + BYTES[last]


def read_by_parts(load):
    """The lines for the load of a record."""
    register, kind, pointer, alignment = load
    lines, whole = [], 'poison'
    for number, (part, offset) in enumerate(parts_of(kind)):
        own = alignment if offset == 0 else min(alignment, offset & -offset)
        lines.append(f'  {register}.at{number} = getelementptr i8, ptr {pointer}, i64 {offset}')
        lines.append(f'  {register}.part{number} = load {part}, ptr {register}.at{number}, align {own}')
        lines.append(f'  {register}.with{number} = insertvalue {kind} {whole}, {part} {register}.part{number}, {number}')
        whole = f'{register}.with{number}'
    # the last one is the record
    lines[-1] = lines[-1].replace(f'{whole} =', f'{register} =')
    return '\n'.join(lines)


class Places:
    """Which bytes of which places hold pointers, and that nothing takes these bytes for numbers.

    A place is an alloca, or the memory behind a parameter that is a pointer. Memory behind a pointer that was read from a place is one
    place, OUTSIDE: it may hold no pointer, and nor may a place whose own address is written anywhere."""

    OUTSIDE = 'memory behind a pointer that is read'

    def __init__(self, functions):
        self.functions = functions
        self.pointers = {self.OUTSIDE: set()}  # the offsets of pointers in each place
        self.shared = []                       # (place, offset, place, offset, length or None): the same bytes, or a copy of them
        self.numbers = []                      # (line, place, offset or None, length or None): bytes that are numbers
        self.zeros = []                        # (line, place, offset, length): bytes that are set to zero, of a pointer all or none
        self.plain = {self.OUTSIDE}            # places that may hold no pointer
        for name, function in functions.items():
            self.follow(name, function)
        self.spread()
        self.judge()

    def follow(self, name, function):
        """Takes down what a function does with its places; at has the place and the offset, or None, of each pointer."""
        at = {}
        for kind, register in function.parameters:
            if kind == 'ptr':
                self.begin(at, name, register)
        for index, kind, match in function.body:
            try:
                if kind == 'place':
                    self.begin(at, name, match[1])
                elif kind == 'step':
                    place, offset = at[match[2]]
                    at[match[1]] = place, offset + int(match[3]) if offset is not None and match[3].isdigit() else None
                elif kind == 'load':
                    self.touch(index, match[2], *at[match[3]])
                    if match[2] == 'ptr':
                        at[match[1]] = self.OUTSIDE, None
                elif kind == 'store':
                    self.touch(index, match[1], *at[match[3]])
                    if match[1] == 'ptr':
                        self.plain.add(at[match[2]][0])
                elif kind == 'move':
                    self.share(at[match[1]], at[match[2]], int(match[3]) if match[3].isdigit() else None)
                elif kind == 'fill':
                    self.fill(index, *at[match[1]], match[2], match[3])
                elif kind == 'null':
                    at[match[1]]
                elif kind == 'call':
                    self.call(index, match[1], match[2], at)
            except KeyError as register:
                raise Refused(f'line {index + 1}: {register} is no pointer that is known here') from None

    def begin(self, at, name, register):
        at[register] = (name, register), 0
        self.pointers[name, register] = set()

    def fill(self, index, place, offset, byte, length):
        if byte == '0' and offset is not None and length.isdigit():
            self.zeros.append((index, place, offset, int(length)))
        else:
            self.numbers.append((index, place, offset, int(length) if length.isdigit() else None))

    def touch(self, index, kind, place, offset):
        if kind != 'ptr':
            self.numbers.append((index, place, offset, bytes_of(kind)))
        elif offset is None:
            raise Refused(f'line {index + 1}: a pointer at an offset that is not known')
        else:
            self.pointers[place].add(offset)

    def share(self, one, other, length):
        if None in (one[1], other[1], length):
            self.plain |= {one[0], other[0]}
        else:
            self.shared.append((*one, *other, length))

    def call(self, index, callee, text, at):
        given = [ARGUMENT.fullmatch(each) for each in text.split(', ')] if text else []
        parameters = self.functions[callee].parameters if callee in self.functions else None
        if parameters is None or None in given or [each[1] for each in given] != [kind for kind, _ in parameters]:
            raise Refused(f'line {index + 1}: call of {callee}({text})')
        for argument, (kind, register) in zip(given, parameters):
            if kind == 'ptr':
                place, offset = at[argument[2]]
                if offset is None:
                    self.plain |= {place, (callee, register)}
                else:
                    self.shared.append((place, offset, (callee, register), 0, None))

    def spread(self):
        """A pointer in shared bytes is one in both places."""
        changed = True
        while changed:
            changed = False
            for one, at_one, other, at_other, length in self.shared:
                for source, begin, target, start in ((one, at_one, other, at_other), (other, at_other, one, at_one)):
                    for pointer in {each - begin for each in self.pointers[source]}:
                        if pointer <= -POINTER or (length is not None and pointer >= length):
                            continue
                        if pointer < 0 or (length is not None and pointer + POINTER > length):
                            raise Refused(f'a part of a pointer in {source} is copied or passed on')
                        if start + pointer not in self.pointers[target]:
                            self.pointers[target].add(start + pointer)
                            changed = True

    def judge(self):
        for place in self.plain:
            if self.pointers[place]:
                raise Refused(f'{place} holds a pointer, and is reached in ways that are not followed')
        for index, place, offset, length in self.numbers:
            for pointer in self.pointers[place]:
                if None in (offset, length) or (offset < pointer + POINTER and pointer < offset + length):
                    raise Refused(f'line {index + 1}: bytes of a pointer are taken for numbers')
        for index, place, offset, length in self.zeros:
            for pointer in self.pointers[place]:
                if offset < pointer + POINTER and pointer < offset + length and not (offset <= pointer and pointer + POINTER <= offset + length):
                    raise Refused(f'line {index + 1}: a part of a pointer is set to zero')


class Zeros:
    """The lines that set a place to zero for nothing: wherever the function goes from there, the first that it does with the place is to write it whole,
    by a copy or by a call of a function that does so and nothing else with its first parameter."""

    def __init__(self, functions):
        self.whole = {}  # functions that write so many bytes behind their first parameter
        for name, function in functions.items():
            self.writes_whole(name, function)
        self.needless = [index for function in functions.values() for index in self.of(function)]

    @staticmethod
    def named(registers):
        return re.compile('(?:' + '|'.join(map(re.escape, sorted(registers))) + r')(?![\w.])')

    @staticmethod
    def blocks(function):
        blocks, name = {}, None
        for line in function.body:
            name = line[2][0][:-1] if line[1] == 'label' else name
            blocks.setdefault(name, []).append(line)
        return blocks

    def writes_whole(self, name, function):
        if not function.parameters or function.parameters[0][0] != 'ptr':
            return
        own = function.parameters[0][1]
        lengths = set()
        for lines in self.blocks(function).values():
            written = False
            for _, kind, match in lines:
                if kind == 'move' and match[1] == own and match[2] != own:
                    lengths.add(match[3])
                    written = True
                elif self.named([own]).search(match.string) or (kind == 'return' and not written):
                    return
        if len(lengths) == 1 and next(iter(lengths)).isdigit():
            self.whole[name] = lengths.pop()

    def of(self, function):
        blocks = self.blocks(function)
        start = next(iter(blocks), None)
        lengths = {match[1]: match[2] for _, kind, match in blocks.get(start, []) if kind == 'place'}
        for index, kind, match in blocks.get(start, []):
            if kind == 'fill' and match[2] == '0' and match[3] == lengths.get(match[1]) and self.is_needless(function, blocks, start, index, match):
                yield index

    def is_needless(self, function, blocks, start, index, fill):
        place, length = fill[1], fill[3]
        registers = {place}
        for _, kind, match in function.body:
            if kind == 'step' and match[2] in registers:
                registers.add(match[1])
        own = self.named(registers)
        seen, ahead = set(), [start]
        while ahead:
            name = ahead.pop()
            if name in seen:
                continue
            seen.add(name)
            for at, kind, match in blocks[name]:
                if at == index or kind == 'step' or (kind == 'place' and match[1] == place) or not own.search(match.string):
                    if kind in ('go', 'switch'):
                        ahead += re.findall(r'label %([\w.]+)', match.string)
                    continue
                if at < index or not self.is_whole(kind, match, place, length, own):
                    return False
                break
        return True

    def is_whole(self, kind, match, place, length, own):
        if kind == 'move':
            return match[1] == place and match[3] == length and not own.search(match[2])
        if kind == 'call' and self.whole.get(match[1]) == length:
            first, *rest = match[2].split(', ')
            return first == f'ptr {place}' and not own.search(', '.join(rest))
        return False


def read_header(text):
    """The functions that a header declares and does not define: name -> (result, kinds of the parameters), as a module has them."""
    for left_out in (r'/\*.*?\*/', r'^\s*#(?:[^\n]*\\\n)*[^\n]*$', r'extern "C" {', r'"(?:[^"\\]|\\.)*"'):
        text = re.sub(left_out, ' ', text, flags=re.M | re.S)
    while re.search('{[^{}]*}', text):
        text = re.sub('{[^{}]*}', ' ', text)
    text = ' '.join(text.split())
    declared = {}
    for result, name, parameters in re.findall(r'([\w ]+?) (\w+)\(([^()]*)\);', text):
        kinds = []
        for parameter in parameters.split(', '):
            if '*' in parameter:
                kinds.append('ptr')
            elif parameter != 'void':
                kinds.append(C_TYPES.get(parameter.split()[0], parameter))
        kind = C_TYPES.get(result.split()[-1], result)
        declared[name] = ('zeroext ' if kind in ('i8', 'i16') else '') + kind, kinds
    return declared


def hold_to_header(functions, declared):
    """Each exported function has the result and the parameters that the header declares, so that each i64 is a length behind its pointer."""
    exported = {name.strip('@"'): function for name, function in functions.items() if function.exported}
    if not exported.keys() <= declared.keys():
        raise Refused(f'exported, but not declared: {" ".join(sorted(exported.keys() - declared.keys()))}')
    for name, function in exported.items():
        kinds = [kind for kind, _ in function.parameters]
        if (function.result, kinds) != declared[name]:
            raise Refused(f'{name} has {function.result} {kinds}, and the header declares {declared[name][0]} {declared[name][1]}')
        if any(kind == 'i64' and kinds[:place][-1:] != ['ptr'] for place, kind in enumerate(kinds)) or function.result == 'i64':
            raise Refused(f'{name}: a number of 64 bits that is no length')


def retargeted(lines, functions, target_lines, attributes):
    """The module for the new target."""
    lines = list(lines)
    for index in Zeros(functions).needless:
        lines[index] = None
    for function in functions.values():
        for index, kind, match in function.body:
            if kind == 'place':
                lines[index] = lines[index].replace(' alloca ptr,', f' alloca [{POINTER} x i8],')
            elif kind == 'load' and match[2].startswith('{'):
                lines[index] = read_by_parts((*match.groups()[:3], int(match[4])))
        if not function.exported:
            lines[function.head] = lines[function.head].replace(' zeroext ', ' ')
            continue
        if lines[function.head + 1] != 'start:':
            raise Refused(f'line {function.head + 2}: not the start of a function')
        for kind, register in function.parameters:
            if kind == 'i64':
                lines[function.head] = re.sub(rf'i64 noundef {register}\b', f'i32 noundef {register}.length', lines[function.head])
                lines[function.head + 1] += f'\n  {register} = zext i32 {register}.length to i64'
    kept = [line for line in lines if line is not None and line not in X86_64]
    own = ' '.join([*attributes, 'nounwind'])
    text = '\n'.join(target_lines + [OWN_ATTRIBUTES.sub(rf'attributes \1 = {{ {own} }}', line) for line in kept]) + '\n'
    # An assembler for RISC-V calls no name in quotes.
    return re.sub(r'@"([\w:]+)"', lambda name: '@' + name[1].replace('::', '.'), text)


def read_target(text):
    lines = [line for line in text.splitlines() if line.startswith('target ')]
    if len(lines) != 2 or not re.fullmatch(r'target datalayout = "e-(?:[^"]*-)?p:32:32-[^"]*"', lines[0]):
        raise Refused('the new target is not little-endian with 32-bit pointers')
    return lines


def main():
    if len(sys.argv) < 5:
        sys.exit(__doc__)
    module, header, target, out = sys.argv[1:5]
    text = {}
    for path in (module, header, target):
        with open(path, encoding='utf-8') as file:
            text[path] = file.read()
    try:
        lines = read_lines(text[module])
        functions = read_functions(lines)
        places = Places(functions)
        hold_to_header(functions, read_header(text[header]))
        result = retargeted(lines, functions, read_target(text[target]), sys.argv[5:])
    except Refused as refusal:
        sys.exit(f'{module}: refused: {refusal}')
    with open(out, 'w', encoding='utf-8') as file:
        file.write(result)
    holders = sum(1 for offsets in places.pointers.values() if offsets)
    print(f'{len(functions)} functions; {holders} of {len(places.pointers)} places hold a pointer, and no byte of these is taken for a number')


if __name__ == '__main__':
    main()
