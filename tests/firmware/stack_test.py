#!/usr/bin/env python3
"""Tests firmware/stack.py: the deepest chain of calls in code of Arm and of RISC-V, a bound that is passed, and code whose stack it cannot tell."""
import os
import subprocess
import sys
import tempfile

SCRIPT = os.path.join(os.path.dirname(__file__), '..', '..', 'firmware', 'stack.py')

FRAMES = 'cxpi.ll:cxpi_outer\t40\tstatic\ncxpi.ll:a::middle\t100\tstatic\ncxpi.ll:a::leaf\t8\tstatic\n'

# The outer function calls a leaf, and a middle that ends in a jump to it; bl and j within a function are no calls.
ARM = '''
\t.globl\tcxpi_outer                      @ -- Begin function cxpi_outer
cxpi_outer:
\tpush\t{r4, lr}
\tbl\t"a::leaf"
\tbl\t"a::middle"
\tbl\t__aeabi_memcpy4
\tbl\t.LBB0_2
\tbic\tr0, r1
\tbx\tlr
"a::middle":
\tbl\t__aeabi_uidivmod
\tb.w\t"a::leaf"
"a::leaf":
\tbne\t.LBB2_1
\tbxne\tlr
\tpop\t{r4, pc}
'''
RISC_V = '''
\t.globl\tcxpi_outer                      # -- Begin function cxpi_outer
cxpi_outer:
\tcall\t"a::leaf"
\tcall\t"a::middle"
\tcall\tmemcpy
\tbne\ta0, a1, .LBB0_2
\tj\t.LBB0_2
\tret
"a::middle":
\ttail\t"a::leaf"
"a::leaf":
\tret
'''
TOLD = 'cxpi_outer               148\n'

CASES = [  # what it is, the assembly, the frames, the bound, a part of the output, a part of the error or None
    ('Arm', ARM, FRAMES, '', TOLD + 'C library: __aeabi_memcpy4 __aeabi_uidivmod\n', None),
    ('RISC-V', RISC_V, FRAMES, '', TOLD + 'C library: memcpy\n', None),
    ('the bound itself', ARM, FRAMES, '148', TOLD, None),
    ('the bound passed', ARM, FRAMES, '147', TOLD, 'more than 147 bytes of stack: cxpi_outer'),
    ('a frame of variable size', ARM, FRAMES.replace('100\tstatic', '100\tdynamic'), '', '', 'a::middle has a frame of variable size'),
    ('a function that calls itself', ARM.replace('bl\t__aeabi_uidivmod', 'bl\tcxpi_outer'), FRAMES, '', '', 'cxpi_outer calls itself'),
    ('a call through a register', ARM.replace('bl\t__aeabi_uidivmod', 'blx\tr3'), FRAMES, '', '', 'blx\tr3'),
    ('a jump through a register', ARM.replace('bxne\tlr', 'bxne\tr3'), FRAMES, '', '', 'bxne\tr3'),
    ('a call through a register of RISC-V', RISC_V.replace('call\tmemcpy', 'jalr\ta5'), FRAMES, '', '', 'jalr\ta5'),
    ('another function of a library', ARM.replace('__aeabi_memcpy4', 'malloc'), FRAMES, '', '', 'cxpi_outer calls malloc'),
]


def main():
    wrong = []
    with tempfile.TemporaryDirectory() as folder:
        for name, assembly, frames, bound, output, error in CASES:
            for file_name, text in (('cxpi.s', assembly), ('cxpi.su', frames)):
                with open(os.path.join(folder, file_name), 'w', encoding='utf-8') as file:
                    file.write(text)
            run = subprocess.run([sys.executable, SCRIPT, os.path.join(folder, 'cxpi'), *bound.split()], capture_output=True, text=True, check=False)
            if output not in run.stdout or (run.returncode == 0) != (error is None) or (error or '') not in run.stderr:
                wrong.append(f'{name}: status {run.returncode}, {run.stdout!r}, {run.stderr!r}')
    if wrong:
        sys.exit('\n'.join(wrong))
    print(f'stack: {len(CASES)} cases as they must be')


if __name__ == '__main__':
    main()
