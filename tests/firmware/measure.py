#!/usr/bin/env python3
"""Prints what measure.sh measured as tables, the exports beside C, and which bars are missed.

Usage: measure.py WORK TARGET..: WORK has for each target and variant a folder with what measure.c printed (measured), and with the level of
optimisation and the sizes of exports and C for each crate of calls (sizes)."""
import sys

VARIANTS = ('fast', 'small')
# The bars: a call's instructions to C's in the fast variant, the code and constants of a crate's calls to C's in the small one.
INSTRUCTIONS_BAR = 1.1
BATCH = '`cxpi_master_batch`'
BATCH_BAR = 1.0
SIZE_BAR = 1.8


def read(path):
    with open(path, encoding='utf-8') as file:
        return file.read()


def row(cells):
    print('| ' + ' | '.join(str(cell) for cell in cells) + ' |')


def head(title, columns):
    print()
    row([title, *columns])
    print('|' + '---|' * (len(columns) + 1))


def pairs(numbers):
    """Export, C and their ratio for each variant."""
    return [cell for export, c in numbers for cell in (export, c, f'{export / c:.2f}')]


def main():
    work, targets = sys.argv[1], sys.argv[2:]
    measured, sizes, levels, missed = {}, {}, {}, []
    for target in targets:
        for variant in VARIANTS:
            for line in read(f'{work}/{target}-{variant}/measured').splitlines():
                plan, call, *numbers = line.split('\t')
                measured.setdefault((target, plan), {}).setdefault(call, []).append([int(number) for number in numbers])
            levels[variant], *lines = read(f'{work}/{target}-{variant}/sizes').splitlines()
            for line in lines:
                crate, *numbers = line.split()
                sizes.setdefault(f'{target}, {crate}', []).append([int(number) for number in numbers])
    against = [cell for variant, level in levels.items() for cell in (variant, f'C {level}', 'ratio')]
    stacks = [cell for variant, level in levels.items() for cell in (f'stack, {variant}', f'C {level}')]
    for (target, plan), calls in measured.items():
        head(f'{target}, {plan}', against + stacks)
        for call, variants in calls.items():
            row([call, *pairs(numbers[:2] for numbers in variants), *[size for numbers in variants for size in numbers[2:]]])
            ratio = variants[0][0] / variants[0][1]
            bar = BATCH_BAR if call.startswith(BATCH) else INSTRUCTIONS_BAR
            if ratio > bar:
                missed.append(f'{target}, {plan}, {call}: {ratio:.2f} of C, the bar is {bar}')
    head('bytes of code and constants', against)
    for target, variants in sizes.items():
        row([target, *pairs(variants)])
        ratio = variants[1][0] / variants[1][1]
        if ratio > SIZE_BAR:
            missed.append(f'{target}, code and constants: {ratio:.2f} of C, the bar is {SIZE_BAR}')
    print()
    print('\n'.join(missed) if missed else 'every call within its bars')


if __name__ == '__main__':
    main()
