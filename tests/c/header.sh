#!/bin/sh
# Tests the headers: by the oldest and newest standards of C and C++ that they are for; their numbers against LAYOUTS.md, definitions and
# archive; the refusals' words. Takes the archive of firmware/module.sh and the program show.
set -eu
cd "$(dirname "$0")/../.."
out=target/c
archive=target/lib/libcxpi.a
strict="-Wall -Wextra -Werror -pedantic"

for header in cxpi.h cxpi_text.h; do
    for standard in c99 c17; do
        gcc -std=$standard $strict -fsyntax-only -x c include/$header
    done
done
for standard in c++98 c++20; do
    g++ -std=$standard $strict -Iinclude -c tests/c/header.cpp -o $out/header.o
done

python3 tests/c/check_header.py
gcc -std=c11 $strict -Iinclude tests/c/probes.c $archive -o $out/probes
$out/probes
python3 tests/c/check_header_test.py $archive

gcc -std=c11 $strict -Iinclude tests/c/texts.c -o $out/texts
python3 tests/c/check_texts.py $out/texts target/bin/show
