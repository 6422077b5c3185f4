#!/bin/sh
# Checks that the global symbols that an archive defines are exactly the functions that a header declares.
# Run: sh tests/c/symbols.sh libcxpi.a include/cxpi.h
set -eu
if [ $# -ne 2 ]; then
    echo "usage: $0 ARCHIVE HEADER" >&2
    exit 2
fi
work=$(mktemp -d)
trap 'rm -rf "$work"' EXIT

# Comments and preprocessor lines away, what stands before an opening bracket is a declared function's name.
awk '{ text = text $0 "\n" }
    END {
        while ((start = index(text, "/*")) > 0) {
            rest = substr(text, start + 2)
            text = substr(text, 1, start - 1) " " substr(rest, index(rest, "*/") + 2)
        }
        printf "%s", text
    }' "$2" | grep -v '^ *#' | grep -o '[A-Za-z_][A-Za-z0-9_]* *(' | tr -d ' (' | sort -u > "$work/declared"
nm -g --defined-only "$1" | awk 'NF == 3 { print $2, $3 }' | sort -u > "$work/symbols"
awk '{ print $2 }' "$work/symbols" | sort -u > "$work/defined"
awk '$1 == "T" { print $2 }' "$work/symbols" | sort -u > "$work/functions"

missing=$(comm -23 "$work/declared" "$work/functions")
extra=$(comm -13 "$work/declared" "$work/defined")
if [ ! -s "$work/declared" ]; then
    echo "no function is declared in $2"
    exit 1
fi
if [ -n "$missing" ]; then
    echo "declared, but not a defined function of the archive:"
    echo "$missing"
fi
if [ -n "$extra" ]; then
    echo "defined global, but not declared:"
    echo "$extra"
fi
[ -z "$missing$extra" ] || exit 1
echo "$(wc -l < "$work/declared") functions declared and defined, no other global symbol"
