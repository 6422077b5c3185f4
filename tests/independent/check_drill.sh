#!/bin/sh
# Builds the independent drill and checks the twelve moves on set T (R6.7), odd lines and refused sets.
# Run: sh tests/independent/check_drill.sh (CC chooses the compiler)
set -eu
here=$(cd "$(dirname "$0")" && pwd)
work=$(mktemp -d)
trap 'rm -rf "$work"' EXIT
"${CC:-gcc}" -std=c11 -O2 -Wall -Wextra -Werror -pedantic "$here/drill.c" "$here/reference.c" -o "$work/drill"
cd "$work"

# Runs the drill on the moves in $2 (printf form) and compares with $3.
expect() {
    # shellcheck disable=SC2059
    printf "$2" | ./drill > got
    # shellcheck disable=SC2059
    printf "$3" > wanted
    if ! cmp -s got wanted; then
        echo "$1: differs"
        diff wanted got || true
        exit 1
    fi
    echo "$1: as wanted"
}

expect 'missing set' 'tick\n' 'set 1\n'
mkdir plan.set
expect 'set that cannot be read' 'tick\n' 'set 1\n'
rmdir plan.set
head -c 512 "$here/../../examples/set-t/plan.set" > plan.set
expect 'short set' 'tick\n' 'set 1\n'
{ cat "$here/../../examples/set-t/plan.set"; head -c 512 /dev/zero; } > plan.set
expect 'third block of zeros' '' 'set 3\n'
cp "$here/../../examples/set-t/plan.set" plan.set
expect 'twelve moves' \
    'wake 0\ntick\npermit 0 1\npermit m 1\nreq 16 ok\nsleep\nreq 16 ok\nsleep\nsent ok\ntick\ntick\ntick\n' \
    '1 S0 0 S 0\n2 N0 1 N 0\n3 N0 1 N 0\n4 N0 1 N 0\n5 N0 1 N 0\n6 N0 1 N 20\n7 N0 1 N 0\n8 N1 1 N 0\n9 N3 1 N 0\n10 N3 1 N 0\n11 Z0 0 N 0\n12 Z0 0 Z 0\n'
expect 'no moves' '' ''
expect 'empty line' '\n' '1 ?\n'
expect 'last line without LF' 'wake m' '1 S0 0 Z 0\n'
expect 'odd lines' \
    'tick\r\n tick\ntick \nTick\nwake 1\nwake 00\nwake m0\npermit 0 2\npermit  0 1\nreq 016 ok\nreq 128 ok\nreq 4294967312 ok\nsend m 16 ok\nsent\nsleep now\ntick\0\n\nticktick\n' \
    '1 ?\n2 ?\n3 ?\n4 ?\n5 ?\n6 ?\n7 ?\n8 ?\n9 ?\n10 ?\n11 ?\n12 ?\n13 ?\n14 ?\n15 ?\n16 ?\n17 ?\n18 ?\n'
expect 'without clock' 'req 0 ok\nsend 0 17 lost\nsleep\nsent fail\n' '1 Z0 0 Z 16\n2 Z0 0 Z 16\n3 Z0 0 Z 16\n4 Z0 0 Z 16\n'
expect 'refusals with clock' \
    'wake m\ntick\ntick\nreq 0 ok\nsend 0 17 ok\nsend 0 16 ok\nsent ok\nsleep\npermit m 1\nsleep\nreq 16 bad\nreq 16 lost\n' \
    '1 S0 0 Z 0\n2 N0 1 S 0\n3 N0 1 N 0\n4 N0 1 N 12\n5 N0 1 N 12\n6 N0 1 N 21\n7 N0 1 N 17\n8 N0 1 N 19\n9 N0 1 N 0\n10 N0 1 N 20\n11 N0 1 N 13\n12 N0 1 N 0\n'
{ head -c 100000 /dev/zero | tr '\0' 't'; printf '\nwake m'; } | ./drill > got
printf '1 ?\n2 S0 0 Z 0\n' | cmp - got
echo 'long line: as wanted'
