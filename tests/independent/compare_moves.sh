#!/bin/sh
# Compares programs that replay recorded moves with the independent bus, over random plans and moves: what they print of each move, and
# after each move every field of the master and of all sixteen nodes.
# Run: sh tests/independent/compare_moves.sh REPLAY STATES [PLANS [MOVES]] (40 plans of 50000 moves; CC chooses the compiler)
# REPLAY prints lines as replay.c, STATES writes frames as replay_states.c; - leaves one out. Both run where plan.set is, with the moves on
# standard input.
set -eu
if [ $# -lt 2 ] || [ "$1 $2" = '- -' ] || [ "${3:-1}" -lt 1 ] || [ "${4:-1}" -lt 1 ]; then
    sed -n '/^# Run/,/^[^#]/s/^# //p' "$0"
    exit 2
fi

# The path of a program from anywhere.
path_of() {
    case $1 in
    - | /*) echo "$1" ;;
    *) echo "$PWD/$1" ;;
    esac
}

replay=$(path_of "$1")
states=$(path_of "$2")
plans=${3:-40}
moves=${4:-50000}
frame=2491 # bytes: kind, refusal, 201 of the master, 143 of each of sixteen nodes
here=$(cd "$(dirname "$0")" && pwd)
work=$(mktemp -d)
trap 'rm -rf "$work"' EXIT

# Builds an independent program: build NAME SOURCE...
build() {
    name=$1
    shift
    "${CC:-gcc}" -std=c11 -O2 -Wall -Wextra -Werror -pedantic -I"$here/../../include" "$@" "$here/bus.c" "$here/reference.c" \
        -o "$work/$name"
}
build make_moves "$here/make_moves.c"
build reference_replay "$here/replay.c" "$here/run.c"
build reference_states "$here/replay_states.c" "$here/run.c" "$here/reference_packed.c"
cd "$work"

# Names the field that byte $1 of the frames, from 1, belongs to.
field() {
    if [ -z "$1" ]; then
        cat log
        return
    fi
    at=$((($1 - 1) % frame))
    printf 'record %d, ' $((($1 - 1) / frame + 1))
    if [ $at -eq 0 ]; then
        echo 'move or not'
    elif [ $at -eq 1 ]; then
        echo 'refusal'
    elif [ $at -lt 203 ]; then
        echo "master, byte $((at - 2))"
    else
        echo "node $(((at - 203) / 143)), byte $(((at - 203) % 143))"
    fi
}

differences=0
differs() {
    echo "seed $seed: $1"
    differences=$((differences + 1))
}

# A set that both refuse would leave nothing to compare, so what is written is also counted.
compare_lines() {
    if ! "$replay" < moves > lines; then
        differs 'the program of lines failed'
    elif [ "$(wc -l < lines)" -ne "$moves" ]; then
        differs "$(wc -l < lines) lines of $moves"
    elif ! ./reference_replay < moves | cmp - lines > log 2>&1; then
        differs "$(sed 's/.*\(line [0-9]*\)$/\1/' log)"
    fi
}

compare_frames() {
    if ! "$states" < moves > frames; then
        differs 'the program of states failed'
    elif [ "$(wc -c < frames)" -ne $((moves * frame)) ]; then
        differs "$(wc -c < frames) bytes of $moves frames"
    elif ! ./reference_states < moves | cmp - frames > log 2>&1; then
        differs "$(field "$(sed -n 's/.*differ: [a-z]* \([0-9]*\),.*/\1/p' log)")"
    fi
}

seed=0
while [ $seed -lt "$plans" ]; do
    seed=$((seed + 1))
    ./make_moves $seed "$moves" .
    if [ "$replay" != - ]; then
        compare_lines
    fi
    if [ "$states" != - ]; then
        compare_frames
    fi
done

what='every line and every field of every machine'
if [ "$replay" = - ]; then
    what='every field of every machine'
elif [ "$states" = - ]; then
    what='every line'
fi
echo "replay: $((plans * moves)) moves over $plans plans, $what: $differences differences"
[ $differences -eq 0 ]
