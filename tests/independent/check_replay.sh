#!/bin/sh
# Checks the independent bus and its comparison: lists worked out by hand, the independent drill's lists, another compiler's programs, and
# faults put into a copy, each of which the comparison must find.
# Run: sh tests/independent/check_replay.sh (CC chooses the compiler, OTHER_CC the other)
set -eu
here=$(cd "$(dirname "$0")" && pwd)
work=$(mktemp -d)
trap 'rm -rf "$work"' EXIT
first=${CC:-gcc}
other=${OTHER_CC:-clang}
checked="-O1 -g -fsanitize=address,undefined -fno-sanitize-recover=all"
if ! command -v "$other" > /dev/null; then
    echo "no $other here: $first alone"
    other=$first
fi

# Builds the replaying programs of the sources in a folder as NAME_replay and NAME_states: build COMPILER "OPTIONS" FOLDER NAME
build() {
    for program in replay states; do
        case $program in
        replay) own="$3/replay.c" ;;
        states) own="$3/replay_states.c $3/reference_packed.c" ;;
        esac
        # shellcheck disable=SC2086
        "$1" -std=c11 -Wall -Wextra -Werror -pedantic $2 -I"$here/../../include" $own "$3/run.c" "$3/bus.c" "$3/reference.c" \
            -o "$work/$4_$program"
    done
}

build "$first" "$checked" "$here" checked
python3 "$here/check_replay.py" "$work/checked_replay" "$work/checked_states"

# What the independent drill, which has a bus of its own, prints of its moves.
for source in make_set big_plan drill; do
    "$first" -std=c11 -O2 -Wall -Wextra -Werror -pedantic -c "$here/$source.c" -o "$work/$source.o"
done
"$first" "$work/make_set.o" "$work/big_plan.o" "$here/reference.c" -o "$work/make_set"
"$first" "$work/drill.o" "$here/reference.c" -o "$work/drill"
for profile in "" profile; do
    for seed in 1 2; do
        (
            cd "$work"
            ./make_set $profile > plan.set
            python3 "$here/make_drill.py" plan.set 25000 $seed > lines
            python3 "$here/drill_records.py" < lines > moves
            ./drill < lines > wanted
            ./checked_replay < moves | cmp - wanted
        )
    done
done
echo '100000 moves of drills as the independent drill prints them'

CC=$first sh "$here/compare_moves.sh" "$work/checked_replay" "$work/checked_states" 16 2000
build "$other" -O2 "$here" other
CC=$first sh "$here/compare_moves.sh" "$work/other_replay" "$work/other_states" 40 5000

# Puts a fault into a copy, by sed: fault FILE EDIT. Only what a run from power-on can show is one.
mkdir "$work/copy"
found=0
fault() {
    cp "$here"/*.[ch] "$work/copy"
    sed "$2" "$here/$1" > "$work/copy/$1"
    if cmp -s "$here/$1" "$work/copy/$1"; then
        echo "the edit changes nothing: $1 $2"
        exit 1
    fi
    build "$first" '-O1 -w' "$work/copy" faulty
    if CC=$first sh "$here/compare_moves.sh" - "$work/faulty_states" 16 3000 > "$work/log"; then
        echo "not found: $1 $2"
        exit 1
    fi
    grep -q ' differences$' "$work/log" || { cat "$work/log"; exit 1; }
    found=$((found + 1))
}

fault bus.c 's/if (move->master_hears)/if (!move->master_hears)/'
fault bus.c 's/is_in(move->hearing, number)/is_in(move->reached, number)/'
fault bus.c 's/if (callers == 0)/if (callers == 0 || (callers \& (callers - 1)) != 0)/' # two pulses in a tick cancel each other
fault bus.c 's/uint16_t callers = 0;/uint16_t callers = 0; bool clock = reference_clock_is_on(world);/; s/\.clock = .*}/.clock = clock}/'
fault bus.c '/^static uint32_t act_request/,/^}/s/is_in(move->reached, number)/number < 16/'
fault bus.c '/^static uint32_t act_send_result/,/^}/s/if (refusal != 0)/if (refusal != 0 || !move->value)/'
fault bus.c 's/REFERENCE_REQIDS || /REFERENCE_REQIDS || reference_clock_is_on(world) \&\& /' # 16 before 15
fault bus.c 's/move->count <= 3/move->count < 3/'
fault bus.c 's/move->wake <= 1/true/'
fault bus.c 's/reference_row_is_variable(row) && //' # a fixed row in another length
fault bus.c 's/ && move->length < row->length//' # a variable row's above its own
fault reference.c 's/permission->age > plan->times.window/permission->age >= plan->times.window/'
fault reference.c '/^static void tick_with_clock/,/^}/s/node->quiet_count = 0;//'
fault reference.c '/^static void send_answer/,/^}/s/node->wake = 0;//'
fault reference.c '/^static uint32_t node_wake/,/^}/s/ && node->error//'
fault reference.c '/^static uint32_t node_wake/,/^}/s/node->quiet_count = 0;//'
fault reference.c '/^static uint32_t node_sleep_message/,/^}/s/node->delay = 0;//'
fault reference.c '/^static uint32_t master_tick/,/^}/s/memset(master->last_counts.*//'
fault reference.c '/^static uint32_t master_answer/,/^}/s/let_go(master, .*/wake_all(master);/'
fault reference.c '/^static void wake_all/,/^}/s/if (master->permissions\[number\].held)/if (number < 16)/' # marks a node that was not held
fault reference.c 's/master->causes\[row->publisher\] = REFERENCE_CAUSE_NEW;//' # kept while held
fault reference.c 's/REFERENCE_CAUSE_AGED : /REFERENCE_CAUSE_WAKE : /'
fault reference.c '/^static uint32_t master_tick/,/^}/s/forget_causes(master);//'
fault reference.c '/^void reference_master_power_on/,/^}/s/state_at_power_on(plan)/REFERENCE_SLEEP/'
fault reference.c '/^void reference_node_power_on/,/^}/s/state_at_power_on(plan)/REFERENCE_SLEEP/'
fault reference.c '/^static uint8_t state_at_power_on/,/^}/s/never_sleeps(plan)/false/'
fault reference.c '/^uint32_t reference_master_act/,/^}/s/never_sleeps(plan)/false/'
fault reference.c '/^uint32_t reference_master_act/,/^}/s/never_sleeps(plan)/& \&\& master->own_permission/' # 19 before 25
fault reference.c 's/row->kind > REFERENCE_VARIABLE_COUNTED/row->kind > REFERENCE_FIXED_COUNTED/' # no set with a variable row
row='/^static bool row_accepts/,/^}/'
fault reference.c "$row s/length <= row->length/length < row->length/"
fault reference.c "$row s/reference_row_is_variable(row)/false/"
fault reference.c "$row s/length <= row->length/length <= row->length \&\& length > 0/"
fault reference.c '/^bool reference_row_is_counted/,/^}/s/ || row->kind == REFERENCE_VARIABLE_COUNTED//'
fault reference.c '/^bool reference_row_is_counted/,/^}/s/REFERENCE_VARIABLE_COUNTED/REFERENCE_VARIABLE/'
echo "$found faults, each found by the comparison"
