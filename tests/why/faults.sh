#!/bin/sh
# Checks the tests of the explanation: the independent program passes the cases of tests/why, and faults put into a copy are found, by the
# cases and by the comparison; what a drill cannot show, by the tests of the C calls.
# Run: sh tests/why/faults.sh (CC chooses the compiler)
set -eu
cd "$(dirname "$0")/../.."
independent=tests/independent
work=$(mktemp -d)
trap 'rm -rf "$work"' EXIT

# Builds the drill of a folder's reference: build FOLDER PROGRAM
build() {
    "${CC:-gcc}" -std=c11 -O1 -I$independent $independent/drill.c "$1/reference.c" -o "$2"
}

build $independent "$work/right"
python3 tests/why/check.py "$work/right" why

# Puts a fault into a copy of the reference, by sed.
spoil() {
    sed "$1" $independent/reference.c > "$work/reference.c"
    if cmp -s $independent/reference.c "$work/reference.c"; then
        echo "the edit changes nothing: $1"
        exit 1
    fi
}

# Runs a test that must fail by finding a difference: must_find EDIT TEXT COMMAND..
must_find() {
    edit=$1 text=$2
    shift 2
    if "$@" > "$work/log" 2>&1 || ! grep -q "$text" "$work/log"; then
        echo "not found: $edit"
        cat "$work/log"
        exit 1
    fi
}

found=0
fault() {
    spoil "$1"
    build "$work" "$work/faulty"
    must_find "$1" ' is printed$' python3 tests/why/check.py "$work/faulty" why
    must_find "$1" '^by the reference$' python3 tests/why/compare.py "$work/faulty why" "$work/right why" 2000
    found=$((found + 1))
}

reason='/^static reference_reason first_reason/,/^}/'
fault "$reason s/number = 0; number < plan->node_count; number++/number = plan->node_count; number-- > 0;/" # the highest
fault "$reason s/ || master->phase == REFERENCE_CLOSING//"
fault "$reason s/master->phase == REFERENCE_SENDING || //"
fault "$reason s/REFERENCE_REASON_OWED/REFERENCE_REASON_SLEEP/"
fault "$reason s/REFERENCE_WITHDRAWN)/REFERENCE_WITHDRAWN \&\& master->own_permission)/"          # own before owed
fault "$reason s/if (!master->own_permission)/if (!master->own_permission \&\& master->permissions[0].held)/" # a node before own
fault "$reason s/never_sleeps(plan)/false/"
fault "$reason s/never_sleeps(plan)/& \&\& master->own_permission/" # own before the profile
fault '/^uint32_t reference_master_why/,/^}/ s/!= REFERENCE_NORMAL/== REFERENCE_SLEEP/'
fault '/^static void wake_all/,/^}/ s/if (master->permissions\[number\].held)/if (number < 16)/'  # marks a node that was not held
fault 's/master->causes\[row->publisher\] = REFERENCE_CAUSE_WAKE;//'                                # the carrier not marked
fault 's/master->causes\[row->publisher\] = REFERENCE_CAUSE_NEW;//'                                 # kept while held
fault 's/REFERENCE_CAUSE_AGED : /REFERENCE_CAUSE_WAKE : /'
fault '/^static void wake_all/,/^}/ s/REFERENCE_CAUSE_WAKE/master->permissions[number].age == edge ? REFERENCE_CAUSE_AGED : &/
       s/^static void wake_all/static uint16_t edge;\n&/
       s/permission->age++;/& edge = plan->times.window;/' # dropped at age W is aged
answer='/^static uint32_t master_answer/,/^}/'
fault "$answer s/REFERENCE_CAUSE_DAMAGED/REFERENCE_CAUSE_REFUSED/"
fault "$answer s/REFERENCE_CAUSE_REFUSED/master->causes[row->publisher]/" # a refusal keeps the cause of before
fault '/^static uint32_t master_tick/,/^}/ s/forget_causes(master);//'
fault '/^static bool row_accepts/,/^}/ s/length <= row->length/length < row->length/'
fault 's/row->kind > REFERENCE_VARIABLE_COUNTED/row->kind > REFERENCE_VARIABLE/'
echo "$found faults, each found by the cases and by the comparison"

# A drill sends every answer in its row's length.
spoil 's/REFERENCE_CAUSE_DAMAGED);/event->result == 0 ? REFERENCE_CAUSE_REFUSED : &/' # a wrong length taken for refused
"${CC:-gcc}" -std=c11 -O1 -DCXPI_REFERENCE -Iinclude -I$independent tests/c/exports.c "$work/reference.c" $independent/reference_packed.c \
    $independent/configuration.c -o "$work/exports"
must_find 'a wrong length taken for refused' '^  wrong: wrong length$' "$work/exports"
echo 'a wrong length taken for refused: found by the tests of the C calls'
for length in 'length == row->length' 'length < row->length || length == 255'; do
    spoil "/^static bool row_accepts/,/^}/ s/? length <= row->length/? ($length)/" # a shorter one taken for damage, a longer one for whole
    "${CC:-gcc}" -std=c11 -O1 -DCXPI_REFERENCE -Iinclude -I$independent tests/c/exports.c "$work/reference.c" $independent/reference_packed.c \
        $independent/configuration.c -o "$work/exports"
    must_find "variable: $length" '^  wrong: \(shorter\|longer\), with count$' "$work/exports"
done
echo 'a shorter answer taken for damage, a longer one for whole: found by the tests of the C calls'
