#!/bin/sh
# The gate's own test: with a failing layout, a failing or killed rt ci, a bad must-fail edit or a failing C test it must end with a status other than 0 and
# without the line of the verdict, and show whole what failed; where all pass, show a line for each, and that of the verdict as its last.
set -eu
here=$(cd "$(dirname "$0")" && pwd)
folder=$(mktemp -d)
trap 'rm -rf "$folder"' EXIT
cd "$folder"

# Stand-ins, by the environment. rt ci prints the file said, and ends with the status $CI or is killed. It may be called in no other way, and finds nothing
# missing in the folder. The second C test has the status $C in a command that is not its last, the one of the other list the status $OTHER.
cat > rt << 'END'
#!/bin/sh
[ "$*" = ci ] && [ -f kept ] || exit 9
cat said
[ "$CI" != killed ] || kill -9 $$
exit "$CI"
END
chmod +x rt
echo "stays where it is" > kept
cat > c_tests << END
set -eu
. "$here/try.sh"
exports() {
    echo "a group of checks"
    echo "3 checks, 0 wrong"
}
station() {
    sh -c 'echo "a call of the station" >&2; exit \$C'
    echo "station: as stored"
}
picture() {
    echo "as the picture stored"
    return \$OTHER
}
first_list() {
    try exports exports
    try station station
}
second_list() {
    try picture picture
}
both first_list second_list
END

cat > plan_proved << 'END'
== plan
fn plan::find: proved
logic=proved functions=1
rt: plan proved
rt: plan: trying its must-fail edits (2)
== plan: its tests
fn plan::tests::finds: proved, may abort
logic=proved tests=1 functions=2
rt: plan: its tests are proved
END
cat plan_proved - > all_pass << 'END'
rt: lists is kept: an earlier run on this machine proved the same files over the same libraries
rt: must-fail plan/lost.edit: refused, as it must be: note: src/lib.rt:3:5: it is not proved that ..
rt: must-fail plan/late.edit: refused, as it must be
tests: 1
test tests::finds ... ok
test result: ok. 1 passed; 0 failed; 0 ignored; 0 filtered out
rt: plan: its tests passed
rt: drill ran, and wrote what its file stdout has
rt: drill ran (built by Rattle's own compiler), and wrote what its file stdout has
rt: ok; handles allowed: none; must-fail edits: 2 refused; every proof and must-fail edit was done in this run
5 passed, 0 failed
END
# What is shown of this, up to the C tests.
cat > shown << 'END'
    . s  plan proved
    . s  plan: trying its must-fail edits (2)
    . s  plan: its tests are proved
    . s  lists is kept
    . s  plan/lost.edit: refused
    . s  plan/late.edit: refused
    . s  plan: its tests passed
    . s  drill ran
    . s  drill ran (built by Rattle's own compiler)
rt: ok; handles allowed: none; must-fail edits: 2 refused; every proof and must-fail edit was done in this run
END

# try NAME CI C OTHER SAID: the gate on these, SAID a file; leaves its status, what it printed in the file out, and the other list's
# lines, which may come anywhere among these, in the file others; without the seconds.
try() {
    name=$1 status=0
    cp "$5" said
    CI=$2 C=$3 OTHER=$4 sh "$here/run.sh" ./rt c_tests > printed 2> errors || status=$?
    sed -E 's/^ +[0-9]+ s  /    . s  /' printed > all
    sed -n '/picture/p' all > others
    sed '/picture/d' all > out
}

fails() {
    echo "gate: $name: $1" >&2
    exit 1
}

# What stands on standard input was printed, and nothing else.
prints() {
    diff - out >&2 || fails "prints something else"
}

keeps_log() {
    cmp said target/ci.log >&2 || fails "the log is not kept"
}

# The run failed, and nothing that it printed reads as a verdict.
refused() {
    [ "$status" -ne 0 ] || fails "ends with status 0"
    ! grep -q 'passed, 0 failed' out || fails "prints the verdict's line"
}

try "all passes" 0 0 0 all_pass
[ "$status" -eq 0 ] || fails "ends with status $status"
cat shown - > wanted << 'END'
    . s  exports: 3 checks, 0 wrong
    . s  station: as stored
5 passed, 0 failed
END
prints < wanted
echo "    . s  picture: as the picture stored" | diff - others >&2 || fails "does not run both lists"
keeps_log
printf 'a group of checks\n3 checks, 0 wrong\n' | cmp - target/tests/exports.log >&2 || fails "a test's log is not kept"
# Files that are written within a few milliseconds can have one time.
[ -f target/ci.began ] && ! [ target/ci.began -nt target/ci.log ] || fails "does not say when rt ci began"
[ -f kept ] || fails "removes a file"

cat > bus_fails << 'END'
== bus
crates/bus/src/lib.rt:3:5: error: not proved
    x ≡ y
fn bus::step: not proved
logic=not-proved functions=1
rt: bus NOT PROVED
rt: drill NOT PROVED: its library bus failed
rt: FAILED: bus drill
END
{ cat plan_proved bus_fails && echo "1 passed, 2 failed"; } > crate_fails
try "a crate is not proved" 1 0 0 crate_fails
refused
head -n 3 shown | cat - bus_fails > wanted
prints < wanted
keeps_log

cat > layout_fails << 'END'
== bus
crates/bus/src/lib.rt: it is not as rattle fmt lays it out
rt: run rt fmt in the crate's folder
rt: bus NOT PROVED
rt: FAILED: bus
END
{ cat plan_proved layout_fails && echo "1 passed, 1 failed"; } > crate_fails
try "layout fails" 1 0 0 crate_fails
refused
head -n 3 shown | cat - layout_fails > wanted
prints < wanted

# What rt says of a crate beside its proof is shown.
cat > noted << 'END'
== plan
rt: note: src/lib.rt has no line #![tactic(auto)], which each crate begins with: rt tidy writes it
fn plan::find: proved
logic=proved functions=1
rt: plan proved
END
{ cat noted && sed '1,/^rt: plan proved/d' all_pass; } > said_more
try "a note" 0 0 0 said_more
[ "$status" -eq 0 ] || fails "ends with status $status"
sed -n 2p noted | diff - - << END >&2 || fails "does not show the note"
$(head -n 1 out)
END

cat > edits_fail << 'END'
rt: must-fail plan/lost.edit: NOT REFUSED: the crate is still proved with this edit (one that means the same as before cannot be refused: remove it)
rt: must-fail plan/late.edit: BAD EDIT: it did not reach the prover; the first lines of what it said:
src/lib.rt:3:5: error[unknown-name]: cannot find type `booll` in this scope
rt: must-fail plan/last.edit: refused, as it must be
rt: must-fail plan/least.edit: refused, as it must be (only because a proof file names what the edit took away, so this says little of the contract: change a value and keep the names): ..
rt: must-fail plan/less.edit: NOT TRIED: its check was killed, most likely for memory, so nothing is known of it: run this again
fn plan::find: proved
tests: 1
test tests::finds ... FAILED
test result: FAILED. 0 passed; 1 failed; 0 ignored; 0 filtered out
rt: plan: its tests FAILED
rt: drill: what the program wrote, out/stdout, is not what its file stdout has: they differ first at byte 1, line 1
rt: note: bad must-fail edits, as told above: 1. They fail nothing here, and say nothing of a contract: mend or remove them
rt: FAILED: plan/lost.edit plan/less.edit plan (tests) drill (run)
END
{ cat plan_proved edits_fail && echo "3 passed, 4 failed"; } > more_fails
try "edits, tests and a program fail" 1 0 0 more_fails
refused
sed 's/^rt: must-fail \(plan\/last.edit: refused\), .*/    . s  \1/' edits_fail > rest
head -n 3 shown | cat - rest > wanted
prints < wanted
keeps_log

# The lines of a bad edit stay where tests that pass come behind them.
cat > bad_edit << 'END'
rt: must-fail plan/late.edit: BAD EDIT: it did not reach the prover; the first lines of what it said:
src/lib.rt:3:5: error[unknown-name]: cannot find type `booll` in this scope
tests: 1
test tests::finds ... ok
test result: ok. 1 passed; 0 failed; 0 ignored; 0 filtered out
rt: plan: its tests passed
rt: ok; handles allowed: none; must-fail edits: 2 refused, 1 bad; every proof and must-fail edit was done in this run
END
{ cat plan_proved bad_edit && echo "5 passed, 0 failed"; } > bad
try "an edit is bad" 0 0 0 bad
refused
{ head -n 3 shown && head -n 2 bad_edit && echo "    . s  plan: its tests passed" && tail -n 1 bad_edit; } > wanted
prints < wanted
grep -q "bad must-fail edits" errors || fails "does not say why"
sed 's/2 refused, 1 bad;/2 refused, 1 of them only by a limit, 12 bad;/' bad > more_bad
try "more edits are bad" 0 0 0 more_bad
refused
sed 's/2 refused, 1 bad;/2 refused;/' bad > none_bad
try "no edit is bad" 0 0 0 none_bad
[ "$status" -eq 0 ] || fails "ends with status $status"
sed '/^rt: ok;/d' all_pass > no_ok
try "rt ci does not say ok" 0 0 0 no_ok
refused

# In the midst of a crate, and of a character; the shell adds a word.
printf '== bus\nfn bus::step: proved\nfn bus::\342\211' > rest
cat plan_proved rest > half
try "rt ci is killed" killed 0 0 half
refused
head -n 3 shown | cat - rest > wanted
head -c "$(wc -c < wanted)" out | cmp - wanted >&2 || fails "prints something else"
head -c "$(wc -c < said)" target/ci.log | cmp - said >&2 || fails "the log is not kept"

try "rt ci fails with a line that says otherwise" 3 0 0 all_pass
refused
prints < shown

sed 's/^5 passed, 0 failed$/5 passed, 1 failed/' all_pass > one_failed
try "rt ci ends with status 0 and a line that says otherwise" 0 0 0 one_failed
refused

echo "nothing to prove" > no_verdict
try "rt ci ends without a verdict" 0 0 0 no_verdict
refused
prints < no_verdict

sed 's/^5 passed, 0 failed$/& (plan and the crates below alone: not the gate)/' all_pass > of_some
try "rt ci of some crates" 0 0 0 of_some
refused

try "a C test fails" 0 7 0 all_pass
refused
cat shown - > wanted << 'END'
    . s  exports: 3 checks, 0 wrong
    . s  station FAILED, status 7:
a call of the station
a test FAILED, see above
END
prints < wanted

try "a test of the other list fails" 0 0 7 all_pass
refused
cat shown - > wanted << 'END'
    . s  exports: 3 checks, 0 wrong
    . s  station: as stored
a test FAILED, see above
END
prints < wanted
printf '    . s  picture FAILED, status 7:\nas the picture stored\n' | diff - others >&2 || fails "does not show what failed"

echo "a line for each where all pass; with layout, rt ci, an edit or a C test that fails no verdict, and what failed whole"
