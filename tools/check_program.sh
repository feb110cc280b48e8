#!/usr/bin/env bash
# Checks the built program from outside: each example gives what stands beside it, which is a run with its report, and so is what one on threads gives; each way
# to fail ends with its status and its line.
# The last line counts: 'N passed, M failed'.
set -u
cd "$(dirname "$0")/.."
binary=crates/pc_program/out/pc_program
passed=0
failed=0

pass() { passed=$((passed + 1)); }
fail() {
    failed=$((failed + 1))
    echo "program: $1"
}

# call WORD..: runs the program with these words on standard input.
call() {
    "$binary" "$@" >"$output" 2>"$errors"
    status=$?
}

# ends NAME STATUS LINE: what ran last ended with this status and wrote this line, or none, to standard error.
ends() {
    if [ "$status" -eq "$2" ] && [ "$(cat "$errors")" = "$3" ]; then
        pass
    else
        fail "$1: status $status and line '$(cat "$errors")' in place of $2 and '$3'"
    fi
}

# judged NAME STATUS LINE: what was checked last ended so, and `run` was written exactly where it is a run.
judged() {
    ends "$1" "$2" "$3"
    local wanted=
    [ "$2" -eq 0 ] && wanted=run
    [ "$(cat "$output")" = "$wanted" ] || fail "$1: '$(cat "$output")' in place of '$wanted'"
}

# same NAME WANTED GOT: the two texts are equal.
same() {
    if [ "$2" = "$3" ]; then
        pass
    else
        fail "$1: '$3' in place of '$2'"
    fi
}

if [ ! -x "$binary" ]; then
    fail "it is not there: $binary"
    echo "$passed passed, $failed failed"
    exit 1
fi
errors=$(mktemp)
output=$(mktemp)
journal=$(mktemp)
trap 'rm -f "$errors" "$output" "$journal"' EXIT

if command -v cmp >/dev/null; then
    for expected in examples/*.expected; do
        workload=${expected%.expected}.json
        if "$binary" run <"$workload" 2>/dev/null | cmp -s - "$expected"; then
            pass
        else
            fail "$workload gives another output than $expected"
        fi
    done
fi

usage='pcommit: usage: pcommit run|check|make --number N'
first=examples/first-commit
call run <"$first.json"
ends 'a whole run' 0 ''
call </dev/null
ends 'no word' 2 "$usage"
call walk <"$first.json"
ends 'another word' 2 "$usage"
call run check <"$first.json"
ends 'two words' 2 "$usage"
call check --number 1 <"$first.expected"
ends 'a number with check' 2 "$usage"
call make </dev/null
ends 'make without a number' 2 "$usage"
call --help </dev/null
ends 'a call for help' 2 "$usage"
call run </
ends 'an input that cannot be read' 3 'pcommit: read failed'
call check </
ends 'a journal that cannot be read' 3 'pcommit: read failed'
if [ -c /dev/full ]; then
    "$binary" run <"$first.json" >/dev/full 2>"$errors"
    status=$?
    ends 'a full output' 4 'pcommit: write failed after 0 bytes'
    "$binary" check <"$first.expected" >/dev/full 2>"$errors"
    status=$?
    ends 'a full output of a check' 4 'pcommit: write failed after 0 bytes'
fi
# (a file of at most 1,024 bytes, first empty and then all but full: the write that passes that takes what fits, and the next one fails)
several=examples/several-puts
(
    trap '' XFSZ
    ulimit -f 1
    exec "$binary" run <"$several.json" >"$output" 2>"$errors"
)
status=$?
ends 'an output that is cut' 4 'pcommit: write failed after 1024 bytes'
same 'an output that is cut' "$(head -c 1024 "$several.expected")" "$(cat "$output")"
head -c 1022 /dev/zero | tr '\0' x >"$output"
(
    trap '' XFSZ
    ulimit -f 1
    exec "$binary" check <"$first.expected" >>"$output" 2>"$errors"
)
status=$?
ends 'a line that is cut' 4 'pcommit: write failed after 2 bytes'
same 'a line that is cut' ru "$(tail -c 2 "$output")"
call run </dev/null
ends 'no input' 5 'pcommit: workload refused: W1'
call run < <(printf x)
ends 'no JSON' 5 'pcommit: workload refused: W1'
call run < <(printf '{}')
ends 'no workload' 5 'pcommit: workload refused: W2'
call run < <(head -c 16777217 /dev/zero)
ends 'an input that is too long' 7 'pcommit: more than 16777216 bytes'
call check < <(head -c 268435457 /dev/zero)
ends 'a journal that is too long' 7 'pcommit: more than 268435456 bytes'

for expected in examples/*.expected; do
    call check <"$expected"
    judged "$expected" 0 ''
done
for run in 1 2 3 4 5; do
    call run <examples/four-sessions-on-threads.json
    ends "run $run on threads" 0 ''
    cp "$output" "$journal"
    call check <"$journal"
    judged "run $run on threads, checked" 0 ''
    sum=$(sed -n 's/^map .=//p' "$journal" | paste -sd+ | sed 's/+-/-/g')
    if [ "$((sum))" -eq 40 ]; then
        pass
    else
        fail "run $run on threads: the accounts hold $sum"
    fi
done
call check < <(sed 's/^4 r0 eval s1 1 written 10.0$/4 r0 eval s1 1 written 10.1/' "$first.expected")
judged 'a changed reply' 1 'pcommit: not a run: line 8, rule eval'
call check < <(sed 's/^2 s1 ask/3 s1 ask/' "$first.expected")
judged 'a changed step' 1 'pcommit: not a run: line 6, rule step'
call check < <(sed 's/^actors 1 0$/actors 0 0/' "$first.expected")
judged 'a missing actor' 1 'pcommit: not a run: line 4, rule actor'
call check < <(sed 's/^2 s1 ask/2 s2 ask/' "$first.expected")
judged 'an actor that is not there' 1 'pcommit: not a run: line 6, rule actor'
call check < <(sed 's/^1 s1 tell begun 1.1 10.0$/1 s1 tell begun 1.1 11.0/' "$first.expected")
judged 'a changed answer' 1 'pcommit: not a run: line 5, rule tell'
call check < <(sed 's/^3 s1 send 1 r0/3 s1 send 2 r0/' "$first.expected")
judged 'a number that is not the next' 1 'pcommit: not a run: line 7, rule send'
call check < <(sed 's/ tell notyet$/ tell learnt/' examples/a-reader-that-learns.expected)
judged 'a learn that met nothing' 1 'pcommit: not a run: line 5, rule tell'
call check < <(sed 's/^map a=x$/map a=y/' "$first.expected")
judged 'a changed report' 1 'pcommit: not a run: line 24, rule report'
call check < <(sed 's/^map a=x$/&\nmap b=x/' "$first.expected")
judged 'a report with a line too many' 1 'pcommit: not a run: line 25, rule report'
call check < <(sed '$d' "$first.expected")
judged 'a report without its end' 6 'pcommit: journal malformed: line 25'
call check < <(sed 's/^end$/ends/' "$first.expected")
judged 'another last line' 6 'pcommit: journal malformed: line 25'
call check < <(sed '8,$d' "$first.expected"; printf '4 r0 eva')
judged 'a journal that is cut' 6 'pcommit: journal malformed: line 8'
call check < <(printf '%s\n' 'journal 1' 'ranges 3 g m' 'actors 1 1' '0 s1 ask scan g,- @7' \
    '1 s1 send 1 r0 stage 1.1:0:normal:10:a 10.0 12 a:1,b:2 a,b' '2 r0 eval s1 1 rows a@10.0=x,b@own=' \
    '3 v1 eval s1 1 listed 1.1:0:low:10:a' '4 s1 tell rows a=x,b=' report 'map a=x' end)
judged 'a stage with no transaction, and lines of other kinds below it' 1 'pcommit: not a run: line 5, rule send'
call check </dev/null
judged 'no journal' 6 'pcommit: journal malformed: line 1'

echo "$passed passed, $failed failed"
[ "$failed" -eq 0 ]
