#!/usr/bin/env bash
# Checks the built program from outside on the rows of examples/rows: each worked row gives what stands beside it, which is a run with its report; each workload of
# accepted.txt is accepted, or refused with the number in front of it; learns, turns and a full list go as is said here.
# The last line counts: 'N passed, M failed'.
set -u
cd "$(dirname "$0")/.."
binary=crates/pc_program/out/pc_program
rows=examples/rows
passed=0
failed=0

# same NAME WANTED GOT: counts whether the two texts are equal.
same() {
    if [ "$2" = "$3" ]; then
        passed=$((passed + 1))
    else
        failed=$((failed + 1))
        echo "rows: $1: '$3' in place of '$2'"
    fi
}

# number_of: with which number the workload on standard input is refused, or 0 where it is run to its end.
number_of() {
    local line
    line=$("$binary" run 2>&1 >"$output")
    case $? in
        0) echo 0 ;;
        5) echo "${line#pcommit: workload refused: W}" ;;
        *) echo "no end: $line" ;;
    esac
}

# made WORKLOAD: the journal and the report of the workload's run, in $output.
made() {
    "$binary" run <<<"$1" >"$output" 2>&1
}

# repeated PART COUNT: so many of the same part, with a comma between each and the next.
repeated() {
    local parts
    parts=$(yes "$1" | head -n "$2")
    echo "${parts//$'\n'/,}"
}

if [ ! -x "$binary" ]; then
    echo "rows: the program is not there: $binary"
    echo "0 passed, 1 failed"
    exit 1
fi
output=$(mktemp)
trap 'rm -f "$output"' EXIT

for expected in "$rows"/*.expected; do
    row=${expected%.expected}
    same "$row" "$(cat "$expected")" "$("$binary" run <"$row.json" 2>&1)"
    same "$row, checked" run "$("$binary" check <"$expected" 2>&1)"
done

# What is accepted, and with which number all else is refused.
while read -r number workload; do
    same "the workload $workload" "$number" "$(printf '%s' "$workload" | number_of)"
done <"$rows/accepted.txt"
same 'a text that is no UTF-8' 1 "$(printf '"\377"' | number_of)"
same '127 lists in one another' 2 "$({ printf '[%.0s' {1..127}; printf ']%.0s' {1..127}; } | number_of)"
same '128 lists in one another' 1 "$({ printf '[%.0s' {1..128}; printf ']%.0s' {1..128}; } | number_of)"
head='{"version":1,"pipelining":false,"turns":[],"sessions":'
clock='"clock":{"start":10,"step":1}'
session="{$clock,\"script\":[{\"do\":[]}]}"
letters=$(printf 'k%.0s' {1..64})
same 'a key of 64 letters' 0 "$(number_of <<<"$head[{$clock,\"script\":[{\"do\":[{\"put\":[\"$letters\",\"x\"]}]}]}]}")"
same 'a key of 65 letters' 6 "$(number_of <<<"$head[{$clock,\"script\":[{\"do\":[{\"put\":[\"k$letters\",\"x\"]}]}]}]}")"
same 'no session' 5 "$(number_of <<<"$head[]}")"
same '64 sessions' 0 "$(number_of <<<"$head[$(repeated "$session" 64)]}")"
same '65 sessions' 5 "$(number_of <<<"$head[$(repeated "$session" 65)]}")"
# (an empty transaction counts as two statements, its begin and its end)
same '100,000 statements' 0 "$(number_of <<<"$head[{$clock,\"script\":[$(repeated '{"do":[]}' 50000)]}]}")"
same '100,002 statements' 8 "$(number_of <<<"$head[{$clock,\"script\":[$(repeated '{"do":[]}' 50001)]}]}")"

same '100,000 statements, an add among them' 0 "$(number_of <<<"$head[{$clock,\"script\":[$(repeated '{"do":[]}' 49998),{\"do\":[{\"add\":[\"a\",1]}]}]}]}")"
same '100,001 statements, an add among them' 8 "$(number_of <<<"$head[{$clock,\"script\":[$(repeated '{"do":[]}' 49998),{\"do\":[{\"get\":\"a\"},{\"add\":[\"a\",1]}]}]}]}")"
same '1,000,001 turns' 7 "$(number_of <<<"{\"version\":1,\"sessions\":[$session],\"turns\":[$(yes '"s2"' | head -n 1000001 | paste -sd,)]}")"

# What a session is told of its learns, and where its transactions begin. The first session of `lagging` writes; the second one's clock lags, and it learns of that
# write's commit before it begins. The session of `own` learns of its own commit, once before it and once behind it.
told() {
    sed -n "s/^[0-9]* s$1 meet .*/meet/p; s/^[0-9]* s$1 tell \(learnt\|notyet\)$/\1/p; s/^[0-9]* s$1 tell begun [^ ]* //p" "$output" | paste -sd' '
}
lagging='{"version":1,"pipelining":false,"sessions":[{"clock":{"start":50,"step":0},"script":[{"do":[{"put":["a","x"]}]}]},{"clock":{"start":10,"step":0},"script":[{"learn":"1.1"},{"do":[]}]}],"turns":'
own='{"version":1,"pipelining":false,"sessions":[{"clock":{"start":50,"step":0},"script":[{"learn":"1.1"},{"do":[]},{"learn":"1.1"}]}],"turns":'
made "$lagging[\"s1\",\"s1\",\"s1\",\"s2\"]}"
same 'a learn behind its commit' 'meet learnt 50.1' "$(told 2)"
made "$lagging[\"s2\"]}"
same 'a learn before its commit' 'notyet 10.0' "$(told 2)"
made "$lagging[]}"
same 'a learn without turns before it' 'meet learnt 50.1' "$(told 2)"
made "$lagging[],\"opening\":1}"
same 'a learn behind the opening' 'meet learnt 50.1' "$(told 2)"
made "$own[]}"
same 'learns of an own commit' 'notyet 50.0 meet learnt' "$(told 1)"

# Two sessions, each of which puts a key of its own and commits, in turns that stop before their ends: the calls come in the turns and then session by session. In the
# turns each session begins and puts, and no job waits; then each commits, and does its job right behind that.
made '{"version":1,"pipelining":false,"sessions":[{"clock":{"start":10,"step":1},"script":[{"do":[{"put":["a","x"]}]}]},{"clock":{"start":20,"step":1},"script":[{"do":[{"put":["b","y"]}]}]}],"turns":["s1","s2","s2","b1","s1"]}'
same 'who calls in turns' '1 2 2 1 1 2' "$(sed -n 's/^[0-9]* s\([12]\) ask .*/\1/p' "$output" | paste -sd' ')"
same 'who sends in turns' '2 1 1 1 1 2 2 2' "$(sed -n 's/^[0-9]* s\([12]\) send .*/\1/p' "$output" | paste -sd' ')"

# Two recoverers that find nothing, in turns that stop before their ends, one turn more than the first has rounds; then the rounds that are left.
made '{"version":1,"pipelining":false,"sessions":[{"clock":{"start":10,"step":1},"script":[{"do":[]}]}],"recoverers":[{"rounds":2,"clock":{"start":10,"step":1}},{"rounds":3,"clock":{"start":10,"step":1}}],"turns":["v2","s1","v1","v1","v1","v2"]}'
same 'who asks, recoverers too' 'v2 s1 v1 v1 v2 s1 v2' "$(sed -n 's/^[0-9]* \([sv][12]\) ask .*/\1/p' "$output" | paste -sd' ')"

# A recoverer that stops just where its first round is over, and one that stops where it has sent for the records: that message is evaluated at the end.
made '{"version":1,"pipelining":false,"sessions":[{"clock":{"start":10,"step":1},"script":[{"do":[]}]}],"recoverers":[{"rounds":3,"stop":4,"clock":{"start":10,"step":1}},{"stop":2,"clock":{"start":10,"step":1}}],"turns":["v1","v1","v2","v2"]}'
same 'a recoverer that stops' '0 v1 ask round @10|1 v1 send 1 r0 records|2 r0 eval v1 1 listed -|3 v1 hear 1 2|4 v1 tell done|5 v2 ask round @10|6 v2 send 1 r0 records|11 r0 eval v2 1 listed -' "$(sed -n '/ \(v[12]\|r0\) /p' "$output" | paste -sd'|')"

# Twenty puts in one transaction, where each actor may have 64 entries. The sixteenth is the last that is sent: with it the session has 64 entries. Its message is evaluated
# at the end, as entry 79.
puts=
for key in a b c d e f g h i j k l m n o p q r s t; do
    puts="$puts,{\"put\":[\"$key\",\"x\"]}"
done
for turns in '"turns":[],' ''; do
    made "{\"version\":1,\"pipelining\":false,$turns\"limit\":64,\"sessions\":[{$clock,\"script\":[{\"do\":[${puts#,}]}]}]}"
    same "twenty puts with $turns a limit of 64" '79 r0 eval s1 16 written 10.0
report
open 1.1 none
end' "$(tail -n 4 "$output")"
done

echo "$passed passed, $failed failed"
[ "$failed" -eq 0 ]
