# shellcheck shell=bash
# What the tests of the examples share: processes that are killed by tests/kill.c, and what must hold after each kill. A script that has sourced
# tools/arguments.sh sets
#   example=FOLDER           the example's sources
#   program=PATH             the example
#   ends=(left right)        its two ends; DIR/END/tapes are their pools
#   slot_words=38            of these
#   inputs=(FILE FILE)       what `PROGRAM run DIR` is handed for them
#   answer=SENTENCE          what it then says
#   kinds=("2 share" ..)     how the lines begin that each end sends in a whole session, in order
# and sources this. A kill that does harm leaves a sentence in `fault`.

script=${script:?} program=${program:?} slot_words=${slot_words:?} answer=${answer:?} example=${example:?}
ends=("${ends[@]:?}") inputs=("${inputs[@]:?}") kinds=("${kinds[@]:?}")
library=$PWD/target/tests/kill.so
if [ -d /dev/shm ] && [ -w /dev/shm ]; then
    work=$(TMPDIR=/dev/shm mktemp -d)
else
    work=$(mktemp -d)
fi
trap 'rm -rf "$work"' EXIT
mkdir -p target/tests "$work/nothing"
# another test may be using the library that is there: it is replaced in one go
cc -std=c11 -Wall -Wextra -Wpedantic -Werror -O2 -shared -fPIC tests/kill.c -o "$library.$$"
mv "$library.$$" "$library"
kills=0
fault=

fail() {
    echo "$script: $*"
    exit 1
}

# Looks at two pools, beside what they were before: columns 1 and 2 are the words of both now, 3 and 4 those before. Says what is wrong, if anything
# is.
# shellcheck disable=SC2016
pools_rule='
function bad(why) { if (!said) print "slot " slot ": " why; said = 1 }
function look(    w) {
    if (a[0] == 2 || b[0] == 2) bad("a tape is in use")
    for (w = 0; w < 7; w++) if (a[w] != b[w]) bad("the heads of the halves differ")
    for (w = 7; w < size; w++) if (a[0] == 3 && (a[w] != 0 || b[w] != 0)) bad("a spent tape is not zeros")
    for (w = 0; w < size; w++)
        if (c[0] == 1 && (a[0] != 3 || (w > 0 && w < 7)) && (a[w] != c[w] || b[w] != d[w])) bad("a tape has changed")
    if (a[0] != 0 && seen[a[1]]++) bad("a tape number was dealt twice")
    count[a[0]]++
}
{ w = (NR - 1) % size; slot = int((NR - 1) / size); a[w] = $1; b[w] = $2; c[w] = $3; d[w] = $4; if (w == size - 1) look() }
END {
    if (!said && (NR == 0 || NR % size != 0)) print "a pool is no whole number of slots"
    else if (!said && count[3] != spent) print count[3] + 0 " tapes are spent in place of " spent
    else if (!said && count[1] < ready) print count[1] + 0 " tapes are ready in place of " ready
}'

# pools_fault FOLDER BEFORE SPENT READY: what is wrong with the pools in FOLDER, where BEFORE has the earlier ones.
pools_fault() {
    local words=(od -An -v -t u4 -w4) one=${ends[0]} other=${ends[1]}
    paste <("${words[@]}" "$1/$one/tapes") <("${words[@]}" "$1/$other/tapes") <("${words[@]}" "$2/$one/tapes") <("${words[@]}" "$2/$other/tapes") |
        awk -v size="$slot_words" -v spent="$3" -v ready="$4" "$pools_rule"
}

# twice_fault LOG: whether an end sent two different lines of one kind.
twice_fault() {
    local end twice
    for end in "${ends[@]}"; do
        twice=$(sort -u "$1.$end" 2>/dev/null | cut -d, -f1 | uniq -d | head -n 1)
        [ -z "$twice" ] || { echo "$end sent two different lines that begin with $twice"; return; }
    done
}

# kinds_fault LOG: what is wrong with what was sent in a whole session.
kinds_fault() {
    local i begun
    for i in 0 1; do
        begun=$(sort -u "$1.${ends[i]}" | cut -d, -f1 | xargs)
        [ "$begun" = "${kinds[i]}" ] || { echo "${ends[i]} sent lines that begin with $begun"; return; }
    done
}

# other_tapes_fault PROGRAM FOLDER LAST: whether the halves that a dealing left match, since sessions 2 to LAST must give the answer, too.
other_tapes_fault() {
    local session got
    for ((session = 2; session <= $3; session++)); do
        got=$("$1" run "$2" "${inputs[@]}" "$session" 2>&1) || true
        [ "$got" = "$answer" ] || { echo "in session $session it says: $got"; return; }
    done
}

# run_killed PROGRAM FOLDER VARIABLE=VALUE..: a whole run, with kills; sets `status` and `said`. A supervisor that is killed itself is started again.
# `second_now` stands for the second input and `session_now` for the session, where they are set.
run_killed() {
    local program=$1 folder=$2
    shift 2
    local run=(timeout 20 env LD_PRELOAD="$library" KILL_MARK="$folder.mark" KILL_LOG="$folder.log" "$@" "$program" run "$folder")
    run+=("${inputs[0]}" "${second_now-${inputs[1]}}" "${session_now-1}")
    status=137
    while [ "$status" = 137 ]; do
        status=0
        said=$("${run[@]}" 2>"$folder.errors") || status=$?
    done
}

# run_fault FOLDER BEFORE: what is wrong after a run, if anything is.
run_fault() {
    local folder=$1 before=$2 fault
    fault=$(twice_fault "$folder.log")
    [ -z "$fault" ] || { echo "$fault"; return; }
    [ "$status" = 0 ] || { echo "the status is $status: $(tail -n 1 "$folder.errors")"; return; }
    [ "$said" = "$answer" ] || { echo "it says: $said"; return; }
    [ -e "$before/${ends[0]}/tapes" ] || before=$folder
    fault=$(pools_fault "$folder" "$before" 1 3)
    [ -n "$fault" ] || fault=$(kinds_fault "$folder.log")
    echo "$fault"
}

# at_every_call PROGRAM ROLE TIMES BEFORE [LOOK]: kills a role before its call 1, 2, .. until there is no such call. BEFORE is a folder to begin with,
# and LOOK what says what is wrong. Stops at the first fault.
at_every_call() {
    local program=$1 role=$2 times=$3 before=$4 look=${5-run_fault} n folder=$work/run
    for ((n = 1; ; n++)); do
        rm -rf "$folder" "$folder".*
        cp -r "$before" "$folder"
        run_killed "$program" "$folder" KILL_ROLE="$role" KILL_AT="$n" KILL_TIMES="$times"
        fault=$("$look" "$folder" "$before")
        [ "$role" != deal ] || [ -n "$fault" ] || fault=$(other_tapes_fault "$program" "$folder" 4)
        [ -z "$fault" ] || { fault="$role killed before call $n: $fault"; return; }
        [ -e "$folder.mark" ] || break
        kills=$((kills + 1))
    done
    [ "$n" -gt 8 ] || fail "$role has only $((n - 1)) calls to be killed at"
}

# survives ARGUMENT..: the same, where there must be no fault.
survives() {
    at_every_call "$@"
    [ -z "$fault" ] || fail "$fault"
}

# A dealing over a spent slot and beside a ready tape, killed before every call and made again. The folder of the last one stays in `$work/dealt-over`.
dealings() {
    local n folder=$work/deal-again before=$work/before
    "$program" deal "$before" 2
    "$program" run "$before" "${inputs[@]}" >"$work/said"
    for ((n = 1; ; n++)); do
        rm -rf "$folder" "$folder".*
        cp -r "$before" "$folder"
        # in a substitution, where the shell does not report the kill
        : "$(env LD_PRELOAD="$library" KILL_ROLE=deal KILL_AT="$n" KILL_MARK="$folder.mark" "$program" deal "$folder" 3)"
        [ -e "$folder.mark" ] || break
        kills=$((kills + 1))
        "$program" deal "$folder" 3
        fault=$(pools_fault "$folder" "$before" 0 4)
        [ -n "$fault" ] || fault=$(other_tapes_fault "$program" "$folder" 5)
        [ -z "$fault" ] || fail "a dealing killed before call $n and made again: $fault"
    done
    mv "$folder" "$work/dealt-over"
}

# Kills by a clock in the process, at random moments, of all roles. $work/dealt has four tapes.
by_clock() {
    local i folder role roles=("${ends[@]}" run deal) before
    for ((i = 0; i < 40; i++)); do
        folder=$work/clock-$i
        role=${roles[i % 4]}
        if [ "$role" = deal ]; then before=$work/nothing; else before=$work/dealt; fi
        cp -r "$before" "$folder"
        run_killed "$program" "$folder" KILL_ROLE="$role" KILL_AFTER=$((RANDOM % 2000 + 50)) KILL_TIMES=2
        fault=$(run_fault "$folder" "$before")
        [ -z "$fault" ] || fail "$role killed at a random moment: $fault"
        kills=$((kills + $(grep -c killed "$folder.errors" || true)))
    done
}

# says SENTENCE ARGUMENT..: a run must say this and nothing else.
says() {
    local sentence=$1 got
    shift
    got=$("$program" run "$@" 2>&1) || fail "run ${*:2} fails and says: $got"
    [ "$got" = "$sentence" ] || fail "run ${*:2} says: $got"
}

# fails_with SENTENCE ARGUMENT..: a run must fail with status 1 and no answer, and say this sentence among its errors.
fails_with() {
    local sentence=$1 got status=0
    shift
    got=$("$program" run "$@" 2>"$work/errors") || status=$?
    [ "$status" = 1 ] || fail "run ${*:2} ends with status $status"
    [ -z "$got" ] || fail "run ${*:2} fails and answers: $got"
    grep -qxF "$sentence" "$work/errors" || fail "run ${*:2} says: $(cat "$work/errors")"
}

# Two supervisors at once in one folder, and so four ends: all must come to the answer, and none wait in a ring.
at_once() {
    local i one other folder=$work/at-once
    for ((i = 0; i < 12; i++)); do
        rm -rf "$folder" "$folder".*
        cp -r "$work/dealt" "$folder"
        timeout 30 "$program" run "$folder" "${inputs[@]}" >"$folder.one" 2>"$folder.errors" &
        other=$(timeout 30 "$program" run "$folder" "${inputs[@]}" 2>"$folder.errors.other") || fail "of two runs at once one ends with status $?"
        wait $! || fail "of two runs at once one ends with status $?"
        one=$(cat "$folder.one")
        [ "$one$other" = "$answer$answer" ] || fail "two runs at once say: $one, and $other"
        fault=$(pools_fault "$folder" "$work/dealt" 1 3)
        [ -z "$fault" ] || fail "after two runs at once: $fault"
    done
}

# must_find_out NAME FILE AWK ROLE FAULT: the kills must find this fault in the example with FILE edited, which without a kill gives the answer.
# The script's `build_faulty SOURCE PROGRAM` builds it.
must_find_out() {
    local name=$1 file=$2 source=$work/$1 faulty=$PWD/target/tests/${example##*/}-$1 before=$kills
    cp -r "$example" "$source"
    awk "$3" "$example/$file" >"$source/$file"
    ! cmp -s "$example/$file" "$source/$file" || fail "the edit $name changes nothing"
    rm -rf "$faulty"
    build_faulty "$source" "$faulty"
    [ "$("$faulty" run "$work/unkilled-$name" "${inputs[@]}")" = "$answer" ] || fail "the program with the fault $name does not work without a kill"
    at_every_call "$faulty" "$4" 1 "$work/dealt"
    [ -n "$fault" ] || fail "the fault $name was not found"
    [[ $fault =~ $5 ]] || fail "in the program with the fault $name another one was found: $fault"
    echo "$script: a program with the fault $name is found out: $fault"
    fault=
    kills=$before
}
