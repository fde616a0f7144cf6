#!/bin/sh
# Shows what becomes of a failed allocation. Each test of a crate, and the program on each journal in
# examples/, runs with its first allocation failing, then with its second, and so on to its last.
# A larger journal is replayed with less and less room.
# - A test compares answers as they are with ample memory, so it may fail, but then it tells that
#   memory was wanted, or that an object in memory tells its bytes no more. Each other ending is
#   printed, to be looked at; `rt try --test --fail-alloc N` shows one by itself.
# - The program ends with status 9 and no output, or with the status and output that it has with
#   ample memory; so too where all later allocations fail as well.
# Usage: checks/fail_alloc.sh [CRATE..]. With no crate, each whose tests allocate, and then the
# program.
# It needs clang, and the kit's rt to build the tests and the program, which proves them.
set -u
top=$(cd "$(dirname "$0")/.." && pwd) || exit 1
for tool in clang rt; do
    command -v "$tool" >/dev/null || { echo "fail_alloc: skipped, since $tool is missing"; exit 0; }
done
work=$(mktemp -d) || exit 1
trap 'rm -rf "$work"' EXIT
trap 'exit 1' HUP INT TERM
clang -O2 -shared -fPIC -o "$work/fail_alloc.so" "$top/checks/fail_alloc.c" || exit 1
wrong=0
# How a test tells that memory was wanted, "memory" where it compares codes as bytes among them, and
# the bytes of "no more told", which stand for what an object in memory tells no more.
wanted_form='NoMemory|AllocError|AllocFailed|Status\(9\)|out of memory|left: \[109, 101, 109, 111, 114, 121\]'
untold_form='left: \[110, 111, 32, 109, 111, 114, 101, 32, 116, 111, 108, 100\]'
# The lines of a story begin with "another status" where its replay didn't end with 0.
status_form='left: \[97, 110, 111, 116, 104, 101, 114, 32, 115, 116, 97, 116, 117, 115, 10\]'

# with NUMBER COMMAND..: the command, with that allocation failing. The number of all is in
# $work/total then.
with() {
    number=$1
    shift
    env LD_PRELOAD="$work/fail_alloc.so" FAIL_ALLOC="$number" FAIL_ALLOC_TOTAL="$work/total" "$@"
}

row() {
    printf '%-12s %-72s %6s %6s %6s %6s\n' "$@"
}

# tests CRATE: a line for each of its tests, and each ending of another form behind it.
tests() {
    out=$top/crates/$1/out
    mkdir -p "$out"
    (cd "$top/crates/$1" && rt test) >"$out/test.log" 2>&1 || {
        echo "fail_alloc: the tests of $1 fail; see $out/test.log"
        exit 1
    }
    for name in $("$out/$1_tests" --list | sed -n 's/: test$//p'); do
        rm -f "$work/total"
        with 0 "$out/$1_tests" "$name" >/dev/null 2>&1
        total=$(cat "$work/total") || exit 1
        passed=0 wanted=0
        : >"$work/others"
        number=1
        while [ "$number" -le "$total" ]; do
            { with "$number" "$out/$1_tests" "$name"; } >"$work/told" 2>&1
            status=$?
            if [ "$status" = 0 ]; then
                passed=$((passed + 1))
            elif grep -qE "$wanted_form|$untold_form|$status_form" "$work/told"; then
                wanted=$((wanted + 1))
            else
                told=$(tr -s '\n' ' ' <"$work/told")
                printf 'status %s: %.150s\n' "$status" "$told" >>"$work/others"
            fi
            number=$((number + 1))
        done
        row "$1" "${name#tests::}" "$total" "$passed" "$wanted" "$(wc -l <"$work/others")"
        sort "$work/others" | uniq -c
    done
}

# ends_well STATUS: whether the program ended with this status and the transcript, or with 9 and
# nothing.
ends_well() {
    if [ "$1" = 9 ] && [ ! -s "$work/got" ]; then
        return 0
    fi
    [ "$1" = "$ample" ] && cmp -s "$work/got" "$work/transcript"
}

# ended STATUS WHAT: counts an ending of the program, and tells a wrong one.
ended() {
    if ! ends_well "$1"; then
        echo "wrong: status $1 and $(wc -c <"$work/got") bytes of output, $2"
        wrong=1
    elif [ "$1" = 9 ]; then
        wanted=$((wanted + 1))
    else
        whole=$((whole + 1))
    fi
}

# summed WHAT: the counts of endings.
summed() {
    printf '%-60s %6d ends with 9, %d with the whole answer\n' "$1" "$wanted" "$whole"
}

# allocations JOURNAL: the program on it, with each allocation failing by itself and with all later
# ones.
allocations() {
    rm -f "$work/total"
    with 0 "$program" replay <"$1" >"$work/transcript"
    ample=$?
    total=$(cat "$work/total") || exit 1
    whole=0 wanted=0 number=1
    while [ "$number" -le "$total" ]; do
        with "$number" "$program" replay <"$1" >"$work/got"
        ended $? "where allocation $number fails"
        FAIL_ALLOC_REST=1 with "$number" "$program" replay <"$1" >"$work/got"
        ended $? "where allocation $number and all later ones fail"
        number=$((number + 1))
    done
    summed "$(basename "$1"), $total allocations:"
}

larger_journal() {
    awk 'BEGIN {
        said = sprintf("%999s", "")
        gsub(/ /, "78", said)
        print "journal 1 7\ncall 1 worker w 0\nspawned 1 1 up"
        running = "7b226576656e74223a2272756e6e696e67222c227461726765744964223a22776f726b6572227d"
        print "chunk 1 1 27000000" running
        for (i = 1; i <= 3000; i++) {
            print "call 1 router r" i " w {\"mediaCodecs\":[]}"
            print "chunk 1 1 e803000044" said
        }
    }'
}

# within KILOBYTES: the status of the program on the larger journal, in so much room.
within() {
    (ulimit -v "$1" && exec "$program" replay <"$work/journal" >"$work/got" 2>"$work/error")
}

# room: the program in less and less room, until it can't be started.
room() {
    larger_journal >"$work/journal"
    "$program" replay <"$work/journal" >"$work/transcript"
    ample=$?
    enough=4096
    until within "$enough"; do enough=$((enough * 2)); done
    whole=0 wanted=0 room=$enough
    while within "$room"; status=$?; [ "$status" != 127 ]; do
        ended "$status" "in $room KiB"
        room=$((room - enough / 200))
    done
    summed "a larger journal, from $enough KiB to $room:"
}

# Each crate whose tests are given an allocator, in the order of crates.txt.
allocating() {
    sed -n 's/^\([a-z_0-9]*\)[ :].*/\1/p' "$top/crates.txt" | while read -r crate; do
        ! grep -rlq 'rt\.alloc()' "$top/crates/$crate/src" --include='*tests.rt' || echo "$crate"
    done
}

crates=${*:-$(allocating)}
row crate test allocs passed wanted other
for crate in $crates; do
    tests "$crate"
done
[ $# = 0 ] || exit 0
# With no words the program reads nothing and ends with status 2.
"$top/mediahub" </dev/null
[ $? = 2 ] || { echo "fail_alloc: the program could not be built"; exit 1; }
program=$top/crates/mediahub/out/mediahub
for journal in "$top"/examples/*.journal; do
    allocations "$journal"
done
room
exit "$wrong"
