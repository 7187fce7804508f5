#!/usr/bin/env bash
# Makes each allocation fail in turn, as where memory is wanting: fail_alloc.sh FOLDER, with the built order program in FOLDER. A day of the
# order program must end with status 1 and one line that says so, with nothing printed and the shipped file as before; the days and runs of
# the tests, which `rt test` must have built, must fail for want of memory alone, so that no wrong answer comes in its place. The last line
# counts.
set -uo pipefail
bin=$(realpath "$1")
root=$(realpath "$(dirname "$0")/..")
scratch=$(mktemp -d)
trap 'rm -rf "$scratch"' EXIT
cd "$scratch"
cc -O1 -shared -fPIC -o fail.so "$root/tools/fail_alloc.c" || exit 1
failed=0 count=0

# tell WHAT WANTED SEEN
tell() {
    count=$((count + 1))
    if [ "$2" != "$3" ]; then
        printf 'FAIL  %s: wanted %s, seen %s\n' "$1" "$2" "$3"
        failed=$((failed + 1))
    fi
}

# starved N COMMAND: the command, with its Nth allocation failing; 0 for none. How many it asked for is then in the file count.
starved() { FAIL_ALLOC=$1 COUNT_FILE=count LD_PRELOAD=./fail.so "${@:2}"; }

# A day, with what stands in out and err after it, and what is left of the shipped file.
day() {
    cp older shipped.dds
    starved "$1" "$bin/cuivakko" < orders > out 2> err
    printf 'status %s, "%s", %s lines of error, %s of memory, %s' $? "$(paste -s -d '|' out)" "$(grep -c '' err)" "$(grep -ci 'out of memory' err)" \
        "$(cmp -s older shipped.dds && echo as before || echo shipped)"
    [ ! -e shipped.dds.part ] || printf ', a part'
}
cp "$root/crates/cuivakko/data/master.dds" . && chmod 644 master.dds
printf 'L 0 1 0 7\nP 1 7 0 5 414243\nK 1\n' > orders
echo older > older
tell 'a day' 'status 0, "ok 1|ok 1|ok 0|ship", 0 lines of error, 0 of memory, shipped' "$(day 0)"
days=$(cat count)
for ((n = 1; n <= days; n++)); do
    tell "a day, allocation $n" 'status 1, "", 1 lines of error, 1 of memory, as before' "$(day "$n")"
done
echo "a day of cuivakko: each of $days allocations"

# The tests of a crate, each in a process of its own.
of_tests() {
    local program=$root/crates/$1/out/$1_tests name most status n all=0
    if [ ! -x "$program" ]; then
        tell "the tests of $1" 'built by rt test' 'not built'
        return
    fi
    for name in $("$program" --list | sed -n 's/: test$//p'); do
        starved 0 "$program" "$name" > out 2>&1
        tell "$name" 'status 0' "status $?"
        most=$(cat count)
        all=$((all + most))
        for ((n = 1; n <= most; n++)); do
            starved "$n" "$program" "$name" > out 2>&1
            status=$?
            [ "$status" = 0 ] || tell "$name, allocation $n" 'want of memory' "$(grep -Eq 'AllocError|AllocFailed' out && echo want of memory || paste -s -d '|' out)"
        done
    done
    echo "the tests of $1: each of $all allocations"
}
of_tests orders_tests
of_tests loans_tests

echo "$((count - failed)) as wanted, $failed not"
[ "$failed" = 0 ]
