#!/usr/bin/env bash
# Tries the programs where something is wrong around them: robust.sh FOLDER, with the built programs in FOLDER. Each line tells what was
# tried and what came: the status, all that was printed in one line, how many lines stood on standard error, and what of the shipped file
# is left. Where that is not what is wanted, it tells both, and the run fails. The last line counts.
#
# tools/system_calls.py, which it runs too, kills the programs at each of their system calls, and has each fail; that is strace's work
# (Debian's package strace).
set -uo pipefail
bin=$(realpath "$1")
root=$(realpath "$(dirname "$0")/..")
texture=$root/crates/cuivakko/data/master.dds
cube=$root/crates/retouch/data/cube-rgb.dds
if ! strace -o /dev/null true 2> /dev/null; then
    echo 'strace is absent or may not trace: install the package strace, and allow ptrace' >&2
    exit 1
fi
scratch=$(mktemp -d)
trap 'rm -rf "$scratch"' EXIT
cd "$scratch"
failed=0 count=0

# A day that paints three bytes, what it prints, and the file that it ships.
printf 'L 0 1 0 7\nP 1 7 0 5 414243\nK 1\n' > orders
day='ok 1|ok 1|ok 0'
cp "$texture" wanted.dds && chmod 644 wanted.dds && printf 'ABC' | dd of=wanted.dds bs=1 seek=141 conv=notrunc 2> /dev/null
echo older > older

# What retouch makes of the cube: two pixels in each of the first two rows.
cp "$cube" tinted.dds && chmod 644 tinted.dds
for place in 128 160; do printf '\x20\x40\xf0\x80\x20\x40\xf0\x80' | dd of=tinted.dds bs=1 seek=$place conv=notrunc 2> /dev/null; done

# A fresh folder with the texture and the cube.
fresh() { rm -rf run && mkdir run && cp "$texture" run/master.dds && cp "$cube" run/cube.dds && chmod 644 run/*.dds; }

# tell WHAT WANTED SEEN
tell() {
    count=$((count + 1))
    if [ "$2" = "$3" ]; then
        printf 'ok    %s: %s\n' "$1" "$3"
    else
        printf 'FAIL  %s: wanted %s, seen %s\n' "$1" "$2" "$3"
        failed=$((failed + 1))
    fi
}

# What is left of the written file, and whether the texture is as it was.
left() {
    local file
    for file in run/shipped.dds*; do
        if [ -d "$file" ]; then printf ', %s a folder' "${file#run/}"
        elif [ ! -e "$file" ]; then printf ', nothing shipped'
        elif cmp -s "$file" wanted.dds || cmp -s "$file" tinted.dds; then printf ', %s whole' "${file#run/}"
        elif cmp -s "$file" older; then printf ', %s as before' "${file#run/}"
        else printf ', %s spoiled' "${file#run/}"; fi
    done
    if [ -f run/master.dds ] && [ ! -L run/master.dds ] && ! cmp -s run/master.dds "$texture"; then printf ', master.dds spoiled'; fi
}

# seen STATUS: with what stands in out and err.
seen() { printf 'status %s, "%s", %s lines of error%s' "$1" "$(tr -d '\0' < out | paste -s -d '|')" "$(grep -c '' err)" "$(left)"; }

# The program is stopped after ten seconds, which is status 124.
run() {
    local program=$1
    shift
    (cd run && timeout 10 "$bin/$program" "$@" > ../out 2> ../err)
    seen $?
}

fails() { printf 'status 1, "%s", 1 lines of error%s' "$1" "${2:-, nothing shipped}"; }

fresh
tell 'an ordinary day' "status 0, \"$day|ship\", 0 lines of error, shipped.dds whole" "$(run cuivakko < orders)"
fresh && cp older run/shipped.dds
tell 'an older shipped.dds' "status 0, \"$day|ship\", 0 lines of error, shipped.dds whole" "$(run cuivakko < orders)"
fresh && cp older run/shipped.dds
tell 'an older shipped.dds, and a scrap' 'status 0, "ok 1|scrap", 0 lines of error, shipped.dds as before' "$(echo 'L 0 7' | run cuivakko)"
fresh && cp older run/shipped.dds && rm run/master.dds
tell 'an older shipped.dds, and no master.dds' 'status 0, "no 1", 0 lines of error, shipped.dds as before' "$(run cuivakko < orders)"
fresh && rm run/master.dds && mkdir run/master.dds
tell 'a folder in the place of master.dds' "$(fails '')" "$(run cuivakko < orders)"
fresh && rm run/master.dds && ln -s master.dds run/master.dds
tell 'master.dds a link to itself' "$(fails '')" "$(run cuivakko < orders)"
if [ "$(id -u)" != 0 ]; then
    fresh && chmod 000 run/master.dds
    tell 'master.dds that may not be read' "$(fails '')" "$(run cuivakko < orders)"
fi
fresh && rm run/master.dds && ln -s /dev/zero run/master.dds
tell 'a texture that never ends' 'status 0, "no 27", 0 lines of error, nothing shipped' "$(run cuivakko < orders)"
fresh
tell 'orders that never end' 'status 0, "no 27", 0 lines of error, nothing shipped' "$(yes 'K 1' | run cuivakko)"
fresh
tell 'a folder in the place of the orders' "$(fails '')" "$(run cuivakko < /)"
fresh
tell 'closed standard input' "$(fails '')" "$(run cuivakko <&-)"
fresh && mkdir run/shipped.dds
tell 'a folder in the place of shipped.dds' "$(fails "$day" ', shipped.dds a folder')" "$(run cuivakko < orders)"
fresh && mkdir run/shipped.dds.part
tell 'a folder in the place of shipped.dds.part' "$(fails "$day" ', shipped.dds.part a folder')" "$(run cuivakko < orders)"
fresh && cp older run/shipped.dds.part
tell 'a part left by a killed run' "status 0, \"$day|ship\", 0 lines of error, shipped.dds whole" "$(run cuivakko < orders)"
fresh && ln -s master.dds run/shipped.dds.part
tell 'a link to master.dds in the place of the part' "status 0, \"$day|ship\", 0 lines of error, shipped.dds whole" "$(run cuivakko < orders)"

: > out
fresh
(cd run && "$bin/cuivakko" < ../orders > /dev/full 2> ../err)
status=$?
tell 'answers to a full disk' "$(fails '')" "$(seen $status)"
fresh
(cd run && "$bin/cuivakko" < ../orders >&- 2> ../err)
status=$?
tell 'closed standard output' "$(fails '')" "$(seen $status)"
fresh
(cd run && { sleep 0.2; "$bin/cuivakko" < ../orders 2> ../err; echo $? > ../status; } | true)
tell 'a reader of the output that is gone' "$(fails '')" "$(seen "$(cat status)")"

# no file may grow; what is printed goes through pipes
fresh
(cd run && { (ulimit -f 0; trap '' XFSZ; exec "$bin/cuivakko" < ../orders) 2>&3 | cat > ../out; echo "${PIPESTATUS[0]}" > ../status; } 3>&1 | cat > ../err)
tell 'no room for shipped.dds' "$(fails "$day")" "$(seen "$(cat status)")"

# killed at each system call, and each of them failing; its lines are as those here
python3 "$root/tools/system_calls.py" "$bin" | tee calls
status=${PIPESTATUS[0]}
count=$((count + $(grep -c '' calls))) failed=$((failed + $(grep -c '^FAIL' calls)))
tell 'the kills and the failing calls were tried' "$(grep -q '^FAIL' calls && echo 1 || echo 0)" "$status"

fresh
tell 'pieces of an absent file' "$(fails '')" "$(run pieces absent.dds)"
fresh
tell 'pieces of a folder' "$(fails '')" "$(run pieces .)"
fresh
tell 'pieces of a file that never ends' "$(fails '')" "$(run pieces /dev/zero)"
fresh && : > out
(cd run && "$bin/pieces" master.dds > /dev/full 2> ../err)
status=$?
tell 'pieces to a full disk' "$(fails '')" "$(seen $status)"
fresh && : > out
(cd run && { sleep 0.2; "$bin/pieces" master.dds 2> ../err; echo $? > ../status; } | true)
tell 'pieces for a reader that is gone' 'status 0, "", 0 lines of error, nothing shipped' "$(seen "$(cat status)")"

# 2,048 elements of one pixel, in an extended header: 2,050 lines
fresh
python3 - run/many.dds << 'END'
import struct, sys
words = [0] * 37
words[0], words[1], words[3], words[4], words[19], words[20], words[21] = 0x20534444, 124, 1, 1, 32, 4, 0x30315844
words[32], words[33], words[35] = 28, 3, 2048
open(sys.argv[1], 'wb').write(struct.pack('<37I', *words) + bytes(4 * 2048))
END
strace -o calls -e trace=write "$bin/pieces" run/many.dds > out
status=$?
writes=$(grep -c '^write(1, ' calls) lines=$(grep -c '' out)
[ "$writes" -le $(($(stat -c %s out) / 4096 + 1)) ] && buffered=yes || buffered="$writes writes"
tell 'pieces of 2,048 elements, through a buffer' 'status 0, 2050 lines, yes' "status $status, $lines lines, $buffered"
(cd run && { "$bin/pieces" many.dds 2> ../err; echo $? > ../status; } | head -n 1 > /dev/null)
: > out
tell 'the first line of them' 'status 0, "", 0 lines of error, nothing shipped' "$(seen "$(cat status)")"

# Of what retouch prints, the last line.
retouch() {
    (cd run && timeout 10 "$bin/retouch" cube.dds "$@" > ../all 2> ../err)
    local status=$?
    tail -n 1 all > out
    seen $status
}

fresh
tell 'retouch of an absent file' "$(fails '')" "$(run retouch absent.dds)"
fresh
tell 'retouch' 'status 0, "ship: 2 loans granted, 1 kept, 1 cancelled", 0 lines of error, nothing shipped' "$(retouch)"
fresh
tell 'retouch into a file' 'status 0, "write shipped.dds: 1664 bytes", 0 lines of error, shipped.dds whole' "$(retouch shipped.dds)"
fresh && cp older run/shipped.dds
tell 'retouch over an older file' 'status 0, "write shipped.dds: 1664 bytes", 0 lines of error, shipped.dds whole' "$(retouch shipped.dds)"
fresh && cp older run/shipped.dds && cp older run/shipped.dds.part
tell 'retouch, and a part left by a killed run' \
    'status 1, "ship: 2 loans granted, 1 kept, 1 cancelled", 1 lines of error, shipped.dds as before, shipped.dds.part as before' "$(retouch shipped.dds)"
fresh
tell 'retouch into a folder that is absent' 'status 1, "ship: 2 loans granted, 1 kept, 1 cancelled", 1 lines of error, nothing shipped' "$(retouch absent/shipped.dds)"
fresh && mkdir run/shipped.dds
tell 'retouch over a folder' 'status 1, "ship: 2 loans granted, 1 kept, 1 cancelled", 1 lines of error, shipped.dds a folder' "$(retouch shipped.dds)"
fresh && : > out
(cd run && "$bin/retouch" cube.dds > /dev/full 2> ../err)
status=$?
tell 'retouch to a full disk' "$(fails '')" "$(seen $status)"
fresh && : > out
(cd run && "$bin/retouch" cube.dds shipped.dds > /dev/full 2> ../err)
status=$?
tell 'retouch into a file, its steps to a full disk' "$(fails '' ', shipped.dds whole')" "$(seen $status)"
fresh && : > out
(cd run && "$bin/retouch" cube.dds shipped.dds >&- 2> ../err)
status=$?
tell 'retouch into a file, closed standard output' "$(fails '' ', shipped.dds whole')" "$(seen $status)"
fresh && : > out
(cd run && { sleep 0.2; "$bin/retouch" cube.dds shipped.dds 2> ../err; echo $? > ../status; } | true)
tell 'retouch for a reader that is gone' 'status 0, "", 0 lines of error, shipped.dds whole' "$(seen "$(cat status)")"

echo "$((count - failed)) as wanted, $failed not"
[ "$failed" = 0 ]
