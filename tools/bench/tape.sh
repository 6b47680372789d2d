#!/bin/sh
# Times the crate `tape` on 20,000,000 entries: a push beside one to a plain vector with room, and the file
# written and read, where all entries differ and where they stand in runs of 10,000. Builds the program of
# tape.txt in a copy of the repository, outside the gate.
# Bars: a push costs at most three times a push to the vector; a file of single entries is written and read
# at 200 MB/s. Aim: 100 million entries a second both ways where runs are long.
here=$(cd "$(dirname "$0")" && pwd) || exit 1
command -v rt >/dev/null 2>&1 || { echo "tape.sh: skipped: no rt on PATH"; exit 0; }
copy=$(mktemp -d) || exit 1
trap 'rm -rf "$copy"' EXIT
root=$here/../..
mkdir -p "$copy/crates/tape_speed/src"
for name in places tape; do
    (cd "$root/crates" && tar -cf - --exclude=out "$name") | tar -xf - -C "$copy/crates" || exit 1
    grep "^$name:" "$root/crates.txt" >>"$copy/crates.txt" || exit 1
done
echo 'tape_speed: tape' >>"$copy/crates.txt"
cp "$here/tape.txt" "$copy/crates/tape_speed/src/main.rt" || exit 1
cd "$copy/crates/tape_speed" || exit 1
rt run >"$copy/log" 2>&1 || { cat "$copy/log"; echo "tape.sh: the program did not run"; exit 1; }
awk '
    /^(vector_push|tape_push|write_singles|read_singles|write_runs|read_runs) [0-9]+$/ { time[$1] = $2; count++ }
    END {
        if (count != 6) { print "tape.sh: a number is missing"; exit 1 }
        bytes = 260000040
        entries = 20000000
        ratio = time["tape_push"] / time["vector_push"]
        write = bytes / time["write_singles"]
        read = bytes / time["read_singles"]
        printf "push to a vector with room  %6.2f ns\n", time["vector_push"] / 20000
        printf "push to a tape              %6.2f ns, %.2f times that (bar: 3)\n", time["tape_push"] / 20000, ratio
        printf "write_tape, single entries  %6.0f MB/s, %.0f million entries a second (bar: 200 MB/s)\n", write, entries / time["write_singles"]
        printf "read_tape, single entries   %6.0f MB/s, %.0f million entries a second (bar: 200 MB/s)\n", read, entries / time["read_singles"]
        printf "write_tape, long runs       %6.0f million entries a second (aim: 100)\n", entries / time["write_runs"]
        printf "read_tape, long runs        %6.0f million entries a second (aim: 100)\n", entries / time["read_runs"]
        exit !(ratio <= 3 && write >= 200 && read >= 200)
    }' "$copy/log"
