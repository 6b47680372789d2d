#!/bin/sh
# Times the crate `guest_mem`: loads and stores of 8 bytes that stay near their last page and at random over
# 256 kept pages, and the making of 16 shards of 256 pages. Builds the program of memory.txt in a copy of the
# repository, outside the gate.
# Bars: 15 ns near the last page, 60 ns at random, 1 ms for the shards.
here=$(cd "$(dirname "$0")" && pwd) || exit 1
command -v rt >/dev/null 2>&1 || { echo "memory.sh: skipped: no rt on PATH"; exit 0; }
copy=$(mktemp -d) || exit 1
trap 'rm -rf "$copy"' EXIT
root=$here/../..
mkdir -p "$copy/crates/memory_speed/src"
for name in places sorted_entries a64_model vm_areas page_store guest_mem; do
    (cd "$root/crates" && tar -cf - --exclude=out "$name") | tar -xf - -C "$copy/crates" || exit 1
    grep "^$name:" "$root/crates.txt" >>"$copy/crates.txt" || exit 1
done
echo 'memory_speed: guest_mem vm_areas' >>"$copy/crates.txt"
cp "$here/memory.txt" "$copy/crates/memory_speed/src/main.rt" || exit 1
# that a loop leaves the shard's index
invariant() {
    mkdir -p "$copy/crates/memory_speed/proofs/$1"
    cat >"$copy/crates/memory_speed/proofs/$1/Invariants.antt" <<END
use Rattle.std.proofs.Common.{◌≡◌}
use Rattle.memory_speed.proofs.$1.Given as goal

abbrev pub invariant-loop-$2 : goal.invariant-loop-$2
invariant-loop-$2 l = l.shard.index ≡ 0
END
}
invariant near_stores i
invariant random_stores i
invariant filled p
cd "$copy/crates/memory_speed" || exit 1
rt run >"$copy/log" 2>&1 || { cat "$copy/log"; echo "memory.sh: the program did not run"; exit 1; }
awk '
    /^(near_load|near_store|random_load|random_store|make) [0-9]+$/ { time[$1] = $2; count++ }
    END {
        if (count != 5) { print "memory.sh: a number is missing"; exit 1 }
        printf "load near its last page     %6.2f ns (bar: 15)\n", time["near_load"] / 5000000
        printf "store near its last page    %6.2f ns (bar: 15)\n", time["near_store"] / 5000000
        printf "load at random, 256 pages   %6.2f ns (bar: 60)\n", time["random_load"] / 5000000
        printf "store at random, 256 pages  %6.2f ns (bar: 60)\n", time["random_store"] / 5000000
        printf "16 shards of 256 pages      %6.0f us (bar: 1000)\n", time["make"] / 1000
        near = 15 * 5000000
        far = 60 * 5000000
        exit !(time["near_load"] <= near && time["near_store"] <= near && time["random_load"] <= far && time["random_store"] <= far && time["make"] <= 1000000)
    }' "$copy/log"
