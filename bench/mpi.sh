#!/usr/bin/env bash
# Runs over MPI: mpi.sh FOLDER [X10P], where FOLDER has the libburjeeg.a that ci/library made, and X10P is crates/x10p/out/x10p if
# it is left out. Prints how long a hop of ping-pong takes, and one of plain messages, the least and the median of fifteen runs,
# each of two processes that measure both; and then how many times as fast four ranks work as one, at plain arithmetic and as
# places, by the least of seven runs. It needs mpicc and mpirun.
set -euo pipefail

top="$(cd "$(dirname "${BASH_SOURCE[0]}")/.." && pwd)"
x10p="${2:-$top/crates/x10p/out/x10p}"
scratch="$(mktemp -d)"
trap 'rm -rf "$scratch"' EXIT

for name in ping_pong work; do
    mpicc -std=c99 -O2 -I"$top/crates/x10_c/include" "$top/bench/${name}_mpi.c" "$1/libburjeeg.a" -o "$scratch/$name"
done
# 500,000 times to place 1 and back
cat >"$scratch/it.asm" <<'END'
places 2
int 1
func 2 0 int int
INTK 1 0
ADD 0 0 1
RET 0
end
func 3 2 none
INTK 0 0
PLACEK 1 1
LOOP 0 500
outer:
LOOP 1 1000
again:
AT 0 0 1 0
ENDL 1 @again
ENDL 0 @outer
RET 0
end
entry 1
END
"$x10p" asm "$scratch/it.asm" "$scratch/it.x10"
for _ in {1..15}; do
    mpirun -n 2 "$scratch/ping_pong" "$scratch/it.x10"
done >"$scratch/times"
for column in 1 2; do
    cut -d ' ' -f $column "$scratch/times" | sort -n >"$scratch/$column"
    echo "least $(head -n 1 "$scratch/$column"), median $(sed -n 8p "$scratch/$column")"
done | paste -d ' ' <(printf 'plain:\nplaces:\n') -

# 20 million turns of a loop, by as many activities as there are ranks, one at each place
work() {
    cat <<END
places $1
int 0
int 1
func 2 2 none
INTK 0 0
INTK 1 1
LOOP 0 $((20000 / $1))
outer:
LOOP 1 1000
inner:
ADD 0 0 1
ENDL 1 @inner
ENDL 0 @outer
RET 0
end
func 1 1 none
HERE 0
FINB
LOOP 0 $1
start:
ATA 0 0 0
NEXTP 0 0
ENDL 0 @start
FINE
RET 0
end
entry 1
END
}
for ranks in 1 4; do
    work $ranks >"$scratch/it.asm"
    "$x10p" asm "$scratch/it.asm" "$scratch/$ranks.x10"
done
for _ in {1..7}; do
    for ranks in 1 4; do
        mpirun -n $ranks "$scratch/work" "$scratch/$ranks.x10"
    done | paste -d ' ' - -
done >"$scratch/times"
least() {
    cut -d ' ' -f "$1" "$scratch/times" | sort -n | head -n 1
}
for column in 1 2; do
    echo "$(least $column) $(least $((column + 2)))"
done | awk '{ printf "one rank: least %s s, four: %s s; %.2f times as fast\n", $1, $2, $1 / $2 }' | paste -d ' ' <(printf 'plain:\nplaces:\n') -
