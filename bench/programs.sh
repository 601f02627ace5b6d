#!/usr/bin/env bash
# Assembles and runs the programs bench/*.asm with a built x10p, and tells how long each run took: programs.sh [X10P],
# where X10P is crates/x10p/out/x10p if it is left out.
set -euo pipefail

top="$(cd "$(dirname "${BASH_SOURCE[0]}")/.." && pwd)"
x10p="${1:-$top/crates/x10p/out/x10p}"
scratch="$(mktemp -d)"
trap 'rm -rf "$scratch"' EXIT

TIMEFORMAT='%U s'
for program in "$top"/bench/*.asm; do
    name="$(basename "$program" .asm)"
    "$x10p" asm "$program" "$scratch/$name.x10"
    echo "$name: main takes $("$x10p" bounds "$scratch/$name.x10" | tail -n 1 | cut -d ' ' -f 2) steps at most"
    time "$x10p" run "$scratch/$name.x10" --limit 1000000000
done
