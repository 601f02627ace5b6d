#!/usr/bin/env bash
# Runs a benchmark, on a copy of the crates outside the repository: run.sh read_image, run.sh frames, run.sh heaps,
# run.sh copies, run.sh verify_modules, or run.sh events. RT names the command, where it isn't `rt`. The crates that the benchmark stands on are proved
# first, which takes a minute or two.
set -euo pipefail

name="${1:-}"
case "$name" in
read_image) library=x10_image ;;
frames) library=x10_frame ;;
heaps) library=x10_heap ;;
copies) library="x10_kinds x10_model x10_image x10_asm x10_frame x10_heap x10_copy" ;;
verify_modules) library="x10_image x10_verify" ;;
events) library="x10_model x10_image x10_asm x10_verify x10_world" ;;
*)
    echo "usage: bench/run.sh read_image|frames|heaps|copies|verify_modules|events" >&2
    exit 2
    ;;
esac

rt="${RT:-rt}"
top="$(cd "$(dirname "${BASH_SOURCE[0]}")/.." && pwd)"
scratch="$(mktemp -d)"
trap 'rm -rf "$scratch"' EXIT

cp -R "$top/crates.txt" "$top/HANDLES" "$top/crates" "$scratch/"
mkdir -p "$scratch/crates/$name/src"
cp "$top/bench/$name.rt.txt" "$scratch/crates/$name/src/main.rt"
printf '\n%s: %s\n' "$name" "$library" >>"$scratch/crates.txt"
cd "$scratch/crates/$name"
"$rt" run
