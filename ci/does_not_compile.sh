#!/usr/bin/env bash
# Programs that must not compile. Each folder of ci/does_not_compile holds
#   main.rt.txt   the program (by this name no check takes it for one of the repository's own)
#   deps          the crates that it stands on, in one line
#   error         a text that each error of the compiler contains
# Each program is checked beside a copy of the repository's crates, outside the repository. Prints a line for each, and
# as the last line 'N passed, M failed'; one that is accepted fails, and one that is refused for another reason.
set -euo pipefail

rt="${RT:-rt}"
top="$(cd "$(dirname "${BASH_SOURCE[0]}")/.." && pwd)"
scratch="$(mktemp -d)"
trap 'rm -rf "$scratch"' EXIT

# copies the crates, without what earlier checks left
copy_crates() {
    mkdir "$1"
    tar -C "$top" --exclude='crates/*/out' -cf - crates.txt HANDLES crates | tar -C "$1" -xf -
}

# adds the program of a case as a crate; a blank line ends a last line that lacks its end
add_program() {
    mkdir -p "$2/crates/$3/src"
    cp "$1/main.rt.txt" "$2/crates/$3/src/main.rt"
    printf '\n%s: %s\n' "$3" "$(cat "$1/deps")" >>"$2/crates.txt"
}

# whether there are errors in a file, and each contains a text
is_refused_for() {
    grep -q 'error\[' "$1" && ! grep 'error\[' "$1" | grep -qvF -- "$2"
}

check_case() {
    local folder="$1" name world log
    name="$(basename "$folder")"
    world="$scratch/$name"
    log="$scratch/$name.log"
    copy_crates "$world"
    add_program "$folder" "$world" "$name"
    if (cd "$world/crates/$name" && "$rt" check) >"$log" 2>&1; then
        echo "does not compile: $name: it was accepted"
        return 1
    fi
    if ! is_refused_for "$log" "$(cat "$folder/error")"; then
        echo "does not compile: $name: refused for another reason"
        tail -n 20 "$log"
        return 1
    fi
    echo "does not compile: $name: refused"
}

passed=0
failed=0
for folder in "$top"/ci/does_not_compile/*/; do
    if check_case "${folder%/}"; then
        passed=$((passed + 1))
    else
        failed=$((failed + 1))
    fi
done
echo "$passed passed, $failed failed"
[ "$failed" -eq 0 ]
