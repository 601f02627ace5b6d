# The README's first program, and what it says of it with one thing changed.
source "$(dirname "$0")/common"
readme="$(dirname "$0")/../../README.md"

# block N: the Nth block of the README between lines of three backquotes
block() {
    awk -v n="$1" '/^```/ { fences++; next } fences == 2 * n - 1' "$readme"
}

block 1 >counter.asm
does 0 "0: 8" "" x10p run counter.asm
does 0 "verified 3 functions, entry bound 17" "" x10p verify counter.asm
x10p draw counter.asm counter.svg
same counter.svg "$(dirname "$0")/../../docs/pictures/tutorial/counter.svg"

# function 1 doesn't go home
sed 's/^  HOME 1 0$/  CALL 0 0 0/; /^  AT 0 0 1 0$/d' counter.asm >twin.asm
does 1 "$(block 2)" "x10p: verify: Home 1 0" x10p check twin.asm
exit $wrong
