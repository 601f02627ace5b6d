# Exercise 14 of docs/EXERCISES.md: the log of its answer, written by hand, is one of a run that has ended; a changed one isn't.
source "$(dirname "$0")/common"
page="$(dirname "$0")/../../docs/EXERCISES.md"

# the program of the exercise, and the log below it
awk '/^## 14\. / { there = 1 } /^```/ { inside = !inside; next } there && inside' "$page" >rare.asm
x10p asm rare.asm rare.x10
digest="$(sha256sum rare.x10)"
sed -n '/^    x10 log 1$/,/^$/s/^    //p' "$page" | sed "s/DIGEST/${digest%% *}/" >rare.log
does 0 "0: 2" "" x10p audit rare.asm rare.log

sed 's/ 1\*17 / 1*16 /' rare.log >changed.log
does 1 "" "x10p: differs: turn 0" x10p audit rare.asm changed.log
exit $wrong
