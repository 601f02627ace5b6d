# `-` in place of a file is standard input: a text or an image, by its first bytes.
source "$(dirname "$0")/common"
prints 7 >seven.asm
x10p asm seven.asm seven.x10

# says STATUS OUT ERR FILE COMMAND ..: what a command does that has a file as its standard input
says() {
    local status=$1 out=$2 err=$3 file=$4
    shift 4
    "$@" >.out 2>.err <"$file"
    local found=$?
    [ "$found" -eq "$status" ] || fail "$* <$file: status $found, and not $status"
    [ "$(cat .out)" = "$out" ] || fail "$* <$file: it printed $(head -c 300 .out)"
    [ "$(cat .err)" = "$err" ] || fail "$* <$file: it told $(head -c 300 .err)"
}

for file in seven.asm seven.x10; do
    says 0 "0: 7" "" $file x10p run -
    says 0 "0: 7" "" $file x10p run - --threads
    says 0 "verified 1 functions, entry bound 3" "" $file x10p verify -
    says 0 "0 3" "" $file x10p bounds -
    says 0 "0 3" "" $file x10p check -
    says 0 "$(x10p list seven.x10)" "" $file x10p list -
    says 0 "" "" $file x10p draw - seven.svg
    [ -s seven.svg ] || fail "no picture of $file"
    rm -f seven.svg
done

# a text is assembled, from a pipe too
says 0 "" "" seven.asm x10p asm - new.x10
same new.x10 seven.x10
[ "$(cat seven.asm | x10p run -)" = "0: 7" ] || fail "a text from a pipe doesn't run"
[ "$(cat seven.x10 | x10p run -)" = "0: 7" ] || fail "an image from a pipe doesn't run"

# what it is refused for: as a text, and as an image where it begins as one
says 1 "" "x10p: asm: line 1 Order" /dev/null x10p run -
printf 'X10P\0\2' >other.x10
says 1 "" "x10p: image: Short" other.x10 x10p run -
printf 'places 1\n\xff' >bytes
says 4 "" "x10p: file
Standard input isn't UTF-8: line 2, column 1." bytes x10p run - --explain

# no file with the name of a text is written, and no standard input is a fault
says 4 "" "x10p: file" seven.asm x10p asm - seven.asm
x10p run - --explain >.out 2>.err <&-
[ $? -eq 4 ] || fail "without standard input: $(cat .err)"

# a file of this name is read by a longer one
cp seven.asm -
says 1 "" "x10p: asm: line 1 Order" /dev/null x10p run -
does 0 "0 3" "" x10p check ./-
exit $wrong
