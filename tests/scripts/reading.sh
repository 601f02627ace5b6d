# Files are read as far as they can be an image or a text, and a reader of the output may go before its end.
source "$(dirname "$0")/common"
prints 7 >seven.asm
x10p asm seven.asm seven.x10

# what has no end, or ends after gigabytes, is refused after its beginning: here is no memory for more
(
    ulimit -v 600000
    for command in list verify bounds run trace; do
        does 1 "" "x10p: image: Magic" x10p $command /dev/zero
    done
    does 4 "" "x10p: file" x10p asm /dev/zero new.x10
    cp seven.x10 long.x10
    truncate -s 6G long.x10
    does 1 "" "x10p: image: Trailing" x10p run long.x10
    cp seven.asm long.asm
    truncate -s 6G long.asm
    does 4 "" "x10p: file" x10p asm long.asm new.x10
    printf 'places 1\n\xff' >long.asm
    truncate -s 6G long.asm
    does 4 "" "x10p: file" x10p asm long.asm new.x10
    # a text of 65,535 bytes is announced, and then another, which has a wrong byte
    printf 'X10P\0\1\0\1\0\0\0\0\377\377\0\1\0\0\0\0\377\377' >long.x10
    head -c 65535 /dev/zero >>long.x10
    printf '\0\1\377' >>long.x10
    truncate -s 6G long.x10
    does 1 "" "x10p: image: Text" x10p run long.x10
    exit $wrong
) || wrong=1
rm long.asm long.x10

# an image that ends just where it is looked at, one byte before and one after
for length in 65477 65478 65479; do
    {
        printf 'places 1\ntext "'
        head -c $length /dev/zero | tr '\0' a
        printf '"\nfunc 1 0 none\nTEXTK 0 0\nTLEN 0 0\nPRINT 0\nRET 0\nend\nentry 0\n'
    } >long.asm
    x10p asm long.asm long.x10
    does 0 "0: $length" "" x10p run long.x10
    printf '\0' >>long.x10
    does 1 "" "x10p: image: Trailing" x10p run long.x10
    head -c -2 long.x10 >short.x10
    does 1 "" "x10p: image: Short" x10p run short.x10
done

# a text with more comments than module
{
    yes '; a comment' | head -n 200000
    cat seven.asm
    yes '' | head -n 200000
} >long.asm
does 0 "" "" x10p asm long.asm long.x10
same long.x10 seven.x10

# a pipe in place of a file
cat long.asm | does 4 "" "x10p: file" x10p asm /dev/stdin/nothing new.x10
cat long.asm | x10p asm /dev/stdin new.x10 || fail "a text from a pipe: status $?"
same new.x10 seven.x10
[ "$(cat seven.x10 | x10p run /dev/stdin)" = "0: 7" ] || fail "an image from a pipe doesn't run"

# a reader that goes before the end: no message, whether the signal ends the program or it is held back
{
    printf 'places 1\nint 7\nfunc 1 1 none\nINTK 0 0\nLOOP 0 60000\nagain:\nPRINT 0\nENDL 0 @again\nRET 0\nend\nentry 0\n'
} >long.asm
x10p asm long.asm long.x10
for command in run trace; do
    x10p $command long.x10 2>.err | head -n 1 >.out
    [ ! -s .err ] || fail "x10p $command | head -n 1: it told $(cat .err)"
    (
        trap '' PIPE
        x10p $command long.x10 2>.err
        echo $? >.status
    ) | head -n 1 >.out
    [ ! -s .err ] || fail "x10p $command | head -n 1, the signal held back: it told $(cat .err)"
    [ "$(cat .status)" = 4 ] || fail "x10p $command | head -n 1, the signal held back: status $(cat .status)"
done
# a device that is full is told
if [ -c /dev/full ]; then
    x10p run long.x10 2>.err >/dev/full
    [ $? = 4 ] && [ "$(cat .err)" = "x10p: file" ] || fail "to /dev/full: it told $(cat .err)"
fi
exit $wrong
