# What `asm` leaves: the whole image, or all as it was.
source "$(dirname "$0")/common"
prints 7 >seven.asm
prints 8 >eight.asm
x10p asm seven.asm seven.x10
x10p asm eight.asm eight.x10
only seven.asm eight.asm seven.x10 eight.x10

# no room for the image: the file is as it was, or isn't there, and nothing is left beside it
{
    echo places 1
    yes 'int 7' | head -n 4000
    tail -n +2 seven.asm
} >long.asm
cp seven.x10 image.x10
(
    trap '' XFSZ
    ulimit -f 8
    does 4 "" "x10p: file" x10p asm long.asm image.x10
    does 4 "" "x10p: file" x10p asm long.asm new.x10
    exit $wrong
) || wrong=1
same image.x10 seven.x10
only seven.asm eight.asm seven.x10 eight.x10 long.asm image.x10
does 0 "" "" x10p asm long.asm image.x10
does 0 "0: 7" "" x10p run image.x10
# the new file can't take the name, here as something stands on it: where the system lets one try that
cp seven.x10 image.x10
if unshare -rm mount --bind seven.asm image.x10 2>/dev/null; then
    does 4 "" "x10p: file" unshare -rm sh -c 'mount --bind seven.asm image.x10 && x10p asm eight.asm image.x10'
    same image.x10 seven.x10
    only seven.asm eight.asm seven.x10 eight.x10 long.asm image.x10
fi
# a text that is refused writes nothing
cp seven.x10 image.x10
echo walk >refused.asm
does 1 "" "x10p: asm: line 1 Word" x10p asm refused.asm image.x10
same image.x10 seven.x10
rm long.asm refused.asm

# no image is written over what is a text by its name
does 4 "" "x10p: file" x10p asm seven.asm eight.asm
does 4 "" "x10p: file" x10p asm seven.asm new.asm
[ "$(x10p run eight.asm)" = "0: 8" ] || fail "a text was overwritten"
[ ! -e new.asm ] || fail "an image has the name of a text"

# names that are taken are passed over, and left alone
echo mine >image.x10.0.tmp
mkdir image.x10.1.tmp
does 0 "" "" x10p asm eight.asm image.x10
same image.x10 eight.x10
[ "$(cat image.x10.0.tmp)" = mine ] || fail "a file beside the image was changed"
only seven.asm eight.asm seven.x10 eight.x10 image.x10 image.x10.0.tmp image.x10.1.tmp
rm -r image.x10.*.tmp

# the image keeps its permissions, and a link stays a link
chmod 640 image.x10
ln -s image.x10 link.x10
does 0 "" "" x10p asm seven.asm link.x10
[ -L link.x10 ] || fail "a link was replaced"
same image.x10 seven.x10
[ "$(stat -c %a image.x10)" = 640 ] || fail "the image has permissions $(stat -c %a image.x10)"
chmod 440 image.x10
if [ ! -w image.x10 ]; then
    does 4 "" "x10p: file" x10p asm eight.asm image.x10
    same image.x10 seven.x10
fi
chmod 640 image.x10
rm link.x10
ln -s nowhere.x10 link.x10
does 0 "" "" x10p asm seven.asm link.x10
same nowhere.x10 seven.x10
[ -L link.x10 ] || fail "a link that led nowhere was replaced"
rm link.x10 nowhere.x10

# a text that would be its own image, by name, by another way to say it, by a link and by a second name
cp seven.asm text.asm
ln -s text.asm link.asm
ln text.asm second.asm
for image in text.asm ./text.asm "$PWD/text.asm" link.asm second.asm; do
    does 4 "" "x10p: file" x10p asm text.asm "$image"
    does 4 "" "x10p: file" x10p asm "$image" text.asm
    same text.asm seven.asm
done
[ -L link.asm ] || fail "a link was replaced"
rm text.asm link.asm second.asm
only seven.asm eight.asm seven.x10 eight.x10 image.x10

# a pipe and a device are written through
mkfifo pipe
timeout 10 cat pipe >piped.x10 &
does 0 "" "" timeout 10 x10p asm seven.asm pipe
wait $!
same piped.x10 seven.x10
[ -p pipe ] || fail "a pipe was replaced"
x10p asm seven.asm /dev/stdout | cmp -s - seven.x10 || fail "standard output isn't the image"
x10p asm seven.asm /dev/stdout >piped.x10 || fail "standard output to a file: status $?"
same piped.x10 seven.x10
if [ -c /dev/full ]; then
    does 4 "" "x10p: file" x10p asm seven.asm /dev/full
    [ -c /dev/full ] || fail "a device was replaced"
fi
does 0 "" "" x10p asm seven.asm /dev/null
[ -c /dev/null ] || fail "a device was replaced"
# a folder is no file
does 4 "" "x10p: file" x10p asm seven.asm .
does 4 "" "x10p: file" x10p asm seven.asm nowhere/image.x10
does 4 "" "x10p: file" x10p asm seven.asm image.x10/image.x10
rm pipe piped.x10
only seven.asm eight.asm seven.x10 eight.x10 image.x10
exit $wrong
