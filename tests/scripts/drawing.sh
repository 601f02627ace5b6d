# Pictures of runs: well-formed, with room for each label, an arrow for each frame of the trace, and written whole or not at all.
top="$(cd "$(dirname "$0")/../.." && pwd)"
source "$(dirname "$0")/common"

# reads a picture as XML, and prints how many arrows it has, in order of the frames' numbers, and the texts of its PRINTs
look() {
    python3 - "$1" <<'PY'
import re, sys, xml.etree.ElementTree as xml
SVG = "{http://www.w3.org/2000/svg}"
root = xml.parse(sys.argv[1]).getroot()
assert root.tag == SVG + "svg", root.tag
titles = [it.text or "" for it in root.iter(SVG + "title")]
frames = [it for it in titles if re.match(r"(Spawn|Shift|Back|Report) \d+ from place \d+ to place \d+", it)]
for number, frm, to in sorted({tuple(map(int, re.findall(r"\d+", it)[:3])) for it in frames}):
    print("P", number, frm, to)
PY
}

for example in round_trip ring fan_out nested fib shared_counter; do
    x10p asm "$top/examples/$example.asm" "$example.x10" || fail "$example: status $?"
    does 0 "" "" x10p draw "$example.x10" "$example.svg"
    look "$example.svg" >.found || fail "$example.svg can't be read"
    x10p trace "$example.x10" | grep '^P ' | cut -d ' ' -f 1-4 >.wanted
    cmp -s .found .wanted || fail "$example.svg has other arrows than the frames of the trace: $(diff .wanted .found | head -n 5)"
    # the same as before, and the same picture over the same places
    does 0 "" "" x10p draw "$example.x10" again.svg --limit 1000000
    same "$example.svg" again.svg
done
rm -f again.svg

# over 64 places, of which most are idle
x10p draw fan_out.x10 wide.svg --places 64 || fail "wide.svg: status $?"
# no label is over another one, or over a bar, and none hides an end of an arrow
"$top/docs/pictures/check" ./*.svg >.found || fail "pictures: $(grep -v ' 0 faults' .found | head -n 5)"
# a long run is no longer than a few screens
high="$(sed -n 's/.* height="\([0-9]*\)" viewBox.*/\1/p' fib.svg | head -n 1)"
[ "$high" -lt 4000 ] || fail "fib.svg is $high pixels high"

# the pictures of docs/ are those that are made now
"$top/docs/pictures/make" --check "$PWD/x10p" || fail "docs/pictures/make makes them anew"

# a text that is no markup stays one
printf 'places 1\ntext "<&>\\"]]>\\n\1"\nfunc 1 0 none\nTEXTK 0 0\nPRINT 0\nRET 0\nend\nentry 0\n' >marks.asm
x10p asm marks.asm marks.x10
does 0 "" "" x10p draw marks.x10 marks.svg
look marks.svg >.found || fail "marks.svg can't be read"

# a run that stops is drawn until then, and the fault is told
printf 'places 1\nint 7\nfunc 1 0 none\nINTK 0 0\nPRINT 0\nRET 0\nend\nentry 0\n' >seven.asm
x10p asm seven.asm seven.x10
cp seven.asm seven.txt
does 2 "" "x10p: limit" x10p draw seven.x10 part.svg --limit 2
look part.svg >.found || fail "part.svg can't be read"
! grep -q '0:2 RET' part.svg || fail "part.svg has more events than the limit"

# what is refused writes nothing, and what can't be written is told
rm -f new.svg
does 1 "" "x10p: places" x10p draw ring.x10 new.svg --places 1
does 1 "" "x10p: image: Magic" x10p draw seven.txt new.svg
does 4 "" "x10p: file" x10p draw nowhere.x10 new.svg
[ ! -e new.svg ] || fail "a refused module has a picture"
cp seven.asm kept.asm
does 4 "" "x10p: file" x10p draw seven.x10 seven.asm
same seven.asm kept.asm
does 4 "" "x10p: file" x10p draw seven.x10 nowhere/new.svg
cp seven.x10 kept.x10
does 4 "" "x10p: file" x10p draw seven.x10 seven.x10
same seven.x10 kept.x10
if [ -c /dev/full ]; then
    does 4 "" "x10p: file" x10p draw seven.x10 /dev/full
fi
exit $wrong
