# Pages of runs: their data are those of the trace, and a browser shows them. What is the same of every page, as x10_page has it, is
# written from the files in page/.
top="$(cd "$(dirname "$0")/../.." && pwd)"
source "$(dirname "$0")/common"

"$top/page/make" --check || fail "call page/make, which writes it"

browser=()
for name in chromium google-chrome; do
    if [ ${#browser[@]} -eq 0 ] && type -P "$name" >/dev/null; then browser=(--browser "$name"); fi
done
[ ${#browser[@]} -gt 0 ] || echo "skipped: what needs chromium"

# shows STATUS EXAMPLE WORD ..: draws a run as a page, which has to show what the trace tells
shows() {
    local status=$1 example=$2 found
    shift 2
    x10p draw "$example.x10" "$example.html" "$@" >.out 2>.err
    found=$?
    [ "$found" -eq "$status" ] || fail "draw $example.html $*: status $found, and not $status: $(head -c 300 .err)"
    "$top/tests/scripts/page_shown" ${browser[@]+"${browser[@]}"} "$example.x10" "$example.html" "$@" || wrong=1
}

for example in round_trip nested ring fan_out; do
    x10p asm "$top/examples/$example.asm" "$example.x10" || fail "$example: status $?"
done
shows 0 round_trip
shows 0 nested --schedule random --seed 3
shows 2 fan_out --places 64 --limit 150
# a page that begins in the middle: of a run until an event, to its end, and of a log
shows 0 ring --from 20 --to 60
shows 0 fan_out --schedule oldest --from 90
x10p run nested.x10 --threads --log nested.log >.out || fail "no log"
shows 0 nested --log nested.log --from 10
browser=()
shows 0 ring
shows 0 ring --from 1 --to 1
shows 0 nested --log nested.log --from 2 --to 30
shows 0 nested --log nested.log

# a part up to the last event says that the run has ended, and one event less that it was stopped
last="$(x10p trace round_trip.x10 | grep -c '^[SD-] ')"
shows 0 round_trip --from 2 --to "$last"
shows 0 round_trip --from 2 --to $((last - 1))

# a text in it stays a text
printf 'places 1\ntext "</script><b>&<!--"\nfunc 1 0 none\nTEXTK 0 0\nPRINT 0\nRET 0\nend\nentry 0\n' >marks.asm
x10p asm marks.asm marks.x10
shows 0 marks
! grep -q '</script><b>' marks.html || fail "marks.html has a text as markup"

# what is refused writes nothing, and what can't be written is told
does 1 "" "x10p: places" x10p draw ring.x10 new.html --places 1
prints 7 >seven.txt
does 1 "" "x10p: image: Magic" x10p draw seven.txt new.html
does 4 "" "x10p: file" x10p draw ring.x10 nowhere/new.html
[ ! -e new.html ] || fail "a refused module has a page"
exit $wrong
