# What `trace --verbose` prints is the trace with notes behind the lines of each event: they begin with two spaces, and without them
# it is the trace, whatever the schedule, at a limit, and of a log.
top="$(cd "$(dirname "$0")/../.." && pwd)"
source "$(dirname "$0")/common"

# each event has notes behind its lines: the first line that isn't so
without_notes() {
    awk '/^  / { noted = 1; next }
        /^P / { if (noted) { print; exit }; next }
        /^[SD-] / { if (NR > 1 && !noted) { print; exit }; noted = 0; next }
        { print; exit }
        END { if (NR && !noted) print "the last event" }' "$1"
}

# compares IMAGE WORD ..: the trace of an image and the one with notes
compares() {
    local status found
    x10p trace "$@" >plain 2>plain.err
    status=$?
    x10p trace --verbose "$@" >noted 2>noted.err
    found=$?
    [ "$found" -eq "$status" ] || fail "trace --verbose $*: status $found, and not $status"
    same plain.err noted.err
    grep -v '^ ' noted >lines
    cmp -s plain lines || fail "trace --verbose $* has other lines than the trace: $(diff plain lines | head -n 3)"
    [ -z "$(without_notes noted)" ] || fail "trace --verbose $*: no notes at: $(without_notes noted)"
}

for example in round_trip ring fan_out nested fib; do
    x10p asm "$top/examples/$example.asm" "$example.x10" || fail "$example: status $?"
    compares "$example.x10" --limit 20000
    compares "$example.x10" --schedule random --seed 7 --limit 20000
    compares "$example.x10" --schedule newest --limit 7
    compares "$example.x10" --from 3 --to 40 --limit 20000
    x10p run "$example.x10" --threads --log "$example.log" --limit 2000 >.out 2>.err
    [ "$?" -ne 0 ] || compares "$example.x10" --log "$example.log"
done

# shows FROM TO WORD ..: with --from and --to the lines of those events alone, with their notes
shows() {
    local from=$1 to=$2
    shift 2
    compares "$@" --from "$from" --to "$to"
    x10p trace --verbose "$@" 2>/dev/null | awk -v from="$from" -v to="$to" '/^[SD-] / { n++ } n >= from && n <= to' >wanted
    cmp -s noted wanted || fail "trace --verbose $* --from $from --to $to: $(diff wanted noted | head -n 3)"
}

for example in ring fan_out; do
    shows 1 1 "$example.x10"
    shows 20 60 "$example.x10"
    shows 33 33 "$example.x10" --schedule random --seed 7
    shows 5 9 "$example.x10" --log "$example.log"
    compares "$example.x10" --from 100000
    [ ! -s noted ] || fail "$example.x10: events behind its last one"
done
# the run goes no further than --to, and --limit counts what isn't shown
compares ring.x10 --from 30 --to 30 --limit 30
[ "$(grep -c '^[SD-] ' plain)" -eq 1 ] || fail "ring.x10: not the event 30 alone"
compares ring.x10 --from 30 --limit 40
[ "$(grep -c '^[SD-] ' plain)" -eq 11 ] || fail "ring.x10: not the events 30 to 40"
does 2 "" "x10p: limit" x10p trace ring.x10 --from 30 --limit 20

# what is refused is refused as without it
prints 7 >seven.txt
does 1 "" "x10p: image: Magic" x10p trace --verbose seven.txt
does 1 "" "x10p: places" x10p trace --verbose ring.x10 --places 1
exit $wrong
