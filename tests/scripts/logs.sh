# The log of a run with threads: written whole or not at all, and made again by an audit, which prints the same lines. What was
# changed in it is refused, or is another run. A trace and a picture show it.
top="$(cd "$(dirname "$0")/../.." && pwd)"
source "$(dirname "$0")/common"

# twenty runs of examples: the lines are printed again, and where the run was stopped its log is that of an open one, or ended
# with the last turn that was permitted
runs=0
for file in "$top"/examples/{any_order,fan_out,graph,ping_pong,ring,sieve,round_trip,sum_over_places,transfers,woken_after_report}.asm; do
    name="$(basename "$file" .asm)"
    x10p asm "$file" "$name.x10"
    for limit in 20000 9; do
        runs=$((runs + 1))
        x10p run "$name.x10" --threads --limit $limit --log "$name.log" >.printed 2>.told
        status=$?
        [ $status = 0 ] || [ "$(cat .told)" = "x10p: turns" ] || fail "$name: status $status: $(cat .told)"
        [ -s "$name.log" ] || fail "$name: there is no log"
        if [ $status = 0 ]; then
            does 0 "$(head -c 2000 .printed)" "" x10p audit "$name.x10" "$name.log"
            does 0 "" "" "$top/tests/scripts/logs_traced" ./x10p "$name.x10" "$name.log"
            does 0 "" "" x10p draw "$name.x10" "$name.svg" --log "$name.log"
            [ "$(head -c 5 "$name.svg")" = "<?xml" ] || fail "$name.svg begins with $(head -c 40 "$name.svg")"
        else
            x10p audit "$name.x10" "$name.log" >.audited 2>.refused
            [ "$?:$(cat .refused)" = "1:x10p: open" ] || cmp -s .printed .audited || fail "$name, $limit turns: $(cat .refused)"
        fi
    done
done
[ $runs = 20 ] || fail "there were $runs runs"
rm ./*.x10 ./*.log ./*.svg

# more of them, and of other modules, at up to 64 places
"$top/tests/soak" --runs 40 --traced 2 --jobs 2 ./x10p "$top/tests/activities" >.told || fail "$(tail -n 5 .told)"

prints 7 >seven.asm
prints 8 >eight.asm
x10p asm seven.asm seven.x10
x10p asm eight.asm eight.x10
does 0 "0: 7" "" x10p run seven.x10 --threads --log seven.log
does 0 "0: 8" "" x10p run eight.asm --threads --places 3 --log eight.log
[ "$(sed -n 2p seven.log)" = "image $(sha256sum <seven.x10 | cut -d ' ' -f 1)" ] || fail "the digest is $(sed -n 2p seven.log)"
[ "$(sed -n 3p eight.log)" = "places 3" ] || fail "the places are $(sed -n 3p eight.log)"
does 0 '{"place":0,"number":8}' "" x10p audit eight.asm eight.log --json
only seven.asm eight.asm seven.x10 eight.x10 seven.log eight.log

# where the run was refused there is no log; where it can't be written the lines are there, and what was there stays
sed 's/^places 1/places 2/' seven.asm >two.asm
does 1 "" "x10p: places" x10p run two.asm --threads --places 1 --log none.log
printf 'places 1\nfunc 1 0 none\nASYNC 0 0\nRET 0\nend\nentry 0\n' >endless.asm
cp seven.log kept.log
(
    trap '' XFSZ
    ulimit -f 8
    does 4 "" "x10p: file" x10p run endless.asm --threads --limit 200 --log kept.log
    does 4 "" "x10p: file" x10p run endless.asm --threads --limit 200 --log none.log
    exit $wrong
) || wrong=1
same kept.log seven.log
does 4 "0: 7" "x10p: file" x10p run seven.x10 --threads --log nowhere/seven.log
# nothing is written over a text, or over what is read
does 4 "" "x10p: file" x10p run seven.x10 --threads --log eight.asm
does 4 "" "x10p: file" x10p run seven.x10 --threads --log seven.x10
does 0 "0: 8" "" x10p run eight.asm
does 0 "0: 7" "" x10p run seven.x10
only seven.asm eight.asm two.asm endless.asm seven.x10 eight.x10 seven.log eight.log kept.log
# a pipe or a device is written to directly
does 0 "$(printf '0: 7\nx10 log 1')" "" bash -c 'x10p run seven.x10 --threads --log /dev/stdout | head -n 2'

# a log of another image, a file that isn't there, a file that isn't one, and one that is refused whatever follows
does 1 "" "x10p: log: line 2 Image" x10p audit eight.x10 seven.log
does 1 "" "x10p: log: line 1 Head" x10p audit seven.x10 seven.asm
does 1 "" "x10p: log: line 1 Head" x10p audit seven.x10 seven.x10
does 1 "" "x10p: log: line 1 Head" x10p audit seven.x10 /dev/zero
does 1 "" "x10p: log: line 1 Head" x10p audit seven.x10 /dev/null
does 4 "" "x10p: file" x10p audit seven.x10 nowhere.log
does 4 "" "x10p: file
nowhere.log can't be read: No such file or directory (os error 2)." x10p audit seven.x10 nowhere.log --explain
printf '\377' | cat seven.log - >bad.log
does 4 "" "x10p: file
bad.log isn't UTF-8." x10p audit seven.x10 bad.log --explain
sed 's/^places 1/places 65/' seven.log >bad.log
does 1 "" "x10p: log: line 3 Place" x10p audit seven.x10 bad.log
x10p asm two.asm two.x10
sed "2s/.*/image $(sha256sum <two.x10 | cut -d ' ' -f 1)/" seven.log >bad.log
does 1 "" "x10p: places
The module asks for 2 places at least; bad.log has fewer." x10p audit two.x10 bad.log --explain
# the image is looked at first
does 1 "" "x10p: image: Magic" x10p audit seven.log seven.x10

# at one place a run with threads has the events of rounds: the lines and the picture are the same
x10p trace seven.x10 >rounds.txt
does 0 "$(cat rounds.txt)" "" x10p trace seven.x10 --log seven.log
does 0 "" "" x10p draw seven.x10 rounds.svg
does 0 "" "" x10p draw seven.x10 log.svg --log seven.log
same rounds.svg log.svg
# what an audit refuses is refused so, nothing is printed, and no picture is written
does 1 "" "x10p: log: line 2 Image" x10p trace eight.x10 --log seven.log
does 1 "" "x10p: log: line 2 Image" x10p draw eight.x10 none.svg --log seven.log
head -n 3 seven.log >bad.log
does 1 "" "x10p: open" x10p trace seven.x10 --log bad.log
does 1 "" "x10p: open
No turn of bad.log differs, but the run isn't over after the last: it was stopped, or turns are missing." \
    x10p draw seven.x10 none.svg --log bad.log --explain
sed 's/=7/=8/' seven.log >bad.log
does 1 "" "x10p: differs: turn 0" x10p trace seven.x10 --log bad.log
does 1 "" "x10p: differs: turn 0" x10p draw seven.x10 none.svg --log bad.log
does 4 "" "x10p: file" x10p trace seven.x10 --log nowhere.log
[ ! -e none.svg ] || fail "a refused log has a picture"
# the log is not written over
cp seven.log kept.log
does 4 "" "x10p: file
kept.log is the log, which nothing is written over." x10p draw seven.x10 kept.log --log kept.log --explain
same kept.log seven.log
# the log says the places and the events
for words in "--places 1" "--limit 1000000" "--limit 9" "--schedule rounds" "--seed 1" --threads --json; do
    does 3 "" .. x10p trace seven.x10 --log seven.log $words
    does 3 "" .. x10p draw seven.x10 none.svg --log seven.log $words
done

# each change of a field of a log
"$top/tests/scripts/logs_changed" x10p "$top/examples/moved.asm" "$top/examples/hello.asm" >told || {
    cat told
    wrong=1
}
exit $wrong
