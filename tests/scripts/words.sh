# Words of the command line: those that aren't UTF-8, numbers with a minus sign, help and the version.
source "$(dirname "$0")/common"
prints 7 >seven.asm
x10p asm seven.asm seven.x10
bad=$'\xff\xfe.x10'
cp seven.x10 "$bad"

# a word that isn't UTF-8 is a usage fault, wherever it stands, and is told as such
for words in "run $bad" "verify $bad" "asm seven.asm $bad.new" "asm $bad new.x10" "run seven.x10 $bad" "$bad"; do
    does 3 "" .. x10p $words
    grep -q "isn't UTF-8" .err || fail "x10p $words: it told $(cat .err)"
done
[ ! -e "$bad.new" ] && [ ! -e new.x10 ] || fail "a usage fault has written a file"
# what is UTF-8 is a name, whatever its letters
cp seven.x10 'sieben ü 七.x10'
does 0 "0: 7" "" x10p run 'sieben ü 七.x10'

# a number with a minus sign is out of range, and nothing else is proposed
for words in "run seven.x10 --places -1" "run seven.x10 --limit -5" "trace seven.x10 --places -9223372036854775809"; do
    does 3 "" .. x10p $words
    grep -q "invalid value '-[0-9]*' for '--" .err || fail "x10p $words: it told $(cat .err)"
    ! grep -q -e "-- -" -e "tip:" .err || fail "x10p $words: it proposes $(cat .err)"
done

# each help has an example that runs, and the statuses
doubles=examples/doubles.asm
mkdir examples
prints 5 >"$doubles"
cp seven.x10 examples/
for command in "" asm list check verify bounds frame run audit trace draw explain; do
    x10p $command --help >.help 2>.err || fail "x10p $command --help: status $?"
    grep -q "Exit status:" .help && grep -q "  4  " .help || fail "the help of x10p $command has no statuses"
    grep "^  x10p " .help >.examples || fail "the help of x10p $command has no example"
    while read -r _ words; do
        # what was in a run is told on standard error
        [[ " $words " == *" --stats "* ]] && said=.. || said=""
        does 0 "$(x10p $words 2>/dev/null)" "$said" x10p $words
    done <.examples
done
# the help of `help` is the program's
does 0 "$(x10p --help)" "" x10p help --help
does 0 "$(x10p --help)" "" x10p help -h
does 0 "$(x10p --help)" "" x10p help

# options that are right one by one, and don't go together: it is said which
told() {
    local what=$1
    shift
    does 3 "" .. x10p "$@"
    grep -qF -e "$what" .err || fail "x10p $*: it told $(cat .err)"
}
for schedule in rounds oldest newest; do
    told "--seed is for a random schedule alone" run seven.x10 --seed 1 --schedule $schedule
done
told "'--threads' cannot be used with '--seed <N>'" run seven.x10 --threads --seed 1
told "'--threads' cannot be used with '--schedule <ORDER>'" run seven.x10 --threads --schedule random
told "'--json' cannot be used with '--verbose'" list seven.x10 --json --verbose
told "--stats" run seven.x10 --verbose
told "--verbose is for a run with --stats alone" run seven.x10 --verbose --threads

does 0 "$(x10p --version)" "" x10p -V
x10p --version | grep -qx 'x10p [0-9]*\.[0-9]*\.[0-9]*' || fail "the version is $(x10p --version)"
exit $wrong
