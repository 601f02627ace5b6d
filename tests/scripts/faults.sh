# `explain`: what docs/FAULTS.md says of each cause, from the page itself.
top="$(cd "$(dirname "$0")/../.." && pwd)"
source "$(dirname "$0")/common"

"$top/crates/x10_faults/make" --compare || fail "the texts of x10_faults aren't those of the page"

# every cause that a fault's line can have is one of the page's, whatever its letters are
causes="Word Number Count Order Label Text Limit Entry Nesting Jump LoopSlot CallOrder Atomic TooLarge Index Unset Kind Home
    Result Short Magic Version Trailing Reserved Code places limit turns refused differs open thread stop memory file usage Head Image Place Taken Key
    Frame Printed Spelling Ending FrameType Tag"
for cause in $causes; do
    [ "$cause" != stop ] || continue
    for name in "$cause" "${cause,,}" "${cause^^}"; do
        x10p explain "$name" >"$name.told" 2>.err || fail "explain $name: status $?"
        [ ! -s .err ] || fail "explain $name: $(cat .err)"
        cmp -s "$name.told" "$cause.told" || fail "explain $name isn't explain $cause"
    done
    grep -qiE "^((asm|image|verify|log|frame): |verify: Structure |stop: )?$cause\b|, and $cause\b|, and stop: $cause\b" "$cause.told" ||
        fail "explain $cause begins with $(head -n 1 "$cause.told")"
    [ "$(wc -L <"$cause.told")" -le 120 ] || fail "explain $cause has a long line"
done

# a cause that two parts of the program have is explained twice; what isn't one is a fault of usage, with the nearest name
[ "$(grep -cE '^(asm|image): (Count|Count again)\b' Count.told)" = 3 ] || fail "explain Count: $(cat Count.told)"
[ "$(grep -cE '^(verify|image): Kind\b' Kind.told)" = 2 ] || fail "explain Kind: $(cat Kind.told)"
does 3 "" .. x10p explain Kinde
grep -q "'Kind'" .err || fail "explain Kinde: $(cat .err)"
does 3 "" .. x10p explain
does 3 "" .. x10p explain Kind Home

# the programs in it are as the page has them: each does what it says
x10p explain kind | sed -n 's/^    //p' | sed '/^58/,$d; /kinds\.x10/,$d' >kind.asm
does 1 "" "x10p: verify: Kind 0 1" x10p verify kind.asm
exit $wrong
