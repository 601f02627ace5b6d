# JSON: what `check`, `list` and `run` print with --json of the examples and of every fifth test, read by another program, which
# compares it with docs/json.schema.json and with what they print without the option. For all tests, or for random modules, call
# that program, json_agrees, by hand.
top="$(cd "$(dirname "$0")/../.." && pwd)"
source "$(dirname "$0")/common"

# texts under names of their own, without those whose pieces tests/run writes out; and the images of some
mkdir texts
number=0
while read -r file; do
    [[ $file == examples/* || $((++number % 5)) = 0 ]] || continue
    grep -q '{{' "$top/$file" || cp "$top/$file" "texts/${file//\//-}"
done < <(cd "$top" && find examples tests -name '*.asm' | sort)
for file in texts/examples-*.asm texts/tests-refused-*.asm; do
    x10p asm "$file" "${file%.asm}.x10" 2>/dev/null
done
"$top/tests/scripts/json_agrees" x10p texts/* >told || {
    cat told
    exit 1
}
[ "$(ls texts | wc -l)" -ge 120 ] || fail "there are only $(ls texts | wc -l) texts and images"

# a line for each line of a place, whatever the text holds
cat >forged.asm <<'END'
places 2
int -9223372036854775808
text "a\n1: b\\ \"c\""
func 1 0 none
  TEXTK 0 0
  PRINT 0
  RET 0
end
func 2 0 none
  INTK 0 0
  PRINT 0
  PLACEK 1 1
  ATA 0 1 0
  RET 0
end
entry 1
END
does 0 '{"place":0,"number":-9223372036854775808}
{"place":1,"text":"a\n1: b\\ \"c\""}' "" x10p run forged.asm --json
does 0 '{"place":0,"number":-9223372036854775808}
{"place":1,"text":"a\n1: b\\ \"c\""}' "" x10p run forged.asm --json --threads
does 2 '{"place":0,"number":-9223372036854775808}' "x10p: limit" x10p run forged.asm --json --limit 3
does 3 "" .. x10p list forged.asm --json --verbose
for verb in asm verify bounds trace draw; do
    does 3 "" .. x10p $verb forged.asm --json
done
x10p check - --json <forged.asm | grep -q '^{"file":"Standard input","verified":true,' || fail "standard input as JSON"
exit $wrong
