# ci/grade: who passed what, why the others didn't, and what is said of a wrong call.
top="$(cd "$(dirname "$0")/../.." && pwd)"
source "$(dirname "$0")/common"
answers="$top/examples/answers"
grade() { "$top/ci/grade" --program "${program-x10p}" "$@"; }

# the answers, which pass
mkdir -p class/{ada,ben,cleo,dan,fay}
cp "$answers"/*.asm class/ada/
# answers with one thing changed: too few turns, the wrong register, a region that ends too soon
sed 's/LOOP 0 100/LOOP 0 99/' "$answers/03_three_or_five.asm" >class/ben/3.asm
sed 's/LOOP 0 63/LOOP 0 4/' "$answers/04_power.asm" >class/ben/4.asm
sed 's/CALL 0 1 0/CALL 0 2 0/' "$answers/05_list_sum.asm" >class/ben/5.asm
sed 's/LOOP 0 64/LOOP 0 4/' "$answers/10_around.asm" >class/ben/10.asm
sed '/ATOME/d; s/  PUT 0 2 0/  ATOME\n&/' "$answers/13_region.asm" >class/ben/13.asm
# no program, an empty text, one that only prints, one for three places at least, an AT in a region
echo 'Dear Sir' >class/cleo/3.asm
: >class/cleo/04.asm
prints 15 >class/cleo/5_sum.ASM
sed 's/places 1/places 3/' "$answers/10_around.asm" >class/cleo/10.asm
sed '/  ATOM/d; s/  AT 0 0 1 0/  ATOMB\n&\n  ATOME/' "$answers/13_region.asm" >class/cleo/13.asm
# too many lines, a run without an end in sight, a folder, two texts of one exercise, texts without a number or a folder
printf 'places 1\ntext "%060000d"\nfunc 1 1 none\nTEXTK 0 0\nLOOP 0 100\na:\nPRINT 0\nENDL 0 @a\nRET 0\nend\nentry 0\n' 0 >class/dan/3.asm
sed 's/  LOOP 0 63/  LOOP 0 60000\nagain:\n  ENDL 0 @again\n&/' "$answers/04_power.asm" >class/dan/4.asm
mkdir class/dan/5.asm
cp class/ben/10.asm class/dan/10_old.asm
cp class/ben/10.asm class/dan/10_new.asm
cp class/ben/3.asm class/dan/three.asm
cp class/ben/3.asm class/eve_3.asm

does 0 "\
          3      4      5     10     13
ada  passed passed passed passed passed
ben      no     no     no     no     no
cleo     no     no     no     no     no
dan      no     no     no     no      -
fay       -      -      -      -      -
ben, 3: run: line 1 is \`0: 2318\`, and not \`0: 2418\`
ben, 4: run: line 2 is \`0: 16\`, and not \`0: 1024\`
ben, 5: run: x10p: verify: Kind 1 7
ben, 10: run --places 5: line 1 is \`0: 6\`, and not \`0: 10\`
ben, 13: run --places 3 --seed 4: line 1 is \`0: 9\`, and not \`0: 10\`
cleo, 3: run: x10p: asm: line 1 Word
cleo, 4: run: x10p: asm: line 1 Order
cleo, 5: it has no NEW, no LOOP, no CALL
cleo, 10: run --places 1: x10p: places
cleo, 13: run --places 3: x10p: verify: Structure Atomic 1 3
dan, 3: run: it prints more than 1,000,000 bytes
dan, 4: run: x10p: limit
dan, 5: 5.asm is no ordinary file
dan, 10: there are 2 texts: 10_new.asm, 10_old.asm
not graded: eve_3.asm, in no student's folder
not graded: dan, three.asm: its name begins with no number
5 of 19 texts passed" "" grade class
does 0 "\
          3
ada  passed
ben      no
cleo     no
dan      no
fay       -
ben, 3: run: line 1 is \`0: 2318\`, and not \`0: 2418\`
cleo, 3: run: x10p: asm: line 1 Word
dan, 3: run: it prints more than 1,000,000 bytes
not graded: eve_3.asm, in no student's folder
not graded: dan, three.asm: its name begins with no number
1 of 4 texts passed" "" grade class 03

# a link to an answer, a link to another student's folder, a compiled image, a text of the wrong sort; and the same as a file
mkdir -p odd/gil odd/hal
ln -s "$answers/03_three_or_five.asm" odd/gil/3.asm
ln -s "$top/examples/answers" odd/ida
x10p asm "$answers/04_power.asm" power.x10 && mv power.x10 odd/hal/4.asm
printf 'a line\0' >odd/hal/5.asm
printf '\xff\xfe' >odd/hal/10.asm
does 0 "\
         3      4      5     10     13
gil     no      -      -      -      -
hal      -     no     no     no      -
gil, 3: 3.asm is a link
hal, 4: 4.asm is no text
hal, 5: 5.asm is no text
hal, 10: run --places 1: x10p: file
not graded: ida: it is a link
0 of 4 texts passed" "" grade --csv odd.csv odd
printf '%s\r\n' student,exercise,result,why "gil,3,no,3.asm is a link" gil,4,-, gil,5,-, gil,10,-, gil,13,-, hal,3,-, \
    "hal,4,no,4.asm is no text" "hal,5,no,5.asm is no text" "hal,10,no,run --places 1: x10p: file" hal,13,-, >wanted.csv
cmp odd.csv wanted.csv || fail "the file of results is $(cat odd.csv)"
does 2 "" "grade: none/odd.csv can't be written: No such file or directory" grade --csv none/odd.csv odd

# other checks: what has to be refused, by its cause
mkdir -p more/ada more/ben
cp class/cleo/13.asm more/ada/1.asm
cp class/ada/13_region.asm more/ben/1.asm
echo '{"1": {"checks": [{"command": "verify", "refused": "verify: Structure Atomic"}]}}' >checks.json
does 0 "\
         1
ada passed
ben     no
ben, 1: verify: it is accepted, and not verify: Structure Atomic
1 of 2 texts passed" "" grade --checks checks.json more

# programs that stand for x10p: one that prints something else in its third random order, and one that doesn't end
cat >third <<'END'
#!/bin/sh
case "$*" in
--version) echo x10p 0.0.0 ;;
*--seed\ 3) echo 0: 3 ;;
*) echo 0: 7 ;;
esac
END
cat >endless <<'END'
#!/bin/sh
[ "$1" = --version ] && echo x10p 0.0.0 && exit
[ "$*" = "run -" ] && echo 0: 7 && exit
exec sleep 60
END
cat >broken <<'END'
#!/bin/sh
[ "$1" = --version ] && echo x10p 0.0.0 && exit
echo "x10p: stop: Memory" >&2
exit 2
END
chmod +x third endless broken
echo '{"1": {"checks": [{"command": "run", "prints": ["0: 7"]}]}}' >checks.json
rm -r more/ben
program=./third does 0 "\
         1
ada     no
ada, 1: run --seed 3: line 1 is \`0: 3\`, and not \`0: 7\`
0 of 1 texts passed" "" grade --checks checks.json more
program=./endless does 0 "\
         1
ada     no
ada, 1: run: it hadn't ended after 0.2 seconds
0 of 1 texts passed" "" grade --checks checks.json --seconds 0.2 more

# a text that prints what it should, without the region that it should have
echo '{"1": {"region": ["GET", "PUT"], "checks": [{"command": "run", "prints": ["0: 7"]}]}}' >checks.json
prints 7 >more/ada/1.asm
does 0 "\
         1
ada     no
ada, 1: it has no atomic region with GET and PUT
0 of 1 texts passed" "" grade --checks checks.json more

# wrong calls: one line each, and status 2
mkdir none
does 2 "" "grade: nowhere: No such file or directory" grade nowhere
does 2 "" "grade: checks.json: Not a directory" grade checks.json
does 2 "" "grade: none has no text to grade, such as none/NAME/3.asm" grade none
does 2 "" "grade: exercise 7 has no checks; these have: 3, 4, 5, 10, 13" grade class 7
does 2 "" .. grade
program=nowhere does 2 "" .. grade class
grep -q "^grade: there is no program .*/nowhere: make it by ./build" .err || fail "of no program it told $(cat .err)"
program=/bin/echo does 2 "" "grade: /bin/echo isn't x10p" grade class
program=./broken does 2 "" .. grade class
grep -q "^grade: .*broken can't run a program that prints 7: x10p: stop: Memory$" .err || fail "of a program that can't run it told $(cat .err)"
does 2 "" .. grade --seconds 0 class
if [ -c /dev/full ]; then
    grade class 3 2>.err >/dev/full
    [ $? = 2 ] && grep -q "^grade: the table can't be written: " .err || fail "to /dev/full: it told $(cat .err)"
fi
echo '{"3": {"checks": [{"command": "run --place 3", "prints": []}]}}' >checks.json
does 2 "" .. grade --checks checks.json class
grep -q "^grade: a check calls .x10p run - --place 3 .*, which isn't a command: " .err || fail "of a wrong option it told $(cat .err)"
for checks in '' '[]' '{"1": {"checks": [{"command": "rm", "prints": []}]}}' '{"1": {"checks": [{"command": "run"}]}}'; do
    echo "$checks" >checks.json
    does 2 "" .. grade --checks checks.json class
    [ "$(wc -l <.err)" = 1 ] && grep -q '^grade: checks.json' .err || fail "of the checks $checks it told $(cat .err)"
done
exit $wrong
