# The greatest limit of a run: what the option takes, what `check` compares main's bound with. And a run that stops since memory
# ends: who lived then is told, by a run that is made once more and stops alike.
source "$(dirname "$0")/common"

# the most steps that main may take is 1000000000, and one more for each instruction more; the other function may take more
module() {
    printf 'places 1\nint 7\nfunc 1 2 none\nLOOP 0 65535\nLOOP 1 65535\nENDL 1 2\nENDL 0 1\nRET 0\nend\n'
    printf 'func 1 2 none\nLOOP 0 16665\nLOOP 1 60004\nENDL 1 2\nENDL 0 1\n'
    for _ in $(seq "$1"); do echo "INTK 0 0"; done
    printf 'RET 0\nend\nentry 1\n'
}
module 8 >at.asm
module 9 >above.asm

most="$(x10p run --help | sed -n 's/.*How many events at most, 1 to \([0-9]*\).*/\1/p')"
does 0 "0 4294967297
1 $most" "" x10p check at.asm
does 0 "0 4294967297
1 $((most + 1))" "" x10p check above.asm
prints 7 >seven.asm
does 0 "0: 7" "" x10p run seven.asm --limit "$most"
does 3 "" .. x10p run seven.asm --limit "$((most + 1))"
does 0 '{"file":"at.asm","verified":true,"bounds":[4294967297,1000000000],"above_limit":false,"faults":[]}' "" x10p check at.asm --json
does 0 '{"file":"above.asm","verified":true,"bounds":[4294967297,1000000001],"above_limit":true,"faults":[]}' "" x10p check above.asm --json

printf 'places 1\nclass opt:0\nfunc 3 2 none\nNULL 0 0\nLOOP 0 65535\nLOOP 1 65535\nNEW 0 0 0\nENDL 1 3\nENDL 0 2\nRET 0\nend\nentry 0\n' >grow.asm
does 2 "" .. bash -c "ulimit -v 60000; x10p run --explain grow.asm --limit $most"
told="$(grep -v '^The system gave no memory\|^Idle events: 0 of [0-9]*\.$' .err)"
[ "$told" = "x10p: stop: Memory
Who lives then:
  main at place 0: function 0, instruction 3 (NEW), line 7
Activities that can move: 1 of 1." ] || fail "a run without memory told $told"
exit $wrong
