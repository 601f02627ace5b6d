# What is different at a terminal: faults are explained by themselves, and in colors.
source "$(dirname "$0")/common"
prints 7 >seven.asm
printf 'places 1\nfunc 1 0 none\n  HERE 0\n  PRINT 0\n  RET 0\nend\nentry 0\n' >kind.asm

# at COLUMN STREAM WORD ..: runs x10p where one stream, 1 or 2, is a terminal; prints what came there, with the escape as `\e`
cat >at <<'PY'
import os, pty, subprocess, sys
stream, words = int(sys.argv[1]), sys.argv[2:]
leader, follower = pty.openpty()
streams = {1: subprocess.DEVNULL, 2: subprocess.DEVNULL, stream: follower}
ran = subprocess.Popen(words, stdin=subprocess.DEVNULL, stdout=streams[1], stderr=streams[2])
os.close(follower)
told = b""
try:
    while part := os.read(leader, 65536):
        told += part
except OSError:
    pass
ran.wait()
sys.stdout.write(told.decode().replace("\r\n", "\n").replace("\x1b", "\\e"))
PY
at() { python3 at "$@"; }
# is NAME TEXT WANTED
is() { [ "$2" = "$3" ] || fail "$1: $2"; }
unset NO_COLOR
export TERM=xterm

line="x10p: verify: Kind 0 1"
told="kind.asm:4:3: Kind, function 0, instruction 1: PRINT 0
PRINT asks that r0 is int or text; r0 is place.
r0 was written last in line 3: HERE 0
Put \`PLACEI 0 0\` before it, which makes the number of a place."
red='\e[1;31m' bold='\e[1m' green='\e[1;32m' plain='\e[0m'
colored="$red$line$plain
${bold}kind.asm:4:3$plain${told#kind.asm:4:3}"

# elsewhere it is the line, on a terminal the explanation too
does 1 "" "$line" x10p run kind.asm
does 1 "" "$line
$told" x10p run kind.asm --explain
does 1 "" "$line
$told" x10p run kind.asm --explain=yes
does 1 "" "$line" x10p run kind.asm --explain=no
is "at a terminal" "$(at 2 x10p run kind.asm)" "$colored"
is "with --explain=no" "$(at 2 x10p run kind.asm --explain=no)" "$red$line$plain"
is "with NO_COLOR" "$(NO_COLOR=1 at 2 x10p run kind.asm)" "$line
$told"
is "with an empty NO_COLOR" "$(NO_COLOR= at 2 x10p run kind.asm)" "$colored"
is "with TERM=dumb" "$(TERM=dumb at 2 x10p run kind.asm)" "$line
$told"
is "with --color never" "$(at 2 x10p run kind.asm --color never)" "$line
$told"
is "with --color always" "$(NO_COLOR=1 TERM=dumb at 2 x10p run kind.asm --color always)" "$colored"
is "where output alone is a terminal" "$(at 1 x10p run kind.asm)" ""
x10p run kind.asm --explain --color always 2>&1 >.out | sed 's/\x1b/\\e/g' >.told
is "in a pipe with --color always" "$(cat .told)" "$colored"
does 0 "0: 7" "" x10p run seven.asm
is "a run at a terminal" "$(at 1 x10p run seven.asm)" "0: 7"
is "a good run's standard error" "$(at 2 x10p run seven.asm)" ""

# marks beneath a word
printf 'places 1\nint x\n' >marks.asm
does 1 "" .. x10p asm marks.asm marks.x10 --explain --color always
grep -qF "$(printf '\033[1;32m')" .err && grep -qE '\^' .err || fail "the marks have no color: $(cat -v .err)"

# a check of a good file, in words at a terminal
does 0 "0 3" "" x10p check seven.asm
is "a check at a terminal" "$(at 1 x10p check seven.asm)" "function 0: at most 3 steps"
printf 'places 1\nfunc 1 2 none\nLOOP 0 65535\nLOOP 1 65535\nENDL 1 2\nENDL 0 1\nRET 0\nend\nentry 0\n' >above.asm
is "a bound above the limit at a terminal" "$(at 1 x10p check above.asm)" "function 0: at most 4294967297 steps; --limit permits 1000000000 events at most"
is "a refused check at a terminal" "$(at 1 x10p check kind.asm)" "${bold}Kind, function 0, instruction 1$plain: PRINT 0
line 4:   PRINT 0
PRINT asks that r0 is int or text; r0 is place.
r0 was written last in line 3: HERE 0
Put \`PLACEI 0 0\` before it, which makes the number of a place."
for word in --color=blue --explain=perhaps; do
    does 3 "" .. x10p run seven.asm $word
done
exit $wrong
