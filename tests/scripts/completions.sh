# Completions and the page of the manual: they are what completions/make writes from the help, and shells and readers of such
# pages take them.
top="$(cd "$(dirname "$0")/../.." && pwd)"
source "$(dirname "$0")/common"

mkdir made more
"$top/completions/make" x10p made || exit 1
for file in made/*; do
    cmp -s $file "$top/completions/${file#made/}" ||
        fail "completions/${file#made/} isn't what completions/make writes: call it, and look at what changed"
done

# completes OFFERED WORD ..: what bash offers for the last word
completes() {
    local offered=$1 found
    shift
    COMP_WORDS=(x10p "$@")
    COMP_CWORD=$#
    _x10p
    found="$(printf '%s\n' "${COMPREPLY[@]}" | LC_ALL=C sort -u | tr '\n' ' ')"
    [ "${found% }" = "$offered" ] || fail "after x10p $* bash offers $found, and not $offered"
}

# the words that begin with a hyphen where the help has options
options() {
    grep -oE '^ {2,6}(-., )?--[a-z-]+' | grep -oE -- '-[A-Za-z-]+' | LC_ALL=C sort -u | tr '\n' ' '
}

source made/x10p.bash
mkdir folder
touch 1.asm '2 b.asm' 3.x10 4.svg 5.txt
commands="$(x10p --help | sed -n '/^Commands:/,/^$/s/^  \([a-z]*\) .*/\1/p')"
completes "$(LC_ALL=C sort <<<"$commands" | tr '\n' ' ' | sed 's/ $//')" ''
completes "verify" ver
completes "$(x10p --help | options | sed 's/ $//')" -
for command in $commands; do
    offered="$(x10p help $command | options)"
    completes "${offered% }" $command -
done
completes "--threads" run 1.asm --thr
completes "" trace 1.asm --thr
# an option is given once, and a value may stand behind `=`
completes "" run --explain --exp
completes "" run --places ''
completes "" run --limit = ''
completes "--places" run --limit = 5 --pl
images="1.asm 2 b.asm 3.x10 folder made more"
for command in list verify bounds run trace draw check asm; do
    completes "$images" $command ''
done
completes "$images" asm 1.asm ''
completes "$images" run --places 4 ''
completes "$images" run --places = 4 --explain ''
completes "$images" run -- ''
completes "2 b.asm" run 2
completes "4.svg folder made more" draw 3.x10 --limit 5 ''
completes "" draw - 5
completes "--explain" verify 1.asm --e
# where there is no argument more, options are offered
completes "--color --explain --help --json -h" check 1.asm ''
# a value that may be left out stands behind `=`
completes "no yes" run --explain = ''
completes "--places" run --explain = yes --pl
completes "always auto never" verify --color ''
completes "Kind" explain Ki
completes "" check -- 1.asm ''
completes "list" help li
completes "" help list ''
completes "" walk ''

# a program with options more, which are named nowhere but in its help
cat >with_more <<'END_OF_PROGRAM'
#!/bin/sh
x10p "$@" | sed '/^ *--limit /i\
      --order <ORDER>  In which order [default: first] [possible values: first, last]\
  -m, --mark <N>\
          Which one'
END_OF_PROGRAM
chmod +x with_more
"$top/completions/make" with_more more || exit 1
source more/x10p.bash
completes "--order" run --o
completes "--mark" run --order first --m
completes "first last" run --order ''
completes "last" draw --order = l
completes "" trace -m ''
completes "$images" trace -m 5 --order last ''

for made in made more; do
    if zsh --version >/dev/null 2>&1; then
        zsh -n $made/_x10p >told 2>&1 && [ ! -s told ] || fail "zsh: $(cat told)"
    fi
    if groff --version >/dev/null 2>&1; then
        groff -K utf8 -T utf8 -man -ww $made/x10p.1 >page 2>told && [ -s page ] && [ ! -s told ] || fail "groff: $(cat told)"
    fi
    # which also warns that the page has no date
    if type -P mandoc >/dev/null; then
        mandoc -T lint -W error $made/x10p.1 >told 2>&1 || fail "mandoc: $(cat told)"
    fi
done
exit $wrong
