# The files for editors read what `x10p check` prints: the fault's file, its line and what is said of it.
top="$(cd "$(dirname "$0")/../.." && pwd)"
source "$(dirname "$0")/common"

# two faults of a text, and two of a module
printf '; a text\n\nplaces 1\nint 7\nfunc 1 0 none\n  PRNT 0\n  INTK 0\n  RET 0\nend\nentry 0\n' >text.asm
printf 'places 1\nfunc 1 0 none\n  PRINT 0\n  RET 0\nend\nfunc 1 0 none\n  RET 1\nend\nentry 1\n' >module.asm
for name in text module; do
    x10p check $name.asm >.out 2>&1
    sed "s|^|$PWD/$name.asm: |" .out >$name.told
done

# finds EDITOR FAULTS: what an editor found
finds() {
    [ "$2" = "text.asm 6 \`PRNT\` isn't an instruction. Did you mean PRINT?
text.asm 7 A word is missing: the number of a constant.
module.asm 3 PRINT asks that r0 is int or text; r0 isn't set.
module.asm 7 RET has no result here, so its first number is 0; it is 1." ] || fail "$1 finds $2"
}

# the matchers of VS Code: one line for a text, three for a module; which texts it takes
finds "VS Code" "$(python3 - "$top/editors/vscode" <<'PY'
import json, os, re, sys
package = json.load(open(sys.argv[1] + "/package.json"))["contributes"]
patterns = {it["name"]: it["pattern"] for it in package["problemMatchers"]}
def found(pattern, lines):
    parts = {}
    for one, line in zip(pattern, lines):
        it = re.search(one["regexp"], line)
        if not it:
            return None
        parts.update({part: it[number] for part, number in one.items() if part != "regexp"})
    return parts
for name in ("text", "module"):
    lines = open(name + ".told").read().split("\n")
    pattern = patterns["x10p-" + name]
    pattern = pattern if isinstance(pattern, list) else [pattern]
    for number in range(len(lines)):
        it = found(pattern, lines[number:])
        if it and os.path.isabs(it["file"]):
            # in a text the explanation is two lines below
            told = it["message"] if name == "module" else lines[number + 2].split(": ", 1)[1]
            print(os.path.basename(it["file"]), it["line"], told)
first = package["languages"][0]["firstLine"]
grammar = json.load(open(sys.argv[1] + "/syntaxes/x10asm.tmLanguage.json"))
assert grammar["firstLineMatch"] == first, "the grammar has another first line"
for line, is_taken in {"places 2": 1, "version 2": 1, "; $ x10p run seven.x10": 1, "; places": 0, "places": 0, "mov eax, 1": 0}.items():
    assert bool(re.search(first, line)) == bool(is_taken), line
PY
)"

# Vim, where there is one that reads scripts
if vim --version 2>/dev/null | grep -q '+eval'; then
    cat >look.vim <<'END'
compiler x10p
silent make!
let faults = filter(getqflist(), 'v:val.valid')
call writefile([&filetype], 'filetype')
call writefile(map(faults, 'bufname(v:val.bufnr) . " " . v:val.lnum . " " . split(v:val.text, "\n")[1]'), 'faults', 'a')
qa!
END
    for name in text module; do
        HOME=$PWD vim -N -es -u NONE -i NONE --cmd "set rtp^=$top/editors/vim" --cmd 'filetype plugin on' -S look.vim $name.asm >.out 2>&1
        [ "$(cat filetype)" = x10asm ] || fail "Vim takes $name.asm for $(cat filetype)"
    done
    finds Vim "$(cat faults)"
    echo 'mov eax, 1' >other.asm
    HOME=$PWD vim -N -es -u NONE -i NONE --cmd "set rtp^=$top/editors/vim" --cmd 'filetype plugin on' -S look.vim other.asm >.out 2>&1
    [ "$(cat filetype)" != x10asm ] || fail "Vim takes a text of another assembler"
fi
exit $wrong
