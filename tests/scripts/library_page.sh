# What docs/LIBRARY.md shows of programs stands in a program that is run: in Rattle, C or Python. The images of those in Rattle are
# those of the examples, and their lines those of the program.
top="$(cd "$(dirname "$0")/../.." && pwd)"
source "$(dirname "$0")/common"

# shows CRATE EXAMPLE WORDS ..: the crate's image is that of the example, whose lines by `x10p run` with these words it prints
shows() {
    local crate="$top/crates/$1" name=$2
    shift 2
    x10p asm "$top/examples/$name.asm" "$name.x10"
    same "$name.x10" "$crate/data/$name.x10"
    x10p run "$name.x10" "$@" >lines
    head -n "$(wc -l <lines)" "$crate/stdout" >printed
    same lines printed
}
shows embed_run remote_counter
shows embed_threads hello --places 4
x10p asm "$top/examples/ping_pong.asm" ping_pong.x10
same ping_pong.x10 "$top/crates/embed_world/data/ping_pong.x10"
# it shows each event of the run that does something, and then that the run has ended
events="$(x10p trace ping_pong.x10 | grep -c '^[SD] ')"
[ "$(wc -l <"$top/crates/embed_world/stdout")" -eq $((events + 1)) ] || fail "embed_world shows not $events events"

python3 - "$top" <<'PY' || wrong=1
import re, sys
from pathlib import Path
top = Path(sys.argv[1])

# in which files the parts in each language have to stand, and how many there are
FILES = {"rust": ("crates/embed_*/src/main.rt", 4), "c": ("examples/embed/*.c", 2), "python": ("examples/embed/tour.py", 2)}

def plain(text):
    return "".join(f"{line.strip()}\n" for line in text.splitlines() if line.strip())

page = (top / "docs/LIBRARY.md").read_text(encoding="utf-8")
wrong = False
for language, (files, count) in FILES.items():
    programs = [plain(it.read_text(encoding="utf-8")) for it in sorted(top.glob(files))]
    blocks = re.findall(rf"(?ms)^```{language}\n(.*?)^```$", page)
    # a part may have pieces, with an empty line between them
    lost = [it for block in blocks for it in block.split("\n\n") if not any(plain(it) in program for program in programs)]
    for it in lost:
        print(f"docs/LIBRARY.md shows what stands in no program:\n{it}")
    wrong = wrong or bool(lost) or len(blocks) != count
sys.exit(wrong)
PY
exit $wrong
