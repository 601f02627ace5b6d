# `runs` prints what runs by the same seeds print one by one: each different output once, in the order in which they come first,
# how often it came and by which seed first, and whether these runs ended. A limit at which some runs are cut is among the cases.
top="$(cd "$(dirname "$0")/../.." && pwd)"
source "$(dirname "$0")/common"

python3 - "$top" <<'PY' || wrong=1
import subprocess, sys
from pathlib import Path
tests = Path(sys.argv[1], "tests")
SEEDS = 30

def told(*words):
    """A command's status, and what it prints."""
    done = subprocess.run(["x10p", *words], capture_output=True)
    return done.returncode, done.stdout

def one_by_one(path, words):
    """What `runs` has to print, by runs one by one."""
    found = {}
    for seed in range(1, SEEDS + 1):
        status, output = told("run", path, *words, "--seed", str(seed))
        found.setdefault((output, status), []).append(seed)
    text = b""
    for (output, status), seeds in found.items():
        many = f"{len(seeds)} of {SEEDS} runs, the first by seed {seeds[0]}"
        often = f"same output in all {SEEDS} runs" if len(seeds) == SEEDS else many
        text += f"{often}{', at the limit:' if status else ':'}\n".encode() + output
    return text

status = outputs = limits = 0
for path in [*sorted((tests / "schedules").glob("*.asm")), *sorted((tests / "atomic").glob("*.asm"))]:
    for words in ([], ["--limit", "9"], ["--limit", "30"]):
        code, text = told("runs", str(path), *words, "--seeds", str(SEEDS))
        wanted = one_by_one(str(path), words)
        outputs += text.count(b" of 30 runs") > 1
        limits += b"at the limit" in text
        if (code, text) != (0, wanted):
            print(f"{path.name} {' '.join(words)}: status {code}, and {text[:200]} in place of {wanted[:200]}")
            status = 1
if not outputs or not limits:
    print("no program here has several outputs, or none is at a limit")
    status = 1
sys.exit(status)
PY

# more outputs than are kept: each activity prints its number, and 120 runs print them in 120 orders or nearly so
cat >orders.asm <<'END'
places 1
int 1
func 2 1 none int
LOOP 0 20
again:
MOVE 1 0
ENDL 0 @again
PRINT 0
RET 0
end
func 3 1 none
INTK 0 0
INTK 1 0
FINB
LOOP 0 12
loop:
ASYNC 0 0
ADD 0 0 1
ENDL 0 @loop
FINE
RET 0
end
entry 1
END
x10p runs orders.asm --seeds 120 >table || fail "runs orders.asm: status $?"
heads="$(grep -c 'of 120 runs, the first by seed' table)"
[ "$heads" -eq 100 ] || fail "runs orders.asm: $heads outputs, and not 100"
[ "$(tail -n 1 table | sed 's/^[0-9]* //')" = "of 120 runs had other outputs" ] || fail "runs orders.asm: the last line is $(tail -n 1 table)"

exit $wrong
