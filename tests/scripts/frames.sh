# `frame`: each frame that a trace shows is told, from and to the places of its line, as one of the four types; and where its last
# byte is missing, or one follows, it is none. A frame says the same in a file, from a pipe, and as digits.
top="$(cd "$(dirname "$0")/../.." && pwd)"
source "$(dirname "$0")/common"

python3 - "$top" <<'PY' || wrong=1
import subprocess, sys
from collections import Counter
from pathlib import Path
top = Path(sys.argv[1])
PLACES = "4"
# how many frames of a trace are looked at
MOST = 12
types, status = Counter(), 0

def told(*words, **more):
    """What a command prints, or else the fault that it tells."""
    done = subprocess.run(["x10p", *words], capture_output=True, **more)
    return (done.stdout if done.returncode == 0 else done.stderr).decode()

def wrong(text):
    global status
    print(text)
    status = 1

for path in sorted((top / "tests" / "travels").glob("*.asm")) + sorted((top / "examples").glob("*.asm")):
    trace = told("trace", str(path), "--places", PLACES, "--limit", "2000")
    frames = [line.split(" ") for line in trace.splitlines() if line.startswith("P ")]
    for _, number, here, there, digits in frames[:MOST]:
        if len(digits) > 100000:
            continue
        lines = told("frame", digits, "--places", PLACES)
        first = lines.splitlines()[0]
        kind = first.removeprefix("frame: ").partition(",")[0]
        if first != f"frame: {kind}, version 2, from place {here} to place {there}":
            wrong(f"{path.name}, frame {number}: {first}")
        types[kind] += 1
        if told("frame", "-", "--places", PLACES, input=bytes.fromhex(digits)) != lines:
            wrong(f"{path.name}, frame {number} says something else on standard input")
        if (found := told("frame", digits[:-2], "--places", PLACES)) != "x10p: frame: Short\n":
            wrong(f"{path.name}, frame {number} without its last byte: {found}")
        if (found := told("frame", digits + "00", "--places", PLACES)) != "x10p: frame: Trailing\n":
            wrong(f"{path.name}, frame {number} with a byte more: {found}")
if sorted(types) != ["Back", "Report", "Shift", "Spawn"]:
    wrong(f"the frames were of these types: {dict(types)}")
sys.exit(status)
PY

printf '\x02\x04\x00\x00\x00\x00\x00\x00\x00\x01\x00\x01\x00\x00\x00\x00\x00\x00\x00\x01' >report
does 0 "frame: Report, version 2, from place 0 to place 0
finish: 1 of place 0
sent: 0
received: 1" "" x10p frame report --places 1
# what can't be a frame isn't read to its end
timeout 20 x10p frame /dev/zero --places 1 >.out 2>.err
[ "$?" = 1 ] && [ "$(cat .err)" = "x10p: frame: Version" ] || fail "frame /dev/zero: $(cat .err)"
exit $wrong
