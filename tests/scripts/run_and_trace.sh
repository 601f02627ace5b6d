# A run and its trace have the same events, by each schedule: after as many events as a limit allows, a run has printed what the
# steps of the trace until then print, and only the last event ends it. So no event is left out or counted twice where steps are
# made at a stretch.
top="$(cd "$(dirname "$0")/../.." && pwd)"
source "$(dirname "$0")/common"

python3 - "$top" <<'PY' || wrong=1
import subprocess, sys
from pathlib import Path
tests = Path(sys.argv[1], "tests")
MOST = 3000
SCHEDULES = [[], ["--schedule", "random", "--seed", "5"], ["--schedule", "oldest"], ["--schedule", "newest"]]

def told(*words):
    """A command's status, and the lines that it prints."""
    done = subprocess.run(["x10p", *words], capture_output=True, text=True)
    return done.returncode, done.stdout.splitlines()

def events_of(lines):
    """For each event of a trace the places whose lines it adds to: that of a PRINT, or none."""
    for line in lines:
        kind, *words = line.split(" ")
        if kind != "P":
            yield [words[0]] if kind == "S" and words[-1] == "PRINT" else []

def differs(path, words):
    """Where a run and its trace differ, if they do."""
    status, lines = told("trace", path, *words, "--limit", str(MOST))
    if status:
        return ""
    prints = list(events_of(lines))
    few = {1, 2, 3, 5, len(prints) // 3, len(prints) // 2, len(prints) - 2, len(prints) - 1, len(prints)}
    for limit in sorted(it for it in few if 0 < it <= len(prints)):
        status, lines = told("run", path, *words, "--limit", str(limit))
        if status != (0 if limit == len(prints) else 2):
            return f"a run with --limit {limit} of {len(prints)} events has status {status}"
        wanted = sorted(place for it in prints[:limit] for place in it)
        if sorted(line.split(":")[0] for line in lines) != wanted:
            return f"after {limit} events a run has printed {len(lines)} lines, and its trace {len(wanted)}"
    return ""

status = 0
for folder in ("activities", "atomic", "travels"):
    for path in sorted((tests / folder).glob("*.asm")):
        for words in SCHEDULES:
            if why := differs(str(path), words):
                print(f"{path.name} {' '.join(words)}: {why}")
                status = 1
sys.exit(status)
PY
exit $wrong
