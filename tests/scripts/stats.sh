# What --stats tells of a run is what its trace has, by each schedule, also where the run is at its limit; and the run prints what
# it prints without it. Activities are followed in the trace by what its frames say, and by the keys of their stays; where no
# schedule is asked for, the events are those of rounds, as PROGRAM.md says it. For a heap it is enough that what is made is
# counted: see tests/stats.
top="$(cd "$(dirname "$0")/../.." && pwd)"
source "$(dirname "$0")/common"

python3 - "$top" <<'PY' || wrong=1
import subprocess, sys
from collections import Counter
from functools import cache
from pathlib import Path
tests = Path(sys.argv[1], "tests")
MOST = 3000
SCHEDULES = [[], ["--schedule", "random", "--seed", "5"], ["--schedule", "oldest"], ["--schedule", "newest"]]
TYPES = ("Spawn", "Shift", "Back", "Report")

def told(*words):
    """A command's status, standard output, and the lines of standard error."""
    done = subprocess.run(["x10p", *words], capture_output=True, text=True)
    return done.returncode, done.stdout, done.stderr.splitlines()

def counted_in(trace):
    """What a trace has: its steps, idle events and deliveries, and frames and bytes by type."""
    lines = [line.split(" ") for line in trace.splitlines()]
    kinds = Counter(words[0] for words in lines)
    found = {"steps": kinds["S"], "idle events": kinds["-"], "deliveries": kinds["D"]}
    frames = [words[-1] for words in lines if words[0] == "P"]
    for number, name in enumerate(TYPES, 1):
        of_type = [it for it in frames if int(it[2:4], 16) == number]
        found[f"{name} frames"], found[f"{name} bytes"] = len(of_type), sum(map(len, of_type)) // 2
    return found

class Followed:
    """The activities in a trace. One that goes to another place is the same there, and when it comes back."""

    def __init__(self, listing):
        self.code, self.begun, self.stays, self.posted = [], [], {}, {}
        self.rounds = 0
        self.used, self.free = Counter(), {}
        for words in map(str.split, listing.splitlines()):
            if words[0] == "func":
                self.code.append([])
            elif words[0] == "entry":
                self.begin(0, self.activity(int(words[1]), 0))
            elif self.code:
                self.code[-1].append(words)

    def activity(self, function, place):
        self.begun.append({"function": function, "place": place, "steps": 0})
        return self.begun[-1]

    def begin(self, place, activity):
        """A stay begins, with the key that was given up last, or the least that was never in use."""
        free = self.free.setdefault(place, [])
        key = free.pop() if free else self.used[place]
        self.used[place] = max(self.used[place], key + 1)
        self.stays[place, key] = {"activity": activity, "calls": 0}

    def step(self, place, key, function, pc, name):
        stay = self.moved = self.stays[place, key]
        stay["activity"]["steps"] += 1
        if name == "ASYNC":
            self.begin(place, self.activity(int(self.code[function][pc][-1]), place))
        elif name == "CALL":
            stay["calls"] += 1
        elif name == "RET" and stay["calls"]:
            stay["calls"] -= 1
        elif name == "RET":
            del self.stays[place, key]
            self.free[place].append(key)

    def deliver(self, number, to):
        frame, activity, _ = self.posted.pop(number)
        if frame[1] == 1:
            self.begin(to, self.activity(int.from_bytes(frame[12:14], "big"), to))
        elif frame[1] == 2:
            self.begin(to, activity)

    def in_rounds(self):
        """Which events come by rounds, as (place, key) or (frame, place): a place takes in what is in flight to it, and then
        steps its keys."""
        while True:
            self.rounds += 1
            for place in range(64):
                yield from [(it, place) for it in sorted(self.posted) if self.posted[it][2] == place]
                yield from sorted(it for it in self.stays if it[0] == place)

    def follow(self, trace, has_rounds):
        """Whether the events come by rounds, where they are to."""
        order, rises = self.in_rounds(), True
        for sort, *words in map(str.split, trace.splitlines()):
            if sort == "P":
                self.posted[int(words[0])] = bytes.fromhex(words[3]), self.moved["activity"], int(words[2])
                continue
            rises = rises and (not has_rounds or next(order) == (int(words[0]), int(words[1])))
            if sort == "S":
                self.step(*map(int, words[:4]), words[4])
            elif sort == "D":
                self.deliver(*map(int, words))
        return rises

    def lines(self, bounds):
        """What is told of the functions with which activities began."""
        for function, bound in map(str.split, bounds.splitlines()):
            steps = [it["steps"] for it in self.begun if it["function"] == int(function)]
            if steps:
                head = f"function {function}, activities:"
                yield f"{head:25} {len(steps)}, most steps: {max(steps)}, bound: {bound}"

    def activity_lines(self, bounds):
        """What is told of each activity, in the order in which they began."""
        bound_of = dict(map(str.split, bounds.splitlines()))
        for number, it in enumerate(self.begun):
            words = ", ".join(f"{name} {it[name]}" for name in ("function", "place"))
            yield f"activity {number}, {words}, steps: {it['steps']}, bound: {bound_of[str(it['function'])]}"

@cache
def module_of(path):
    """A module's listing, and its bounds."""
    return told("list", path)[1], told("bounds", path)[1]

def differs(path, words):
    """Where what is told differs from the trace, if it does."""
    status, trace, fault = told("trace", path, *words)
    right = told("run", path, *words)
    found = told("run", path, *words, "--stats")
    each = told("run", path, *words, "--stats", "--verbose")
    if (found[0], found[1]) != right[:2] or right[0] != status:
        return f"status {found[0]} with --stats, and {right[0]} without it"
    if found[2][: len(fault)] != fault:
        return f"the first lines are {found[2][:1]}, and not {fault}"
    lines = found[2][len(fault):]
    listing, bounds = module_of(path)
    followed = Followed(listing)
    has_rounds = "--schedule" not in words
    if not followed.follow(trace, has_rounds):
        return "the events don't come by rounds"
    wanted = list(followed.lines(bounds))
    functions = [line for line in lines if line.startswith("function")]
    if functions != wanted:
        return f"{functions}, and by the trace {wanted}"
    last = found[2].index(functions[-1]) + 1
    wanted = found[2][:last] + list(followed.activity_lines(bounds)) + found[2][last:]
    if each != (*found[:2], wanted):
        return f"with --verbose {each}, and by the trace {wanted}"
    numbers = dict(line.split(":") for line in lines if line not in functions)
    if has_rounds and int(numbers["rounds"]) != followed.rounds:
        return f"rounds: {numbers['rounds']}, and by the trace {followed.rounds}"
    for name, number in counted_in(trace).items():
        if int(numbers.get(name, -1)) != number:
            return f"{name}: {numbers.get(name)}, and the trace has {number}"
    return ""

status = 0
for folder in ("activities", "atomic", "objects", "places", "stats", "travels"):
    # but those whose pieces tests/run writes out
    for path in sorted(it for it in (tests / folder).glob("*.asm") if "{{" not in it.read_text(encoding="utf-8")):
        for words in SCHEDULES:
            for limit in (MOST,) if words else (MOST, 9):
                if why := differs(str(path), [*words, "--limit", str(limit)]):
                    print(f"{path.name} {' '.join(words)}, limit {limit}: {why}")
                    status = 1
sys.exit(status)
PY
exit $wrong
