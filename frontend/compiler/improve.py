"""Makes the instructions of a function fewer: takes out what isn't reached or used, and computes what doesn't change before loops
and only once."""

from __future__ import annotations

from typing import Optional

from .ir import JUMPS, NONE, Code, Instr, live_out

# what gives the same value each time, of the same values, and can't fail
CONSTANT = {"INTK", "TEXTK", "HERE", "PLACEK", "COUNT", "NULL"}
HOISTED = CONSTANT - {"NULL"} | {"HOME", "PLACEI", "NEXTP"}
ONCE = HOISTED | {"GOPEN", "TLEN", "RLEN"}
WITHOUT_EFFECT = ONCE | CONSTANT | {"MOVE", "ADD", "SUB", "MUL", "LT", "EQ", "GET", "TLEN", "RLEN", "NEW"}
MOST_HOISTED = 24


def drop_unreached(code: Code) -> bool:
    """Takes out what no way leads to, jumps to the next instruction, and labels that nothing names."""
    labels = code.labels()
    reached, waiting = {0}, [0]
    while waiting:
        for to, _ in code.ways(waiting.pop(), labels):
            if to not in reached:
                reached.add(to)
                waiting.append(to)
    kept = [it for at, it in enumerate(code.instrs) if at in reached and not is_single_turn(code, at, reached)]
    named = {it.label for it in kept if it.op in JUMPS}
    final = []
    for at, it in enumerate(kept):
        if it.op == "JMP" and it.label in labels_behind(kept, at) or it.op == "LABEL" and it.label not in named:
            continue
        final.append(it)
    changed = len(final) != len(code.instrs)
    code.instrs = final
    return changed


def is_single_turn(code: Code, at: int, reached: set[int]) -> bool:
    """Whether an instruction begins a loop whose end isn't reached: then it is no loop."""
    depth = 0
    for to in range(at, len(code.instrs) if code.instrs[at].op == "LOOP" else at):
        op = code.instrs[to].op
        depth += (op == "LOOP") - (op == "ENDL")
        if depth == 0:
            return to not in reached
    return False


def labels_behind(instrs: list[Instr], at: int) -> set[int]:
    found = set()
    for it in instrs[at + 1:]:
        if it.op != "LABEL":
            break
        found.add(it.label)
    return found


def thread_jumps(code: Code) -> None:
    """Of labels that stand in one place the last one is used, and a jump to a JMP goes where that goes."""
    targets: dict[int, int] = {}
    for at, it in enumerate(code.instrs[:-1]):
        follower = code.instrs[at + 1]
        if it.op == "LABEL" and follower.op in ("LABEL", "JMP"):
            targets[it.label] = follower.label
    for it in code.instrs:
        while it.op in JUMPS and it.op != "ENDL" and it.label in targets:
            it.label = targets[it.label]


def clean(code: Code) -> None:
    thread_jumps(code)
    while drop_unreached(code):
        thread_jumps(code)


def drop_unused(code: Code) -> None:
    """Takes out what computes a value that nothing reads."""
    changed = True
    while changed:
        after = live_out(code)
        kept = [it for at, it in enumerate(code.instrs) if it.op not in WITHOUT_EFFECT or it.dest in after[at]]
        changed = len(kept) != len(code.instrs)
        code.instrs = kept


def rename(code: Code, old: int, new: int) -> None:
    for it in code.instrs:
        it.reads = [new if value == old else value for value in it.reads]


def loops(code: Code) -> list[tuple[int, int]]:
    """The outermost loops: where each begins and ends."""
    found, open_ = [], []
    for at, it in enumerate(code.instrs):
        if it.op == "LOOP":
            open_.append(at)
        elif it.op == "ENDL":
            first = open_.pop()
            if not open_:
                found.append((first, at))
    return found


def passed_in_a_row(code: Code) -> set[int]:
    """Values that stand beside others as arguments: sharing one of them costs a MOVE."""
    return {value for it in code.instrs if len(it.arguments()) > 1 for value in it.arguments()}


def hoist(code: Code) -> None:
    """Computes before a loop what is the same in each of its turns."""
    count = 0
    for begin, end in reversed(loops(code)):
        written = code.definitions()
        moved: dict[int, Instr] = {}
        for at in range(begin, end):
            it = code.instrs[at]
            is_fixed = all(not any(begin <= to <= end and to not in moved for to in written.get(value, [])) for value in it.reads)
            if it.op in HOISTED and written[it.dest] == [at] and is_fixed and count < MOST_HOISTED:
                moved[at] = it
                count += 1
        rest = [it for at, it in enumerate(code.instrs[begin:end + 1], begin) if at not in moved]
        code.instrs[begin:end + 1] = [*moved.values(), *rest]


def reach_of(code: Code) -> list[int]:
    """Up to where each instruction has been done: a jump over it ends that."""
    labels = code.labels()
    jumps = sorted((at, labels[it.label]) for at, it in enumerate(code.instrs) if it.op in JUMPS and labels[it.label] > at)
    reach = []
    for at in range(len(code.instrs)):
        reach.append(min((to for begin, to in jumps if begin < at < to), default=len(code.instrs)))
    # where a value is written that is computed only on the way that doesn't jump, the jump itself ends it
    for at, it in enumerate(code.instrs):
        if it.op in JUMPS and it.dest != NONE:
            reach[at] = min(reach[at], labels[it.label])
    return reach


def share(code: Code) -> None:
    """Computes what is computed twice only once."""
    written, reach, beside = code.definitions(), reach_of(code), passed_in_a_row(code)
    known: dict[tuple[object, ...], tuple[int, int]] = {}
    for at, it in enumerate(code.instrs):
        is_single = it.dest != NONE and len(written[it.dest]) == 1 and all(len(written.get(value, [])) == 1 for value in it.reads)
        if it.op not in ONCE or not is_single or it.dest in beside:
            continue
        key = (it.op, type(it.number), it.number, *it.reads)
        before = known.get(key)
        if before and reach[before[0]] > at:
            rename(code, it.dest, before[1])
            beside = passed_in_a_row(code)
        else:
            known[key] = at, it.dest


def improve(code: Code, is_hoisting: Optional[bool] = True) -> None:
    clean(code)
    if is_hoisting:
        hoist(code)
    share(code)
    drop_unused(code)
    clean(code)
