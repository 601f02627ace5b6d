"""Gives each value a register, by a linear scan over the intervals in which values are alive. The arguments of an instruction
have to stand in consecutive registers: such values form a group, which is placed as one; where they can't, copies are passed."""

from __future__ import annotations

from dataclasses import dataclass, field

from .ir import NONE, Code, Instr, live_out
from .messages import Fault

MOST_REGISTERS = 64
Interval = tuple[int, int]


def intervals(code: Code) -> dict[int, Interval]:
    """From when to when each value is alive: instruction n reads at 2n and writes at 2n + 1."""
    found: dict[int, Interval] = {value: (-1, -1) for value in range(len(code.function.variables))}

    def add(value: int, at: int) -> None:
        first, last = found.get(value, (at, at))
        found[value] = min(first, at), max(last, at)

    for at, (it, after) in enumerate(zip(code.instrs, live_out(code))):
        for value in it.reads:
            add(value, 2 * at)
        if it.dest != NONE:
            add(it.dest, 2 * at + 1)
        for value in after:
            add(value, 2 * at + 1)
            # (what is alive behind an instruction that doesn't write it was alive before it)
            if value != it.dest:
                add(value, 2 * at)
    return found


def overlap(a: Interval, b: Interval) -> bool:
    return a[0] <= b[1] and b[0] <= a[1]


@dataclass(eq=False)
class Group:
    """Values in consecutive registers, each with how far it is from the first one; `is_fixed` where that is register 0."""

    members: dict[int, int] = field(default_factory=dict)
    is_fixed: bool = False


class Groups:
    def __init__(self, code: Code, alive: dict[int, Interval]) -> None:
        self.alive = alive
        self.of: dict[int, Group] = {value: Group({value: 0}) for value in alive}
        parameters = range(len(code.function.variables))
        first = Group({value: value for value in parameters}, True)
        self.of.update({value: first for value in parameters})

    def link(self, left: int, right: int) -> bool:
        """Puts a value into the register behind another one's; whether that is possible."""
        a, b = self.of[left], self.of[right]
        shift = a.members[left] + 1 - b.members[right]
        if a is b:
            return shift == 0
        moved = {value: at + shift for value, at in b.members.items()}
        least = min([*moved.values(), 0])
        if (b.is_fixed and shift != 0) or (a.is_fixed and least < 0) or (a.is_fixed and b.is_fixed):
            return False
        for value, at in moved.items():
            if any(at == other_at and overlap(self.alive[value], self.alive[other]) for other, other_at in a.members.items()):
                return False
        members = {value: at - least for value, at in [*a.members.items(), *moved.items()]}
        if max(members.values()) >= MOST_REGISTERS or (b.is_fixed and any(at < 0 for at in a.members.values())):
            return False
        made = Group(members, a.is_fixed or b.is_fixed)
        self.of.update({value: made for value in members})
        return True

    def all(self) -> list[Group]:
        return list(dict.fromkeys(self.of.values()))


def grouped(code: Code) -> Groups:
    """Forms the groups. Where arguments can't stand in a row, those that aren't made for this instruction alone are copied, and
    the groups formed again."""
    while True:
        alive = intervals(code)
        groups, written = Groups(code, alive), code.definitions()
        uses: dict[int, int] = {}
        for it in code.instrs:
            for value in it.reads:
                uses[value] = uses.get(value, 0) + 1
        copies: list[tuple[int, int]] = []
        for at, it in enumerate(code.instrs):
            row = it.arguments()
            if all(groups.link(left, right) for left, right in zip(row, row[1:])):
                continue
            lasting = [place for place,
                       value in enumerate(row) if uses[value] > 1 or len(written[value]) > 1 or -1 in written[value]
                       or loop_between(code, written[value][0], at)]
            copies += [(at, place) for place in lasting or range(len(row))]
        if not copies:
            return groups
        copy(code, copies)


def loop_between(code: Code, first: int, last: int) -> bool:
    return any(it.op in ("LOOP", "ENDL") for it in code.instrs[first:last])


def copy(code: Code, copies: list[tuple[int, int]]) -> None:
    """Puts MOVEs before instructions: of each the arguments with these numbers are copied."""
    for at in sorted({at for at, _ in copies}, reverse=True):
        it, moves = code.instrs[at], []
        before = len(it.reads) - len(it.arguments())
        for _, place in [both for both in copies if both[0] == at]:
            old = it.reads[before + place]
            code.types.append(code.types[old])
            it.reads[before + place] = len(code.types) - 1
            moves.append(Instr("MOVE", it.span, len(code.types) - 1, [old]))
        code.instrs[at:at] = moves


def allocate(code: Code) -> dict[int, int]:
    """The register of each value."""
    groups = grouped(code)
    alive = groups.alive
    taken: dict[int, list[Interval]] = {}
    found: dict[int, int] = {}
    wanted = hints(code)

    def is_free(group: Group, base: int) -> bool:
        return all(not any(overlap(alive[value], it) for it in taken.get(base + at, [])) for value, at in group.members.items())

    def begin(group: Group) -> tuple[bool, int]:
        return not group.is_fixed, min(alive[value][0] for value in group.members)

    for group in sorted(groups.all(), key=begin):
        width = max(group.members.values()) + 1
        near = [found[other] - at for value, at in group.members.items() for other in wanted.get(value, []) if other in found]
        bases = [0] if group.is_fixed else [*near, *range(MOST_REGISTERS - width + 1)]
        base = next((it for it in bases if 0 <= it <= MOST_REGISTERS - width and is_free(group, it)), None)
        if base is None:
            raise Fault(code.function.span, f"`{code.function.name}` needs more than {MOST_REGISTERS} values at a time",
                        "Put a part of it into a def of its own, or values into an object.")
        for value, at in group.members.items():
            found[value] = base + at
            taken.setdefault(base + at, []).append(alive[value])
    return found


def hints(code: Code) -> dict[int, list[int]]:
    """Values that need no MOVE where they share a register."""
    found: dict[int, list[int]] = {}
    for it in code.instrs:
        if it.op == "MOVE":
            found.setdefault(it.dest, []).append(it.reads[0])
            found.setdefault(it.reads[0], []).append(it.dest)
    return found
