"""What is known of values before each instruction, as the verifier will know it: which are objects and not null, which places
are the same, and which numbers aren't 0. From it follow the kinds of parameters, results and fields: each is an object, or a
reference whose home is here, as long as no call, return or assignment gives it anything else."""

from __future__ import annotations

from dataclasses import dataclass, field
from heapq import heappop, heappush
from typing import Optional

from .ir import NONE, Code, Instr
from .messages import Fault, Source, Span
from .tree import Class, Function, Type

# terms of place equations beside values, which count from 0: here, and place k as -2 - k
HERE = -1
Homes = dict[int, int]


@dataclass
class State:
    """`homes` has the class of each term that isn't alone in it."""

    objects: set[int] = field(default_factory=set)
    nonzero: set[int] = field(default_factory=set)
    homes: Homes = field(default_factory=dict)

    def copy(self) -> State:
        return State(set(self.objects), set(self.nonzero), dict(self.homes))

    def same(self, t: int, u: int) -> bool:
        return t == u or (t in self.homes and self.homes[t] == self.homes.get(u))

    def join(self, t: int, u: int) -> None:
        old, new = self.homes.get(u, u), self.homes.get(t, t)
        for term in [it for it, it_class in self.homes.items() if it_class == old] + [u]:
            self.homes[term] = new
        self.homes[t] = new

    def write(self, value: int, term: Optional[int]) -> None:
        self.objects.discard(value)
        self.nonzero.discard(value)
        if term == value:
            return
        old = self.homes.pop(value, None)
        if old is not None:
            # (a class may be named by a term that leaves it: it gets another name)
            others = [it for it, it_class in self.homes.items() if it_class == old]
            for it in others:
                self.homes[it] = others[0]
            if len(others) == 1:
                del self.homes[others[0]]
        if term is not None:
            self.join(term, value)

    def meet(self, other: State) -> State:
        """What both know."""
        pairs: dict[tuple[int, int], list[int]] = {}
        for term in sorted(set(self.homes) & set(other.homes)):
            pairs.setdefault((self.homes[term], other.homes[term]), []).append(term)
        homes = {term: them[0] for them in pairs.values() if len(them) > 1 for term in them}
        return State(self.objects & other.objects, self.nonzero & other.nonzero, homes)

    def named(self) -> State:
        """The same, each class named by its least term."""
        return self.meet(self)


@dataclass
class Facts:
    """What isn't always an object, or hasn't always its home here: the parameter of a function (its number), its result (NONE),
    or the field of a class; each with where that comes from."""

    maybe_null: dict[tuple[object, int], Span] = field(default_factory=dict)
    maybe_away: dict[tuple[object, int], Span] = field(default_factory=dict)

    def is_object(self, owner: object, number: int) -> bool:
        return (owner, number) not in self.maybe_null

    def is_home(self, owner: object, number: int) -> bool:
        return (owner, number) not in self.maybe_away


class Flow:
    """The flow of one function, by the facts so far."""

    def __init__(self, code: Code, facts: Facts, classes: dict[str, Class]) -> None:
        self.code, self.facts, self.classes = code, facts, classes
        self.states: list[Optional[State]] = [None] * len(code.instrs)
        self.run()

    def run(self) -> None:
        labels = self.code.labels()
        entry = State()
        for number, it in enumerate(self.code.function.variables):
            self.learn(entry, number, it.type, self.code.function, number, HERE)
        self.states[0] = entry.named()
        waiting = [0]
        while waiting:
            # (in the order of the text, in which nearly all ways lead)
            at = heappop(waiting)
            state = self.states[at]
            assert state is not None
            next_state = self.after(self.code.instrs[at], state)
            for to, is_jump in self.code.ways(at, labels):
                known = self.states[to]
                given = state if is_jump else next_state
                now = given.named() if known is None else known.meet(given)
                if now != known:
                    self.states[to] = now
                    if to not in waiting:
                        heappush(waiting, to)

    def learn(self, state: State, value: int, type_: Type, owner: object, number: int, home: int) -> None:
        """What is known of a value that comes from a parameter, a result or a field."""
        if type_.name == "class" and self.facts.is_object(owner, number):
            state.objects.add(value)
        if type_.name == "GlobalRef" and self.facts.is_home(owner, number):
            state.join(home, value)

    def after(self, it: Instr, before: State) -> State:
        state, dest, reads = before.copy(), it.dest, it.reads
        if it.op == "MOVE":
            is_object, is_nonzero = reads[0] in state.objects, reads[0] in state.nonzero
            state.write(dest, reads[0] if self.code.types[dest].name in ("Place", "GlobalRef") else None)
            state.objects |= {dest} if is_object else set()
            state.nonzero |= {dest} if is_nonzero else set()
        elif it.op in ("HERE", "GNEW"):
            state.write(dest, HERE)
        elif it.op == "PLACEK":
            state.write(dest, -2 - int(str(it.number)))
        elif it.op == "HOME":
            state.write(dest, reads[0])
        elif it.op == "IFHERE":
            state.join(HERE, reads[0])
        elif it.op == "IFSAME":
            state.join(reads[0], reads[1])
        elif it.op == "JZ":
            state.nonzero.add(reads[0])
        elif dest != NONE:
            self.write_result(it, state)
        return state

    def write_result(self, it: Instr, state: State) -> None:
        place = it.reads[0] if it.op == "AT" else HERE
        state.write(it.dest, None)
        if it.op in ("NEW", "GOPEN", "IFOBJ"):
            state.objects.add(it.dest)
        elif it.op == "INTK" and it.number != 0:
            state.nonzero.add(it.dest)
        elif it.op in ("CALL", "AT"):
            self.learn(state, it.dest, self.code.types[it.dest], it.number, NONE, place)
        elif it.op == "GET":
            class_ = self.classes[self.code.types[it.reads[0]].of]
            if self.facts.is_object(class_, int(str(it.number))) and self.code.types[it.dest].name == "class":
                state.objects.add(it.dest)

    def given(self, it: Instr) -> list[tuple[int, object, int, int]]:
        """What an instruction passes on: a value, whose parameter, result or field it becomes, its number, and where that is."""
        if it.op in ("CALL", "ASYNC", "AT", "ATA"):
            place = it.reads[0] if it.op in ("AT", "ATA") else HERE
            return [(value, it.number, at, place) for at, value in enumerate(it.arguments())]
        if it.op == "NEW":
            return [(value, self.classes[str(it.number)], at, HERE) for at, value in enumerate(it.reads)]
        if it.op == "PUT":
            return [(it.reads[1], self.classes[self.code.types[it.reads[0]].of], int(str(it.number)), HERE)]
        if it.op == "RET" and it.reads:
            return [(it.reads[0], self.code.function, NONE, HERE)]
        return []

    def lessen(self) -> bool:
        """Takes back the facts that an instruction doesn't keep; whether there were any."""
        changed = False
        for it, state in zip(self.code.instrs, self.states):
            for value, owner, number, place in self.given(it) if state else []:
                assert state is not None
                type_ = self.code.types[value]
                if type_.name == "class" and value not in state.objects and self.facts.is_object(owner, number):
                    self.facts.maybe_null[owner, number] = it.span
                    changed = True
                if type_.name == "GlobalRef" and not state.same(value, place) and self.facts.is_home(owner, number):
                    self.facts.maybe_away[owner, number] = it.span
                    changed = True
        return changed

    def check(self, source: Source) -> None:
        """Refuses what the verifier would refuse."""
        for it, state in zip(self.code.instrs, self.states):
            if state and it.op in ("GET", "PUT", "GNEW") and it.reads[0] not in state.objects:
                raise self.null_fault(it, source)
            if state and it.op == "GOPEN" and not state.same(it.reads[0], HERE):
                raise self.away_fault(it, source)

    def null_fault(self, it: Instr, source: Source) -> Fault:
        words = source.of(it.of)
        why = self.origin(it.reads[0], self.facts.maybe_null, "null, or what may be null")
        return Fault(it.of, f"`{words}` may be null here{why}",
                     f"Ask before it: `if ({words} != null) ..`." if words.isidentifier()
                     else f"Put it into a val and ask: `val o = {words}; if (o != null) ..`.")

    def away_fault(self, it: Instr, source: Source) -> Fault:
        words = source.of(it.of)
        why = self.origin(it.reads[0], self.facts.maybe_away, "one whose home isn't known to be there")
        return Fault(it.span, f"`{words}` is opened, and its home isn't known to be here{why}",
                     f"Write `at ({words}.home) ..`, or `if (here == {words}.home) ..`." if words.isidentifier() else
                     f"Put it into a val: `val g = {words}; at (g.home) ..`, or `if (here == g.home) ..`.")

    def origin(self, value: int, found: dict[tuple[object, int], Span], what: str) -> str:
        """Where a parameter gets what it isn't asked for."""
        function: Function = self.code.function
        if value < len(function.variables) and (function, value) in found and not function.is_lifted:
            return f" (line {found[function, value].line} passes {what})"
        return ""


def analyse(codes: list[Code], classes: dict[str, Class], source: Source) -> Facts:
    """The facts of a program, or its first fault."""
    facts, changed = Facts(), True
    flows: list[Flow] = []
    while changed:
        flows = [Flow(code, facts, classes) for code in codes]
        changed = any([flow.lessen() for flow in flows])
    faults = []
    for flow in flows:
        try:
            flow.check(source)
        except Fault as fault:
            faults.append(fault)
    if faults:
        raise min(faults, key=lambda it: it.span.start)
    for flow in flows:
        for it, state in zip(flow.code.instrs, flow.states):
            if state and it.op in ("DIV", "REM") and it.reads[1] in state.nonzero and it.safe != NONE:
                it.label = it.safe
    return facts
