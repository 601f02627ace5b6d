"""Burjeeg for programs in Python, by the library libburjeeg.so.

    import burjeeg
    image = burjeeg.assemble(open("counter.asm").read())
    print(burjeeg.run(image))

A `Module` is verified and kept; a `World` has all places of a run of it, a `Place` one, and their events are yours to choose:

    with burjeeg.Module(image) as module, burjeeg.World(module, 2) as world:
        world.step(0, 0)
        print([world.frame(number) for number in world.in_flight(1)])

The library is looked for where BURJEEG_LIBRARY names it, then beside this file, and in `../../lib` and `../lib` as
`./build --prefix` lays it out.
"""

from __future__ import annotations

import ctypes
import os
from dataclasses import dataclass
from pathlib import Path
from typing import Callable, Iterator, NamedTuple, TypeVar

EVENTS = 1_000_000
"""The most events of a run, where nothing else is asked for."""

DONE, REFUSED, STOPPED, NO_TEXT, NULL, SMALL, CLOSED, IN_USE, NOTHING = 0, 1, 2, 4, 5, 6, 7, 8, 9
_HERE = Path(__file__).resolve().parent
_ROOM = 4096
_PLACES, _MEMORY = 501, 601
_OF_FRAMES = dict(enumerate("NotHere Function Kind Home Ref Finish Segment".split(), 911))
_HAD_STOPPED = 921
_T = TypeVar("_T", bound="_Handled")


class _Fault(ctypes.Structure):
    _fields_ = [("kind", ctypes.c_uint32), ("function", ctypes.c_uint16), ("pc", ctypes.c_uint16), ("at", ctypes.c_uint64)]


@dataclass(eq=False)
class Fault(Exception):
    """Why something wasn't done.

    `line` is what the program prints for it, without its line end; for a frame that doesn't fit a place, and for a place that had
    stopped before, which the program never meets, it is a line of the same form. `status` is 1 where the bytes are refused, 2 where the work was stopped, 4 where a text
    isn't UTF-8. `kind` is a number of the header's burjeeg_kind; `function`, `pc` and `at` say where. `output` is what `run` had
    printed until then.
    """

    line: str
    status: int
    kind: int
    function: int
    pc: int
    at: int
    output: str = ""

    def __str__(self) -> str:
        return self.line


class Closed(Exception):
    """What a call is about was closed."""


@dataclass
class Report:
    """What a check found: whether the module is verified, the report's text, and the fault if there is one."""

    verified: bool
    text: str
    fault: Fault | None


def _load() -> ctypes.CDLL:
    named = os.environ.get("BURJEEG_LIBRARY")
    places = [Path(named)] if named else [it / "libburjeeg.so" for it in (_HERE, _HERE / "../../lib", _HERE / "../lib")]
    for it in places:
        if it.is_file():
            return ctypes.CDLL(str(it))
    raise OSError("there is no libburjeeg.so at " + " or ".join(map(str, places)))


class _Handle(ctypes.Structure):
    _fields_ = [("mark", ctypes.c_uint64), ("inside", ctypes.c_void_p)]


_library = _load()
_BYTES, _BUFFER, _SIZE = ctypes.c_char_p, ctypes.c_void_p, ctypes.c_size_t
_NEEDED, _FAULT = ctypes.POINTER(ctypes.c_size_t), ctypes.POINTER(_Fault)
_OUTPUT = [_BUFFER, _SIZE, _NEEDED, _FAULT]
_U16, _U64, _IT = ctypes.c_uint16, ctypes.c_uint64, ctypes.POINTER(_Handle)
_TO = ctypes.POINTER(_U16)
for _name, _types in {
    "verify": [_BYTES, _SIZE, _FAULT],
    "bounds": [_BYTES, _SIZE, *_OUTPUT],
    "list": [_BYTES, _SIZE, *_OUTPUT],
    "assemble": [_BYTES, _SIZE, *_OUTPUT],
    "check": [_BYTES, _SIZE, *_OUTPUT],
    "run": [_BYTES, _SIZE, _U16, _U64, *_OUTPUT],
    "fault_line": [_FAULT, _BUFFER, _SIZE, _NEEDED],
    "module_new": [_BYTES, _SIZE, _IT, _FAULT],
    "module_free": [_IT],
    "place_new": [_IT, _U16, _U16, _IT],
    "place_free": [_IT],
    "place_step": [_IT, _SIZE, _FAULT],
    "place_sent": [_IT, _SIZE, _TO, _BUFFER, _SIZE, _NEEDED],
    "place_receive": [_IT, _BYTES, _SIZE, _FAULT],
    "place_next_key": [_IT, _SIZE, _NEEDED],
    "place_closed": [_IT],
    "place_line": [_IT, _SIZE, _BUFFER, _SIZE, _NEEDED],
    "world_new": [_IT, _U16, _IT],
    "world_free": [_IT],
    "world_step": [_IT, _U16, _SIZE, _FAULT],
    "world_deliver": [_IT, _U64, _FAULT],
    "world_next_key": [_IT, _U16, _SIZE, _NEEDED],
    "world_next_frame": [_IT, _U16, _U64, ctypes.POINTER(_U64)],
    "world_frame": [_IT, _U64, _TO, _BUFFER, _SIZE, _NEEDED],
    "world_closed": [_IT],
    "world_line": [_IT, _U16, _SIZE, _BUFFER, _SIZE, _NEEDED],
}.items():
    getattr(_library, f"burjeeg_{_name}").argtypes = _types
    getattr(_library, f"burjeeg_{_name}").restype = None if _name.endswith("_free") else ctypes.c_uint32


def _within(number: int, bits: int) -> int:
    """A number, or the greatest one of so many bits where it doesn't fit. Nothing has that one."""
    return number if 0 <= number < 1 << bits else (1 << bits) - 1


def _filled(call, item=ctypes.c_ubyte):
    """What a call writes that is given a buffer of so many items, its room and where to tell how many are needed; and its status."""
    room, needed = _ROOM, ctypes.c_size_t()
    while True:
        buffer = (item * room)()
        status = call(buffer, room, ctypes.byref(needed))
        if status != SMALL:
            return status, buffer[: needed.value]
        room = needed.value


def _fault(status: int, fault: _Fault, output: str = "") -> Fault:
    _, found = _filled(lambda *given: _library.burjeeg_fault_line(ctypes.byref(fault), *given))
    line = bytes(found).decode().rstrip("\n")
    if fault.kind in _OF_FRAMES:
        line = f"x10p: frame: {_OF_FRAMES[fault.kind]}"
    if fault.kind == _HAD_STOPPED:
        line = "x10p: stop: it had stopped before"
    return Fault(line, status, fault.kind, fault.function, fault.pc, fault.at, output)


def _output(name: str, given: bytes, *numbers: int, item=ctypes.c_ubyte):
    """What a call writes about some bytes, its status, and its fault."""
    fault = _Fault()
    call = getattr(_library, f"burjeeg_{name}")
    status, found = _filled(lambda *room: call(given, len(given), *numbers, *room, ctypes.byref(fault)), item)
    return status, found, fault


def verify(image: bytes) -> None:
    """Verifies an image. Raises a Fault where it isn't the image of a module that the verifier accepts."""
    fault = _Fault()
    status = _library.burjeeg_verify(image, len(image), ctypes.byref(fault))
    if status != DONE:
        raise _fault(status, fault)


def bounds(image: bytes) -> list[int]:
    """How many steps a call of each function takes at most, with those that it calls."""
    status, found, fault = _output("bounds", image, item=ctypes.c_uint64)
    if status != DONE:
        raise _fault(status, fault)
    return list(found)


def listing(image: bytes) -> str:
    """The canonical listing of an image, which `assemble` makes the same image of."""
    status, found, fault = _output("list", image)
    if status != DONE:
        raise _fault(status, fault)
    return bytes(found).decode()


def assemble(text: str) -> bytes:
    """The image of a text."""
    status, found, fault = _output("assemble", text.encode())
    if status != DONE:
        raise _fault(status, fault)
    return bytes(found)


def explain(module: bytes | str) -> Report:
    """The report about an image, or about a text: the bounds of its functions, or what is wrong with it and what helps."""
    status, found, fault = _output("check", module.encode() if isinstance(module, str) else module)
    if status in (DONE, REFUSED):
        return Report(status == DONE, bytes(found).decode(), _fault(status, fault) if status else None)
    raise _fault(status, fault)


def run(image: bytes, places: int = 0, limit: int = EVENTS) -> str:
    """Verifies an image, runs it at so many places, or at its least number, with at most so many events, and answers the lines
    that were printed, each with its place in front. A Fault that stops the run has the lines until then as its `output`."""
    status, found, fault = _output("run", image, _within(places, 16), _within(limit, 64))
    if status != DONE:
        raise _fault(status, fault, bytes(found).decode())
    return bytes(found).decode()


class Frame(NamedTuple):
    """A frame: the place that it is for, and its bytes."""

    to: int
    data: bytes


def _found(status: int, fault: _Fault | None = None) -> bool:
    """Whether a call about a handle has found, or moved, what it names."""
    if status == CLOSED:
        raise Closed("it was closed")
    if status in (REFUSED, STOPPED):
        raise _fault(status, fault or _Fault(_PLACES if status == REFUSED else _MEMORY))
    return status == DONE


class _Handled:
    """Something of the library's behind a handle, to be used on one thread. It is closed at the end of a `with`, or by `close`;
    what is asked of it then raises Closed."""

    _what = ""

    def __init__(self) -> None:
        self._handle = _Handle()

    def _call(self, what: str, *given) -> int:
        return getattr(_library, f"burjeeg_{self._what}_{what}")(ctypes.byref(self._handle), *given)

    def _next(self, what: str, number, *given) -> int | None:
        """The number that a call finds, or None."""
        return number.value if _found(self._call(what, *given, ctypes.byref(number))) else None

    def _frame(self, what: str, number: int) -> Frame | None:
        to = _U16()
        status, found = _filled(lambda *room: self._call(what, number, ctypes.byref(to), *room))
        return Frame(to.value, bytes(found)) if _found(status) else None

    def _lines(self, *place: int) -> list[str]:
        lines: list[str] = []
        while True:
            status, found = _filled(lambda *room: self._call("line", *place, len(lines), *room))
            if not _found(status):
                return lines
            lines.append(bytes(found).decode())

    def close(self) -> None:
        """Gives back what is behind the handle. It may be called again."""
        self._call("free")

    def __enter__(self: _T) -> _T:
        return self

    def __exit__(self, *_: object) -> None:
        self.close()


def _rising(find: Callable[[int], int | None]) -> Iterator[int]:
    """The numbers that are found from 0 on, each asked for when it is its turn."""
    number = find(0)
    while number is not None:
        yield number
        number = find(number + 1)


class Module(_Handled):
    """A verified module, for places and worlds. Its memory stays to the end of the program, also after `close`: open one for an
    image, and not one for each run. Raises a Fault where the image is refused."""

    _what = "module"

    def __init__(self, image: bytes) -> None:
        super().__init__()
        fault = _Fault()
        _found(_library.burjeeg_module_new(image, len(image), ctypes.byref(self._handle), ctypes.byref(fault)), fault)


class Place(_Handled):
    """Place `id` of a run of a module at `places` places: at its beginning main is at place 0, and nothing at the others. Raises
    a Fault where the module doesn't run at so many, or they don't have this one. Frames are yours to carry between places."""

    _what = "place"

    def __init__(self, module: Module, id: int, places: int) -> None:
        super().__init__()
        of = ctypes.byref(module._handle)
        _found(_library.burjeeg_place_new(of, _within(id, 16), _within(places, 16), ctypes.byref(self._handle)))
        self.id, self.places = id, places

    def next_key(self, start: int = 0) -> int | None:
        """The least key of an activity here, from a number on; None where there is none."""
        return self._next("next_key", ctypes.c_size_t(), _within(max(start, 0), 64))

    def keys(self) -> Iterator[int]:
        """The keys of the activities here, rising. There may be steps between them."""
        return _rising(self.next_key)

    def step(self, key: int) -> bool:
        """Makes a step of the activity with a key. Whether it moved: not so where there is none, or it waits. Raises a Fault
        where the place has stopped."""
        fault = _Fault()
        return _found(self._call("step", _within(key, 64), ctypes.byref(fault)), fault)

    def sent(self) -> list[Frame]:
        """The frames that the last step put out, at most two, in the order in which they are to be sent."""
        return [it for it in (self._frame("sent", number) for number in range(2)) if it]

    def receive(self, frame: bytes) -> None:
        """Takes in a frame that came from a place. Raises a Fault where it is refused, and then nothing has changed, or where the
        place has stopped."""
        fault = _Fault()
        _found(self._call("receive", frame, len(frame), ctypes.byref(fault)), fault)

    @property
    def ended(self) -> bool:
        """Whether the run has ended, which place 0 knows, and no other place."""
        return _found(self._call("closed"))

    def lines(self) -> list[str]:
        """The lines that the place printed."""
        return self._lines()


class World(_Handled):
    """All places of a run of a module, at its beginning, and the frames between them. The order of events is yours, and what is
    proved of runs holds of each. Raises a Fault where the module doesn't run at so many places."""

    _what = "world"

    def __init__(self, module: Module, places: int) -> None:
        super().__init__()
        of = ctypes.byref(module._handle)
        _found(_library.burjeeg_world_new(of, _within(places, 16), ctypes.byref(self._handle)))
        self.places = places

    def next_key(self, place: int, start: int = 0) -> int | None:
        """The least key of an activity at a place, from a number on; None where there is none."""
        return self._next("next_key", ctypes.c_size_t(), _within(place, 16), _within(max(start, 0), 64))

    def keys(self, place: int) -> Iterator[int]:
        """The keys of the activities at a place, rising. There may be events between them."""
        return _rising(lambda start: self.next_key(place, start))

    def step(self, place: int, key: int) -> bool:
        """Makes a step of the activity with a key at a place, and returns whether it moved; where it can't, nothing changes. Raises
        a Fault where the world has stopped."""
        fault = _Fault()
        return _found(self._call("step", _within(place, 16), _within(key, 64), ctypes.byref(fault)), fault)

    def next_frame(self, place: int, start: int = 0) -> int | None:
        """The least number of a frame in flight to a place, from a number on; None where there is none."""
        return self._next("next_frame", _U64(), _within(place, 16), _within(max(start, 0), 64))

    def in_flight(self, place: int) -> Iterator[int]:
        """The numbers of the frames in flight to a place, rising. There may be events between them."""
        return _rising(lambda start: self.next_frame(place, start))

    def frame(self, number: int) -> Frame | None:
        """The frame in flight with a number; None where there is none. They are numbered from 0 as they are put out."""
        return self._frame("frame", _within(number, 64))

    def deliver(self, number: int) -> bool:
        """Delivers the frame with a number to its place, and returns whether it was in flight; where it wasn't, nothing changes.
        Raises a Fault where the world has stopped."""
        fault = _Fault()
        return _found(self._call("deliver", _within(number, 64), ctypes.byref(fault)), fault)

    @property
    def ended(self) -> bool:
        """Whether the run has ended, as place 0 knows it."""
        return _found(self._call("closed"))

    def lines(self, place: int) -> list[str]:
        """The lines that a place printed."""
        return self._lines(_within(place, 16))
