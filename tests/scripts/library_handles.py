"""What the classes of burjeeg.py refuse, and numbers that name nothing: library_handles.py IMAGE, of a module for two places."""

import sys
from pathlib import Path

import burjeeg

image = Path(sys.argv[1]).read_bytes()
module = burjeeg.Module(image)
wrong = 0


def says(what, wanted, call):
    """The call answers, or raises, what is wanted."""
    global wrong
    try:
        found = call()
    except burjeeg.Fault as fault:
        found = f"{fault}, status {fault.status}"
    except burjeeg.Closed:
        found = "closed"
    if found != wanted:
        print(f"{what}: {found}, and not {wanted}")
        wrong = 1


says("no image", "x10p: image: Short, status 1", lambda: burjeeg.Module(b""))
for places in (-1, 0, 1, 65, 65536, 65538):
    says(f"{places} places", "x10p: places, status 1", lambda: burjeeg.World(module, places))
    says(f"place 0 of {places}", "x10p: places, status 1", lambda: burjeeg.Place(module, 0, places))
for number in (-1, 2, 65536):
    says(f"place {number}", "x10p: places, status 1", lambda: burjeeg.Place(module, number, 2))
says("a run at 65536 places", "x10p: places, status 1", lambda: burjeeg.run(image, places=65536))

with burjeeg.World(module, 2) as world, burjeeg.Place(module, 0, 2) as place:
    says("keys", [0], lambda: list(world.keys(0)))
    says("keys of a place", [0], lambda: list(place.keys()))
    for number in (-1, 9, 1 << 32, 1 << 64):
        says(f"a step with key {number}", (False, []), lambda: (place.step(number), place.sent()))
        says(f"frame {number}", (False, None), lambda: (world.deliver(number), world.frame(number)))
        says(f"place {number} of a world", ([], [], []), lambda: (list(world.keys(number)), list(world.in_flight(number)), world.lines(number)))
        says(f"steps of a world with {number}", (False, False), lambda: (world.step(number, 0), world.step(0, number)))
    says("the run has begun", ([0], None, False, False), lambda: (list(world.keys(0)), world.next_frame(1), world.ended, place.ended))
    says("bytes of a frame", "x10p: frame: Place, status 1", lambda: place.receive(bytes([2, 4]) + bytes(40)))

place.close()
for call in (place.sent, place.lines, lambda: place.ended, lambda: place.step(0), lambda: place.next_key(), lambda: place.receive(b"")):
    says("a place that was closed", "closed", call)
for call in (lambda: world.lines(0), lambda: world.ended, lambda: world.frame(0), lambda: world.deliver(0), lambda: world.next_key(0)):
    says("a world that was closed", "closed", call)
module.close()
says("a module that was closed", "closed", lambda: burjeeg.Place(module, 0, 2))
says("a module that was closed", "closed", lambda: burjeeg.World(module, 2))
sys.exit(wrong)
