"""A tour of the module burjeeg: python3 tour.py FOLDER, where FOLDER has the texts of examples/."""

import sys
from pathlib import Path

import burjeeg

folder = Path(sys.argv[1])

# from a text to an image, and back
image = burjeeg.assemble((folder / "remote_counter.asm").read_text(encoding="utf-8"))
assert burjeeg.assemble(burjeeg.listing(image)) == image
print(f"{len(image)} bytes")

# what is known before the run
burjeeg.verify(image)
print("bounds", *burjeeg.bounds(image))

# the run
print(burjeeg.run(image), end="")

# what is refused, and why
report = burjeeg.explain((folder / "counter_refused.asm").read_text(encoding="utf-8"))
print(report.fault)
print(report.text, end="")

# a run that is stopped has printed something
try:
    burjeeg.run(image, limit=1)
except burjeeg.Fault as fault:
    print(f"{fault}, status {fault.status}, {len(fault.output)} bytes until then")

# a run event by event: the places in turn, at each first the frames that are in flight to it, and then a step of each activity
with burjeeg.Module(image) as module, burjeeg.World(module, 2) as world:
    while not world.ended:
        for place in range(world.places):
            for number in world.in_flight(place):
                print(f"frame {number} to place {place}: {world.frame(number).data.hex()}")
                world.deliver(number)
            for key in world.keys(place):
                world.step(place, key)
    for place in range(world.places):
        print(*(f"{place}: {line}" for line in world.lines(place)), sep="\n")

# two places, and what carries the frames between them: here each comes at once
with burjeeg.Module(image) as module, burjeeg.Place(module, 0, 2) as first, burjeeg.Place(module, 1, 2) as second:
    places = [first, second]
    while not first.ended:
        for place in places:
            for key in place.keys():
                if place.step(key):
                    for frame in place.sent():
                        places[frame.to].receive(frame.data)
    print(*first.lines(), *second.lines())

    # what is no frame is refused, and changes nothing
    try:
        second.receive(b"no frame")
    except burjeeg.Fault as fault:
        print(fault)

# what was closed answers no more
try:
    world.step(0, 0)
except burjeeg.Closed as why:
    print(why)
