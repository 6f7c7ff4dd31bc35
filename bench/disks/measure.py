"""Durable batches on a file and on loop devices, by the proved console and by the floor in C, in runs that take turns.

Words: the folder of the programs, how many rounds, the file, and the loop devices with sectors of 512 and of 4,096 bytes.
"""
import pathlib
import statistics
import subprocess
import sys

import scripts
from runs import Runs, Work

BATCHES = 1_000


def formatted(program, path):
    """Makes an empty journal on the device, which has its length."""
    def prepare():
        words = [program, "--device", path]
        subprocess.run(words, input=f"format {BATCHES}\n".encode(), stdout=subprocess.DEVNULL, check=True)
    return prepare


def works(folder, places):
    """The console and the floor on each device, the two beside each other."""
    script = scripts.write(folder / "batches", scripts.turns(BATCHES, 15))
    for name, path in places.items():
        prepare = formatted(folder / "proved", path)
        yield f"proved on {name}", Work([folder / "proved", "--device", path], script, prepare)
        yield f"floor on {name}", Work([folder / "floor", path, str(BATCHES)], None, prepare)


def main():
    folder, rounds = pathlib.Path(sys.argv[1]), int(sys.argv[2])
    places = dict(zip(("a file", "sectors of 512 bytes", "sectors of 4,096 bytes"), sys.argv[3:]))
    on_file, *others = (f"proved on {name}" for name in places)
    found = Runs(folder, rounds).taking_turns(dict(works(folder, places)), [(on_file, other) for other in others], 6)
    for name in places:
        proved, floor = (found[f"{program} on {name}"].seconds for program in ("proved", "floor"))
        ratio = statistics.median(one / other for one, other in zip(floor, proved))
        speeds = (f"{BATCHES / statistics.median(seconds):,.0f}" for seconds in (proved, floor))
        print(f"{name}: batches a second: proved {next(speeds)}, floor {next(speeds)}; ratio {ratio:.2f}")


main()
