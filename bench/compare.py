"""Compares `./tulleshale schedule` with a plain model in Python, on scripts drawn at random.

Run by hand, at the top of the repository: python3 bench/compare.py [first seed] [how many]
Each script is drawn by its seed, so a difference can be looked at again.
"""

import collections
import pathlib
import random
import subprocess
import sys

from store_model import LAST_FAULT, SERVER, Store

TOP = pathlib.Path(__file__).resolve().parent.parent
LENGTHS = (0, 3, 1_048_576, 1_048_577)
VERBS = {"open": 2, "pin": 16, "lack": 12, "give": 12, "fail": 1, "lapse": 1, "evict": 4, "revise": 4, "answer": 12, "close": 1}


def draw_limits(draw):
    if draw.random() < 0.3:
        return SERVER
    events = draw.choice((SERVER[2], SERVER[2], 2000, 1500, 900))
    size = draw.choice((SERVER[3], SERVER[3], 3 * 1_050_624, 1_050_630))
    return (draw.choice((0, 1, 2, 3, 5)), draw.choice((0, 1, 2, 3, 64)), events, size)


def draw_line(draw, store, iris):
    """A line that often may come: of a session and a flight that are there, more or less."""
    (verb,) = draw.choices(list(VERBS), VERBS.values())
    session = draw.randint(1, max(1, store.opened + (draw.random() < 0.05)))
    flight = draw.randint(max(1, len(store.flights) - 2), max(1, len(store.flights)))
    if verb == "open":
        return f"open {draw.choice((0, 1, 2, 255, 256))}"
    if verb in ("pin", "answer", "close"):
        return f"{verb} {session}"
    if verb in ("lack", "evict", "revise"):
        return f"{verb} {session} {draw.choice(iris)}"
    if verb == "give":
        return f"give {flight} {draw.choice(LENGTHS)} {draw.choice('mn')}"
    if verb == "fail":
        return f"fail {flight} {draw.choice((0, 1, LAST_FAULT))} {draw.choice((1, 2, LAST_FAULT))}"
    return f"lapse {flight}"


def draw_script(seed):
    """A script, and what the model prints of it."""
    draw = random.Random(seed)
    limits = draw_limits(draw)
    iris = ("a", "b", "c", "dd", "e", "x" * 2048, "y" * 2049)[: draw.choice((2, 4, 7))]
    store = Store(limits)
    script, printed = [f"limits {limits[0]} {limits[1]} {limits[2]} {limits[3]}"], []
    for place in range(draw.choice((20, 60, 200))):
        line = f"open {place}" if place < 3 else draw_line(draw, store, iris)
        script.append(line)
        printed += store.run(line)
    printed.append(f"version {store.version} events {store.events}")
    return script, printed


def main():
    first, count = (int(word) for word in (sys.argv[1:] + ["0", "3000"][len(sys.argv) - 1 :]))
    subprocess.run([str(TOP / "tulleshale"), "schedule"], input=b"", stdout=subprocess.DEVNULL, check=True)
    program = str(TOP / "build" / "tulleshale")
    kinds, differ = collections.Counter(), 0
    for seed in range(first, first + count):
        script, printed = draw_script(seed)
        text = "".join(line + "\n" for line in script)
        seen = subprocess.run([program, "schedule"], input=text, capture_output=True, text=True).stdout.splitlines()
        kinds.update(line.split(" ")[0] for line in printed)
        if seen != printed:
            differ += 1
            print(f"seed {seed} differs")
    print(f"{count} scripts, {differ} differ")
    print(", ".join(f"{number} {kind}" for kind, number in kinds.most_common()))


if __name__ == "__main__":
    main()
