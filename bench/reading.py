"""Times the reading of JSON texts alone, beside Python's json, with the size doubled twice.

Run by hand, at the top of the repository: python3 bench/reading.py

The small program, the crate ld_tree_bench, reads standard input once and the tree of it so often. What it takes for one
reading is the difference of many and of one, by the processor's time, so that its start, the input and other work on the
machine don't count; Python's json is timed alike. What counts are the megabytes a second beside Python's in one run, and
that a kind keeps its speed at twice the size.
"""

import json
import pathlib
import random
import subprocess
import tempfile
import time

from times import best

TOP = pathlib.Path(__file__).resolve().parent.parent
SIZES = (500_000, 1_000_000, 2_000_000)
ROUNDS = 21


def whole(item, size):
    """A list of as many items as have this size."""
    count = max(1, size // (len(json.dumps(item(0), ensure_ascii=False, separators=(",", ":")).encode()) + 1))
    return [item(number) for number in range(count)]


def kinds():
    draw = random.Random(7)
    return {
        "long strings": lambda n: "plain text of some length, with nothing to escape in it. " * 20,
        "strings of another script": lambda n: "Слова без знаков, 言葉, ordinary words. " * 20,
        "strings with escapes": lambda n: 'a "word"\nand\tothers\\ ' * 20,
        "short strings": lambda n: f"word {n % 1000}",
        "numbers": lambda n: draw.randrange(-(10**9), 10**9),
        "small maps": lambda n: {"@id": f"http://example.org/{n}", "name": f"n{n}"},
        "value objects": lambda n: {"@value": n},
        "maps of ten names": lambda n: {f"name{k}": k for k in range(10)},
    }


def pythons(text):
    """The least processor time of one reading by Python's json."""
    times = []
    for _ in range(5):
        start = time.process_time()
        json.loads(text)
        times.append(time.process_time() - start)
    return min(times)


def ours(program, path):
    """The processor time of one reading, of many."""
    return (best([program, "read", str(ROUNDS)], path) - best([program, "read", "1"], path)) / (ROUNDS - 1)


def main():
    folder = TOP / "crates" / "ld_tree_bench"
    # rt has no command that only builds a program: this proves and builds it, and runs it once.
    subprocess.run(["rt", "run", "--", "lines"], cwd=folder, stdin=subprocess.DEVNULL, stdout=subprocess.DEVNULL, stderr=subprocess.DEVNULL, check=True)
    program = str(folder / "out" / "ld_tree_bench")
    print(f"{'kind':28} {'MB':>5} {'MB/s':>7} {'json':>7} {'ratio':>6}")
    for name, item in kinds().items():
        for size in SIZES:
            text = json.dumps(whole(item, size), ensure_ascii=False, separators=(",", ":")).encode()
            with tempfile.NamedTemporaryFile() as file:
                file.write(text)
                file.flush()
                mine = len(text) / ours(program, file.name) / 1e6
            theirs = len(text) / pythons(text) / 1e6
            print(f"{name:28} {len(text) / 1e6:5.2f} {mine:7.1f} {theirs:7.1f} {mine / theirs:6.2f}")


if __name__ == "__main__":
    main()
