"""Times a history of the context store: from 10,000 to 1,000,000 events of 64 sessions over 512 contexts, and from
100,000 to 3,000,000 events over contexts of which each is another one.

Run by hand, at the top of the repository: python3 bench/history.py
The events are made by a small program, the crate ld_bench. What counts is the time of an event, which stays the same
however long the history is, and its memory. Times are those of the processor, so that other work on the machine tells
little. The memory is the most that the program has, less what it has for one event, and counts the texts of the IRIs.
"""

import pathlib
import subprocess

from times import best, most_memory

TOP = pathlib.Path(__file__).resolve().parent.parent
FEW = (10_000, 30_000, 100_000, 300_000, 1_000_000)
DISTINCT = (100_000, 1_000_000, 3_000_000)


def main():
    folder = TOP / "crates" / "ld_bench"
    # rt has no command that only builds a program: this proves and builds it, and runs it once.
    subprocess.run(["rt", "run", "--", "1"], cwd=folder, stdout=subprocess.DEVNULL, stderr=subprocess.DEVNULL, check=True)
    program = str(folder / "out" / "ld_bench")
    print(f"{'contexts':>9} {'events':>9} {'seconds':>8} {'microseconds an event':>22} {'bytes an event':>15}")
    for word, counts in (("few", FEW), ("distinct", DISTINCT)):
        words = [word] if word == "distinct" else []
        least = most_memory([program, "1", *words])
        for events in counts:
            command = [program, str(events), *words]
            seconds = best(command)
            memory = most_memory(command) - least
            print(f"{word:>9} {events:9} {seconds:8.3f} {seconds / events * 1e6:22.2f} {memory / events:15.1f}")


if __name__ == "__main__":
    main()
