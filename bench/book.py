"""Times requests in one book: from 10,000 to 1,000,000 of one session that lack nothing, and from 10,000 to 1,000,000
that each lack a context, of twice as many as the store has places for, so that a place is made for each.

Run by hand, at the top of the repository: python3 bench/book.py
The requests are made by a small program, the crate ld_book_bench. What counts is the time of a request, which stays the
same however many came before it, and the memory of an event. Times are those of the processor, so that other work on the
machine tells little. The memory is the most that the program has, less what it has for one request; where contexts are
lacked it counts their texts and trees too, each of which stays in the book.
"""

import pathlib
import subprocess

from times import best, most_memory

TOP = pathlib.Path(__file__).resolve().parent.parent
COUNTS = (10_000, 30_000, 100_000, 300_000, 1_000_000)


def events(command):
    """How many events the program says that it made."""
    return int(subprocess.check_output(command).split()[-1])


def main():
    folder = TOP / "crates" / "ld_book_bench"
    # rt has no command that only builds a program: this proves and builds it, and runs it once.
    subprocess.run(["rt", "run", "--", "1"], cwd=folder, stdout=subprocess.DEVNULL, stderr=subprocess.DEVNULL, check=True)
    program = str(folder / "out" / "ld_book_bench")
    print(f"{'lacked':>9} {'requests':>9} {'seconds':>8} {'microseconds a request':>23} {'events':>8} {'bytes an event':>15}")
    for lacked, words in (("nothing", []), ("contexts", ["contexts"])):
        least = most_memory([program, "1", *words])
        for requests in COUNTS:
            command = [program, str(requests), *words]
            seconds = best(command)
            made = events(command)
            memory = most_memory(command) - least
            print(f"{lacked:>9} {requests:9} {seconds:8.3f} {seconds / requests * 1e6:23.2f} {made:8} {memory / made:15.1f}")


if __name__ == "__main__":
    main()
