"""Times turns at the turn lock, beside the same turns at a plain `Mutex`, for 1, 2, 4 and 64 threads.

Run by hand, at the top of the repository: python3 bench/turns.py
A small program, the crate ld_turn_bench, takes the turns; the work of each takes about a microsecond. What counts is the
time on the clock, so the machine should have nothing else to do.
"""

import pathlib
import subprocess
import time

TOP = pathlib.Path(__file__).resolve().parent.parent
THREADS = (1, 2, 4, 64)
TURNS = 256_000
RUNS = 5


def turns_a_second(program, kind, threads):
    """The most turns a second over some runs."""
    times = []
    for _ in range(RUNS):
        begin = time.perf_counter()
        subprocess.run([program, kind, str(threads), str(TURNS // threads)], stdout=subprocess.DEVNULL, check=True)
        times.append(time.perf_counter() - begin)
    return TURNS / min(times)


def main():
    folder = TOP / "crates" / "ld_turn_bench"
    # rt has no command that only builds a program: this proves and builds it, and runs it once.
    subprocess.run(["rt", "run", "--", "lock", "1", "1"], cwd=folder, stdout=subprocess.DEVNULL, stderr=subprocess.DEVNULL, check=True)
    program = str(folder / "out" / "ld_turn_bench")
    print(f"{'threads':>7} {'turn lock':>10} {'Mutex':>10}  turns a second")
    for threads in THREADS:
        lock, mutex = (turns_a_second(program, kind, threads) for kind in ("lock", "mutex"))
        print(f"{threads:7} {lock:10.0f} {mutex:10.0f}")


if __name__ == "__main__":
    main()
