"""Times inverse contexts: their building, and the compaction of IRIs that terms map to and of IRIs that none does.

Run by hand, at the top of the repository: python3 bench/inverse.py

A small program, the crate ld_inverse_bench, makes contexts of 30, 300 and 3,000 terms, of which every tenth is a prefix.
What counts are the columns of one kind: a term costs the same to build whatever their number (but for a logarithm), and
an IRI costs the same to compact however many terms the context has. Times are those of the processor, so that other work
on the machine tells little; what the program takes for its context and its start is measured apart and left out.
"""

import pathlib
import subprocess

from times import best

TOP = pathlib.Path(__file__).resolve().parent.parent
TERMS = (30, 300, 3_000)
IRIS = 100_000


def microseconds(program, kind, terms, rounds):
    """What one round takes, without what is there before the first."""
    whole = best([program, kind, str(terms), str(rounds)])
    start = best([program, kind, str(terms), "0"])
    return (whole - start) / rounds * 1e6


def main():
    folder = TOP / "crates" / "ld_inverse_bench"
    # rt has no command that only builds a program: this proves and builds it, and runs it once.
    subprocess.run(["rt", "run", "--", "build", "1", "1"], cwd=folder, stdout=subprocess.DEVNULL, stderr=subprocess.DEVNULL, check=True)
    program = str(folder / "out" / "ld_inverse_bench")
    print(f"{'terms':>6} {'build, a term':>14} {'a term IRI':>11} {'another IRI':>12}  microseconds")
    for terms in TERMS:
        build = microseconds(program, "build", terms, 300_000 // terms) / terms
        mapped, others = (microseconds(program, kind, terms, IRIS) for kind in ("terms", "others"))
        print(f"{terms:6} {build:14.2f} {mapped:11.2f} {others:12.2f}")


if __name__ == "__main__":
    main()
