"""Times flattening on hostile documents, in doubling sizes.

Run by hand: build the program ld_nodes_bench (`rt run -- values 100` in crates/ld_nodes_bench), and then, at the top of
the repository: python3 bench/flatten.py PROGRAM

PROGRAM is the built program's path. It makes each document itself, so that reading and printing don't count; making it
does. What counts is the ratio of one size to half of it: near 2. Times are those of the processor, so that other work
on the machine tells little.
"""

import sys

from times import best

KINDS = ("values", "meetings", "types", "blanks", "long")
SIZES = (25_000, 50_000, 100_000, 200_000, 400_000)


def main():
    program = sys.argv[1]
    print(f"{'kind':10} {'count':>8} {'seconds':>8} {'ratio':>6}")
    for kind in KINDS:
        before = None
        for size in SIZES:
            seconds = best([program, kind, str(size)])
            ratio = f"{seconds / before:6.2f}" if before else " " * 6
            print(f"{kind:10} {size:8} {seconds:8.3f} {ratio}", flush=True)
            before = seconds


main()
