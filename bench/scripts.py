"""Times `./tulleshale schedule` on scripts of 20,000 to 200,000 lines.

Run by hand, at the top of the repository: python3 bench/scripts.py
What counts is the time of a line, which stays the same however long the script is.
"""

import pathlib
import subprocess
import tempfile

from times import best

TOP = pathlib.Path(__file__).resolve().parent.parent
LINES = (20_000, 50_000, 100_000, 200_000)
SESSIONS = 64
CONTEXTS = 512


def script(count):
    """So many lines, turn after turn: each session lacks a context, leads a flight for it and is answered.

    The contexts are asked for in a circle of twice what the store holds, so each went out before it is asked for again.
    """
    lines = [f"open {seat}" for seat in range(SESSIONS)]
    sessions = range(1, SESSIONS + 1)
    flights = 0
    while len(lines) < count:
        lines += [f"pin {session}" for session in sessions]
        lines += [f"lack {session} c{(flights + session) % CONTEXTS}" for session in sessions]
        lines += [f"give {flights + session} 0 m" for session in sessions]
        lines += [f"pin {session}" for session in sessions]
        lines += [f"answer {session}" for session in sessions]
        flights += SESSIONS
    return "".join(line + "\n" for line in lines[:count])


def main():
    # The script builds the program where it must; what is timed is the program.
    subprocess.run([str(TOP / "tulleshale"), "schedule"], input=b"", stdout=subprocess.DEVNULL, check=True)
    program = str(TOP / "build" / "tulleshale")
    print(f"{'lines':>9} {'seconds':>8} {'microseconds a line':>20}")
    with tempfile.TemporaryDirectory() as folder:
        for count in LINES:
            path = f"{folder}/script"
            pathlib.Path(path).write_text(script(count))
            seconds = best([program, "schedule"], path)
            print(f"{count:9} {seconds:8.3f} {seconds / count * 1e6:20.2f}")


if __name__ == "__main__":
    main()
