"""Times `./tulleshale expand` on doubling documents, beside Python's json and, where it is installed, PyLD.

Run by hand, at the top of the repository:

    python3 bench/expand.py [AN EARLIER BUILD OF THE PROGRAM]

It prints a line for each document, and then the rows of the table in README.md. What counts are the ratios: of one
size to half of it (near 2), and of two programs in one run. Each time is the least of several runs, and one of the
processor, so that other work on the machine tells little. What Python takes to start, to import its modules and to
end doesn't count. The program's own start and end do.
"""

import pathlib
import subprocess
import sys
import tempfile

from documents import KINDS, SIZES, envelope
from times import best

TOP = pathlib.Path(__file__).resolve().parent.parent
JSON_IMPORTS = "import json, sys, time\n"
JSON_WORK = 'json.dumps(json.load(open(sys.argv[1])), separators=(",", ":"))'
PYLD_IMPORTS = "import json, sys, time\nfrom pyld import jsonld\n"
PYLD_WORK = 'json.dumps(jsonld.expand(json.load(open(sys.argv[1]))["document"]))'
CLOCKED = "start = time.process_time()\n{}\nprint(time.process_time() - start)"


def has_pyld(python):
    return subprocess.run([python, "-c", PYLD_IMPORTS], stderr=subprocess.DEVNULL).returncode == 0


class Peer:
    """What a Python program does with a document, by its own clock: without its start, imports and end."""

    def __init__(self, python, imports, work, runs):
        self.command, self.runs = [python, "-c", imports + CLOCKED.format(work)], runs

    def seconds(self, path):
        return min(float(subprocess.check_output([*self.command, path])) for _ in range(self.runs))


def spread(values, form):
    """The least and the greatest value, as the table has them."""
    least, greatest = form.format(min(values)), form.format(max(values))
    return least if least == greatest else f"{least} to {greatest}"


def main():
    # The script builds the program where it must; what is timed is the program.
    subprocess.run([str(TOP / "tulleshale"), "expand"], input=b'{"document":{}}', stdout=subprocess.DEVNULL, check=True)
    program = str(TOP / "build" / "tulleshale")
    earlier = sys.argv[1] if len(sys.argv) > 1 else None
    python = next((p for p in ("/usr/bin/python3", sys.executable) if has_pyld(p)), None)
    peers = {"json": Peer(sys.executable, JSON_IMPORTS, JSON_WORK, runs=5)}
    if python:
        peers["PyLD"] = Peer(python, PYLD_IMPORTS, PYLD_WORK, runs=3)
    print("ratio: to the document before it. earlier, json, PyLD: how many times as long as the program they take")
    print(f"{'document':16} {'MB':>5} {'seconds':>8} {'ratio':>6} {'MB/s':>6} {'earlier':>8} {'json':>7} {'PyLD':>7}")
    rows = []
    with tempfile.TemporaryDirectory() as folder:
        path = f"{folder}/document.json"
        for kind in KINDS:
            before, rates, times_as_long = None, [], {name: [] for name in peers}
            for size in SIZES:
                text = envelope(kind, size)
                pathlib.Path(path).write_text(text)
                megabytes = len(text) / 1e6
                own = best([program, "expand"], path)
                rates.append(megabytes / own)
                for name, peer in peers.items():
                    times_as_long[name].append(peer.seconds(path) / own)
                ratio = f"{own / before:.2f}" if before else ""
                was = f"{best([earlier, 'expand'], path) / own:.2f}x" if earlier else ""
                shown = {name: f"{all_of[-1]:.1f}x" for name, all_of in times_as_long.items()}
                print(
                    f"{kind.__name__:16} {megabytes:5.2f} {own:8.3f} {ratio:>6} {rates[-1]:6.0f} {was:>8}"
                    f" {shown['json']:>7} {shown.get('PyLD', ''):>7}",
                    flush=True,
                )
                before = own
            words = kind.__doc__.splitlines()[0].rstrip(".")
            pyld = spread(times_as_long["PyLD"], "{:.0f}") + " times as long" if python else "not installed"
            json_takes = spread(times_as_long["json"], "{:.1f}") + " times as long"
            rows.append(f"| {words[0].lower() + words[1:]} | {spread(rates, '{:.0f}')} | {pyld} | {json_takes} |")
    print("\n| document | MB a second | PyLD takes | Python's `json` (reading and writing) takes |")
    print("|---|---|---|---|")
    print("\n".join(rows))


if __name__ == "__main__":
    main()
