"""Times `./tulleshale compact` on doubling documents, beside PyLD where it is installed.

Run by hand, at the top of the repository: python3 bench/compact.py

Each document is compacted with the context that it holds, so it is expanded first; PyLD does the same. It prints a line
for each document, and then the rows of the table in README.md. What counts are the ratios: of one size to half of it
(near 2), and of the two programs in one run. Times are taken as in bench/expand.py.
"""

import json
import pathlib
import subprocess
import sys
import tempfile

import documents
from documents import SIZES, filled
from expand import PYLD_IMPORTS, TOP, Peer, has_pyld, spread
from times import best

PYLD_WORK = 'e = json.load(open(sys.argv[1])); json.dumps(jsonld.compact(e["document"], {"@context": e["context"]}))'


def one_property(size):
    """One property of one node with many values."""
    context = {"n": "http://e.example/n"}
    return {"@context": context, "n": [1_000_000 + n for n in range(size // 8)]}


def graphs(size):
    """One map of many named graphs."""
    context = {
        "graphs": {"@id": "http://e.example/graphs", "@container": ["@graph", "@id"]},
        "name": "http://e.example/name",
    }
    items = filled(size, lambda n: [f"http://e.example/g{n}", {"@id": f"http://e.example/{n}", "name": f"name {n}"}])
    return {"@context": context, "graphs": dict(items)}


def nested(size):
    """Nodes forty deep within one another."""
    def chain(n):
        inner = {"@id": f"http://e.example/{n}/end"}
        for k in range(40):
            inner = {"@id": f"http://e.example/{n}/{k}", "next": inner}
        return inner

    return {"@context": {"next": "http://e.example/next"}, "@graph": filled(size, chain)}


KINDS = (
    documents.twenty_terms,
    documents.many_terms,
    documents.typed_nodes,
    documents.index_map,
    documents.language_map,
    documents.reversed_terms,
    one_property,
    graphs,
    nested,
)


def envelope(kind, size):
    """The text of an envelope with a document of about this many bytes and the context that it holds."""
    document = kind(size)
    text = json.dumps({"document": document, "context": document["@context"]}, separators=(",", ":"))
    assert len(text) <= 4_194_304, (kind.__name__, len(text))
    return text


def main():
    # The script builds the program where it must; what is timed is the program.
    subprocess.run([str(TOP / "tulleshale"), "expand"], input=b'{"document":{}}', stdout=subprocess.DEVNULL, check=True)
    program = str(TOP / "build" / "tulleshale")
    python = next((p for p in ("/usr/bin/python3", sys.executable) if has_pyld(p)), None)
    peer = Peer(python, PYLD_IMPORTS, PYLD_WORK, runs=1) if python else None
    print(f"{'document':16} {'MB':>5} {'seconds':>8} {'ratio':>6} {'MB/s':>6} {'PyLD':>7}")
    rows = []
    with tempfile.TemporaryDirectory() as folder:
        path = f"{folder}/document.json"
        for kind in KINDS:
            before, rates, times_as_long = None, [], []
            for size in SIZES[:3]:
                text = envelope(kind, size)
                pathlib.Path(path).write_text(text)
                megabytes = len(text) / 1e6
                own = best([program, "compact"], path, runs=3)
                rates.append(megabytes / own)
                if peer:
                    times_as_long.append(peer.seconds(path) / own)
                ratio = f"{own / before:.2f}" if before else ""
                shown = f"{times_as_long[-1]:.1f}x" if peer else ""
                print(f"{kind.__name__:16} {megabytes:5.2f} {own:8.3f} {ratio:>6} {rates[-1]:6.1f} {shown:>7}", flush=True)
                before = own
            words = kind.__doc__.splitlines()[0].rstrip(".")
            pyld = spread(times_as_long, "{:.1f}") + " times as long" if peer else "not installed"
            rows.append(f"| {words[0].lower() + words[1:]} | {spread(rates, '{:.1f}')} | {pyld} |")
    print("\n| document | MB a second | PyLD takes |")
    print("|---|---|---|")
    print("\n".join(rows))


if __name__ == "__main__":
    main()
