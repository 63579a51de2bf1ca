"""Compares `./tulleshale expand` with PyLD, on documents with contexts drawn at random.

Run by hand, at the top of the repository, where PyLD is installed: python3 bench/compare_expand.py [first seed] [how many]

Each document is drawn by its seed, so a difference can be looked at again. What docs/differences.md lists is told
apart and counted by its heading there; a document that PyLD gives up on with an exception of Python's own is counted
too, and says nothing.
"""

import collections
import json
import pathlib
import subprocess
import sys

from drawn_documents import draw_document

TOP = pathlib.Path(__file__).resolve().parent.parent
PEER = """
import json, sys
from pyld import jsonld
def load(url, options):
    raise jsonld.JsonLdError('not loaded', 'jsonld.LoadDocumentError', code='loading document failed')
for line in sys.stdin:
    try:
        answer = ['expanded', jsonld.expand(json.loads(line), {'documentLoader': load, 'base': ''})]
    except jsonld.JsonLdError as e:
        codes = []
        while e is not None:
            codes.append(getattr(e, 'code', None))
            e = getattr(e, 'cause', None)
        answer = ['code', [c for c in codes if c]]
    except Exception as e:
        answer = ['gave up', type(e).__name__]
    print(json.dumps(answer), flush=True)
"""


class Peer:
    """PyLD, in a process of its own that answers a document a line."""

    def __init__(self):
        for python in ("/usr/bin/python3", sys.executable):
            if subprocess.run([python, "-c", "import pyld"], stderr=subprocess.DEVNULL).returncode == 0:
                self.process = subprocess.Popen([python, "-c", PEER], stdin=subprocess.PIPE, stdout=subprocess.PIPE, text=True)
                return
        raise SystemExit("PyLD isn't installed")

    def expand(self, document):
        self.process.stdin.write(json.dumps(document) + "\n")
        self.process.stdin.flush()
        return json.loads(self.process.stdout.readline())


def expanded(program, document):
    """What the program answers: an expansion, a code or a refusal of its own."""
    text = json.dumps({"document": document})
    ended = subprocess.run([program, "expand"], input=text.encode(), stdout=subprocess.PIPE)
    answer = json.loads(ended.stdout)
    if ended.returncode == 0:
        return ["expanded", answer]
    if ended.returncode == 1:
        return ["code", answer["code"]] if "code" in answer else ["own", answer]
    raise SystemExit(f"status {ended.returncode}: {text}")


def settled(tree):
    """The tree without what docs/differences.md lists of every document: the case of language tags, an empty `@type`,
    and `@none` as a name."""
    if isinstance(tree, list):
        return [settled(item) for item in tree]
    if not isinstance(tree, dict) or tree.get("@type") == "@json":
        return tree
    kept = {name: value for name, value in tree.items() if name != "@none" and (name, value) != ("@type", [])}
    return {name: value.lower() if name == "@language" and isinstance(value, str) else settled(value) for name, value in kept.items()}


def kind_of(ours, theirs):
    """The same, or how the two differ."""
    if theirs[0] == "gave up":
        return f"PyLD gave up with {theirs[1]}"
    if ours[0] == "own":
        return f"refused as {ours[1]['own']}"
    if ours[0] != theirs[0]:
        return f"{ours[0]} {ours[1] if ours[0] == 'code' else ''} beside {theirs[0]} {theirs[1] if theirs[0] == 'code' else ''}"
    if ours[0] == "code":
        return "the same code" if ours[1] in theirs[1] else f"code {ours[1]} beside {theirs[1]}"
    return "the same" if settled(ours[1]) == settled(theirs[1]) else "another expansion"


def main():
    first = int(sys.argv[1]) if len(sys.argv) > 1 else 1
    count = int(sys.argv[2]) if len(sys.argv) > 2 else 2_000
    # The script builds the program where it must; what is run is the program.
    subprocess.run([str(TOP / "tulleshale"), "expand"], input=b'{"document":{}}', stdout=subprocess.DEVNULL, check=True)
    program = str(TOP / "build" / "tulleshale")
    peer = Peer()
    seen = collections.Counter()
    shown = collections.Counter()
    for seed in range(first, first + count):
        document = draw_document(seed)
        ours, theirs = expanded(program, document), peer.expand(document)
        kind = kind_of(ours, theirs)
        seen[kind] += 1
        if kind not in ("the same", "the same code") and not kind.startswith(("PyLD gave up", "refused as")) and shown[kind] < 3:
            shown[kind] += 1
            print(f"seed {seed}: {kind}\n  {json.dumps(document)}\n  ours   {json.dumps(ours[1])}\n  theirs {json.dumps(theirs[1])}")
    for kind, times in seen.most_common():
        print(f"{times:6} {kind}")


if __name__ == "__main__":
    main()
