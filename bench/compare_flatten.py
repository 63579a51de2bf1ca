"""Compares `./tulleshale flatten` with PyLD, on documents with contexts drawn at random.

Run by hand, at the top of the repository, where PyLD is installed: python3 bench/compare_flatten.py [first seed] [how many]

PyLD flattens what the program expands, so that differences of expansion don't count. What docs/differences.md lists of
empty graphs and of the types of value objects is told apart.
"""

import collections
import json
import pathlib
import subprocess
import sys

from drawn_documents import draw_document

TOP = pathlib.Path(__file__).resolve().parent.parent
PEER = """
import json, sys
from pyld import jsonld
for line in sys.stdin:
    try:
        answer = ['flattened', jsonld.flatten(json.loads(line), None, {'base': ''})]
    except Exception as e:
        answer = ['gave up', type(e).__name__]
    print(json.dumps(answer), flush=True)
"""


def answer(program, word, document):
    """The tree that the program writes, or None where it refuses the document."""
    ended = subprocess.run([program, word], input=json.dumps({"document": document}).encode(), stdout=subprocess.PIPE)
    return json.loads(ended.stdout) if ended.returncode == 0 else None


def settled(tree):
    """The tree without its empty graphs, and with single types of value objects as texts."""
    if isinstance(tree, list):
        return [settled(item) for item in tree]
    if not isinstance(tree, dict):
        return tree
    kept = {name: settled(value) for name, value in tree.items() if (name, value) != ("@graph", [])}
    if "@value" in kept and isinstance(kept.get("@type"), list) and len(kept["@type"]) == 1:
        kept["@type"] = kept["@type"][0]
    if "@graph" in kept:
        kept["@graph"] = [node for node in kept["@graph"] if set(node) != {"@id"}]
    return kept


def nodes_of(tree):
    """The settled nodes that have more than an identifier."""
    return [node for node in settled(tree) if set(node) != {"@id"}]


def kind_of(ours, theirs):
    """The same, or how the two differ."""
    if theirs[0] == "gave up":
        return f"PyLD gave up with {theirs[1]}"
    if ours is None:
        return "a code beside another flattening"
    if ours == theirs[1]:
        return "the same"
    return "the same but for own choices" if nodes_of(ours) == nodes_of(theirs[1]) else "another flattening"


def main():
    first = int(sys.argv[1]) if len(sys.argv) > 1 else 1
    count = int(sys.argv[2]) if len(sys.argv) > 2 else 3_000
    # The script builds the program where it must; what is run is the program.
    subprocess.run([str(TOP / "tulleshale"), "expand"], input=b'{"document":{}}', stdout=subprocess.DEVNULL, check=True)
    program = str(TOP / "build" / "tulleshale")
    peer = subprocess.Popen(["/usr/bin/python3", "-c", PEER], stdin=subprocess.PIPE, stdout=subprocess.PIPE, text=True)
    seen = collections.Counter()
    for seed in range(first, first + count):
        document = draw_document(seed)
        expanded = answer(program, "expand", document)
        if expanded is None:
            seen["not expanded"] += 1
            continue
        ours = answer(program, "flatten", document)
        peer.stdin.write(json.dumps(expanded) + "\n")
        peer.stdin.flush()
        theirs = json.loads(peer.stdout.readline())
        kind = kind_of(ours, theirs)
        seen[kind] += 1
        if kind == "another flattening":
            print(f"seed {seed}:\n  {json.dumps(expanded)}\n  ours   {json.dumps(ours)}\n  theirs {json.dumps(theirs[1])}")
    for kind, times in seen.most_common():
        print(f"{times:6} {kind}")


if __name__ == "__main__":
    main()
