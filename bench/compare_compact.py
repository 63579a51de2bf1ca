"""Compares `./tulleshale compact` with PyLD, on documents and contexts drawn at random.

Run by hand, at the top of the repository, where PyLD is installed:

    python3 bench/compare_compact.py [first seed] [how many]

Both compact what the program expands of a drawn document, expanded once more, with the context of another drawn document
or with its own, so that differences of expansion count little. What docs/differences.md lists of contexts that say
nothing, of contexts in an array of one, and of empty types is told apart. Beside that, the program expands what it
compacted, and the two expansions are compared.
"""

import collections
import json
import pathlib
import subprocess
import sys

from drawn_documents import draw_document

TOP = pathlib.Path(__file__).resolve().parent.parent
PEER = """
import json, sys
from pyld import jsonld
for line in sys.stdin:
    expanded, context = json.loads(line)
    try:
        options = {'base': '', 'skipExpansion': True}
        answer = ['compacted', jsonld.compact(expanded, {'@context': context}, options)]
    except jsonld.JsonLdError as e:
        cause = e
        while getattr(cause, 'cause', None) is not None and isinstance(cause.cause, jsonld.JsonLdError):
            cause = cause.cause
        answer = ['code', cause.code or e.code or 'none']
    except Exception as e:
        answer = ['gave up', type(e).__name__]
    print(json.dumps(answer), flush=True)
"""


def run(program, word, envelope):
    """The tree that the program writes, and whether it is a result."""
    ended = subprocess.run([program, word], input=json.dumps(envelope).encode(), stdout=subprocess.PIPE)
    if ended.returncode not in (0, 1, 5):
        raise SystemExit(f"status {ended.returncode} at {json.dumps(envelope)}")
    return json.loads(ended.stdout), ended.returncode == 0


def context_of(document):
    """The context that a drawn document holds, or none."""
    return document.get("@context", {}) if isinstance(document, dict) else {}


def settled(tree):
    """The tree without empty types."""
    if isinstance(tree, list):
        return [settled(item) for item in tree]
    if not isinstance(tree, dict):
        return tree
    return {name: settled(value) for name, value in tree.items() if value != [] or name not in ("@type", "type")}


def without_context(tree):
    """The settled tree without its context."""
    return {name: value for name, value in settled(tree).items() if name != "@context"}


def kind_of(ours, is_result, theirs):
    """The same, or how the two differ."""
    if theirs[0] == "gave up":
        return f"PyLD gave up with {theirs[1]}"
    if not is_result:
        if "code" not in ours:
            return "a refusal of our own"
        if theirs[0] != "code":
            return "a code beside a result"
        return "the same code" if theirs[1] == ours["code"] else "another code"
    if theirs[0] == "code":
        return "a result beside a code"
    if ours == theirs[1]:
        return "the same"
    return "the same but for own choices" if without_context(ours) == without_context(theirs[1]) else "another result"


def main():
    first = int(sys.argv[1]) if len(sys.argv) > 1 else 1
    count = int(sys.argv[2]) if len(sys.argv) > 2 else 2_000
    shown = sys.argv[3:]
    # The script builds the program where it must; what is run is the program.
    subprocess.run([str(TOP / "tulleshale"), "expand"], input=b'{"document":{}}', stdout=subprocess.DEVNULL, check=True)
    program = str(TOP / "build" / "tulleshale")
    peer = subprocess.Popen(["/usr/bin/python3", "-c", PEER], stdin=subprocess.PIPE, stdout=subprocess.PIPE, text=True)
    seen, again = collections.Counter(), collections.Counter()
    for seed in range(first, first + count):
        document = draw_document(seed)
        context = context_of(document if seed % 2 else draw_document(seed + 1_000_000))
        expanded, is_result = run(program, "expand", {"document": document})
        if not is_result:
            seen["not expanded"] += 1
            continue
        # What stands right in a graph as a value is dropped when it is expanded again.
        expanded, _ = run(program, "expand", {"document": expanded})
        ours, is_result = run(program, "compact", {"document": expanded, "context": context})
        peer.stdin.write(json.dumps([expanded, context]) + "\n")
        peer.stdin.flush()
        theirs = json.loads(peer.stdout.readline())
        kind = kind_of(ours, is_result, theirs)
        seen[kind] += 1
        if kind in shown or (not shown and kind in ("another result", "another code", "a code beside a result", "a result beside a code")):
            print(f"seed {seed}, {kind}:\n  expanded {json.dumps(expanded)}\n  context  {json.dumps(context)}")
            print(f"  ours     {json.dumps(ours)}\n  theirs   {json.dumps(theirs[1])}")
        if is_result:
            back, is_result = run(program, "expand", {"document": ours})
            again["the same expansion" if back == expanded else "another expansion" if is_result else "a code"] += 1
    for kind, times in seen.most_common():
        print(f"{times:6} {kind}")
    print("what was compacted, expanded again:")
    for kind, times in again.most_common():
        print(f"{times:6} {kind}")


if __name__ == "__main__":
    main()
