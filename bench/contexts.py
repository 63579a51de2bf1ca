"""Times the processing of hostile contexts, in doubling sizes, and of a plain one.

Run by hand, at the top of the repository: python3 bench/contexts.py

Each context stands in a document that has nothing else, so what is timed is reading it and processing it. What counts
is the ratio of one size to half of it: near 2. Times are those of the processor, so that other work on the machine
tells little.
"""

import json
import pathlib
import subprocess
import tempfile

from times import best

TOP = pathlib.Path(__file__).resolve().parent.parent
SIZES = (131_072, 262_144, 524_288, 1_048_576)
SPREAD = 0x9E3779B1


def filled(size, entry):
    """A map of as many entries as take about this many bytes."""
    context = {}
    length = 0
    while length < size:
        name, value = entry(len(context))
        context[name] = value
        length += len(name) + len(json.dumps(value, separators=(",", ":"))) + 4
    return context


def mixed_names(size):
    """Names in no order."""
    return filled(size, lambda n: (f"t{n * SPREAD % 2**32:010}", "http://e.example/"))


def prefix_chain(size):
    """Each term names the next one as its prefix."""
    return filled(size, lambda n: (f"t{n:07}", f"t{n + 1:07}:x"))


def long_mappings(size):
    """Each term's mapping is the one before it and a little more, up to 200 of them."""
    return filled(size, lambda n: (f"t{n:07}", f"t{n - 1:07}:/" if n % 200 else "http://e.example/"))


def protected_twice(size):
    """The same protected terms twice."""
    terms = filled(size // 2, lambda n: (f"t{n:07}", "http://e.example/"))
    return [{"@protected": True, **terms}, terms]


def many_contexts(size):
    """Contexts of one term each, one after the other."""
    count = size // 32
    return [{f"t{n:07}": "http://e.example/"} for n in range(count)]


def scoped_empty(size):
    """Terms that each have an empty context of their own."""
    return filled(size, lambda n: (f"t{n:07}", {"@id": "http://e.example/", "@context": {}}))


def scoped_terms(size):
    """Terms that each have a context of one term of their own."""
    return filled(size, lambda n: (f"t{n:07}", {"@id": "http://e.example/", "@context": {"u": "http://e.example/u"}}))


def plain():
    """A plain context of 3,000 terms."""
    return {f"term{n}": {"@id": f"http://e.example/{n}", "@type": "@id"} if n % 3 else f"http://e.example/{n}" for n in range(3_000)}


KINDS = (mixed_names, prefix_chain, long_mappings, protected_twice, many_contexts, scoped_empty, scoped_terms)


def seconds(program, context):
    with tempfile.NamedTemporaryFile("w") as file:
        json.dump({"document": {"@context": context}}, file, separators=(",", ":"))
        file.flush()
        return best([program, "expand"], file.name, runs=3)


def main():
    # The script builds the program where it must; what is timed is the program.
    subprocess.run([str(TOP / "tulleshale"), "expand"], input=b'{"document":{}}', stdout=subprocess.DEVNULL, check=True)
    program = str(TOP / "build" / "tulleshale")
    print(f"{'context':16} {'MB':>5} {'seconds':>8} {'ratio':>6}")
    print(f"{'plain':16} {len(json.dumps(plain())) / 1e6:5.2f} {seconds(program, plain()):8.3f}")
    for kind in KINDS:
        before = None
        for size in SIZES:
            context = kind(size)
            now = seconds(program, context)
            ratio = f"{now / before:.2f}" if before else ""
            print(f"{kind.__name__:16} {len(json.dumps(context, separators=(',', ':'))) / 1e6:5.2f} {now:8.3f} {ratio:>6}", flush=True)
            before = now


if __name__ == "__main__":
    main()
