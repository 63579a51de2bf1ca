"""Makes the documents that the benchmarks run on: envelopes of several kinds, each in doubling sizes."""

import json
import random

SIZES = (500_000, 1_000_000, 2_000_000, 4_000_000)


def nodes(size):
    """Many small maps with a few properties each."""
    items = []
    length = 0
    while length < size:
        n = len(items)
        item = {
            "@id": f"http://e.example/{n}",
            "@type": ["http://e.example/Thing"],
            "http://e.example/name": f"name {n}",
            "http://e.example/size": n,
        }
        items.append(item)
        length += len(json.dumps(item, separators=(",", ":"))) + 1
    return items


def names(size):
    """One map of many names, in no order."""
    random.seed(7)
    count = size // 40
    numbers = random.sample(range(10**9), count)
    return {f"http://e.example/{n:09}": n for n in numbers}


def reversed_names(size):
    """One map of many names in reverse order: 100,000 in about 4 MB."""
    count = size // 40
    return {f"http://e.example/names/{n:06}": n for n in reversed(range(count))}


def numbers(size):
    """One list of numbers."""
    return {"http://e.example/n": [1_000_000 + n % 9_000_000 for n in range(size // 8)]}


def plain_strings(size):
    """Long strings with nothing to escape."""
    return {"http://e.example/s": ["x" * 10_000 for _ in range(size // 10_000)]}


def escaped_strings(size):
    """Long strings in which every fourth character is escaped."""
    return {"http://e.example/s": ['ab\n"' * 1_600 for _ in range(size // 9_600)]}


def filled(size, make):
    """As many items as take about this many bytes."""
    items = []
    length = 0
    while length < size:
        items.append(make(len(items)))
        length += len(json.dumps(items[-1], separators=(",", ":"))) + 1
    return items


def with_terms(size, count):
    """Nodes with five properties each, under one context of this many terms."""
    context = {f"term{n}": f"http://e.example/terms/{n}" for n in range(count)}
    context["name"] = {"@id": "http://e.example/name", "@language": "en"}
    context["knows"] = {"@id": "http://e.example/knows", "@type": "@id"}
    room = size - len(json.dumps(context, separators=(",", ":")))
    return {
        "@context": context,
        "@graph": filled(
            room,
            lambda n: {
                "@id": f"http://e.example/{n}",
                "name": f"name {n}",
                "knows": f"http://e.example/{n + 1}",
                **{f"term{(n * 7 + k) % count}": n + k for k in range(3)},
            },
        ),
    }


def twenty_terms(size):
    """Nodes under one context of 20 terms."""
    return with_terms(size, 18)


def many_terms(size):
    """Nodes under one context of 2,000 terms."""
    return with_terms(size, 1_998)


def typed_nodes(size):
    """Nodes that each have a type with a scoped context."""
    context = {
        f"Type{n}": {"@id": f"http://e.example/Type{n}", "@context": {f"word{k}": f"http://e.example/{n}/{k}" for k in range(5)}}
        for n in range(10)
    }
    return {
        "@context": context,
        "@graph": filled(
            size,
            lambda n: {"@id": f"http://e.example/{n}", "@type": f"Type{n % 10}", **{f"word{k}": n for k in range(5)}},
        ),
    }


def index_map(size):
    """One index map of many keys."""
    context = {"posts": {"@id": "http://e.example/posts", "@container": "@index"}}
    keys = filled(size, lambda n: [f"key{n:07}", n])
    return {"@context": context, "posts": {key: n for key, n in keys}}


def language_map(size):
    """One language map of many tags."""
    context = {"label": {"@id": "http://e.example/label", "@container": "@language"}}
    keys = filled(size, lambda n: [f"en-x{n:07}", f"label {n}"])
    return {"@context": context, "label": dict(keys)}


def reversed_terms(size):
    """One map whose names, by a vocabulary and one prefix each, come out in another order than they stand."""
    count = size // 24
    context = {"@vocab": "http://e.example/", "z": "http://a.example/"}
    return {"@context": context, **{(f"n{n:06}" if n % 2 else f"z:{n:06}"): n for n in range(count)}}


KINDS = (
    nodes,
    names,
    reversed_names,
    numbers,
    plain_strings,
    escaped_strings,
    twenty_terms,
    many_terms,
    typed_nodes,
    index_map,
    language_map,
    reversed_terms,
)


def envelope(kind, size):
    """The text of an envelope of this kind, of about this many bytes and within the limit of an input."""
    text = json.dumps({"document": kind(size)}, separators=(",", ":"))
    assert len(text) <= 4_194_304, (kind.__name__, len(text))
    return text
