"""Draws documents with contexts at random, for bench/compare_expand.py.

What PyLD is known to take otherwise in every document that has it, as docs/differences.md says, is left out here: an
empty `@vocab`, `@protected` false beside terms, and a base other than null.
"""

import random

TERMS = ("a", "b", "c", "d", "e", "f")
IRIS = tuple(f"http://e/{name}" for name in ("a", "b", "c", "d"))
NAMESPACES = ("http://n/", "http://m#", "_:")
CONTAINERS = (
    "@list",
    "@set",
    "@language",
    "@index",
    "@id",
    "@type",
    "@graph",
    ["@graph", "@id"],
    ["@graph", "@index"],
    ["@graph", "@set"],
    ["@index", "@set"],
    ["@id", "@set"],
    ["@language", "@set"],
)
ALIASES = {"id": "@id", "type": "@type", "val": "@value", "lang": "@language", "list": "@list", "set": "@set", "graph": "@graph"}


class Drawing:
    def __init__(self, seed):
        self.draw = random.Random(seed)
        # how much is still to be drawn, so that documents stay small
        self.left = self.draw.choice((4, 8, 16, 32))

    def chance(self, part):
        return self.draw.random() < part

    def iri(self):
        return self.draw.choice(IRIS) if self.chance(0.8) else self.draw.choice(("p:x", "q:y", "http://e/z", "rel", "_:b0"))

    def definition(self, depth):
        draw = self.draw
        shape = draw.random()
        if shape < 0.3:
            return self.iri()
        if shape < 0.34:
            return None
        if shape < 0.38:
            return draw.choice(list(ALIASES.values()))
        map_of = {"@reverse" if self.chance(0.08) else "@id": self.iri()}
        if self.chance(0.1):
            map_of.pop("@id", None)
        if self.chance(0.3):
            map_of["@type"] = draw.choice(("@id", "@vocab", "@json", "@none", "http://e/t", "a"))
        if self.chance(0.4):
            map_of["@container"] = draw.choice(CONTAINERS)
        if self.chance(0.15):
            map_of["@language"] = draw.choice(("en", "de-at", None))
        if self.chance(0.1):
            map_of["@protected"] = draw.choice((True, False))
        if self.chance(0.05):
            map_of["@prefix"] = draw.choice((True, False))
        if depth < 3 and self.chance(0.3):
            map_of["@context"] = self.context(depth + 1)
        return map_of

    def context_map(self, depth):
        draw = self.draw
        context = {"p": "http://n/"} if self.chance(0.5) else {}
        if self.chance(0.5):
            context["@vocab"] = draw.choice(("http://v/", "http://w#", None, "p:v"))
        if self.chance(0.15):
            context["@language"] = draw.choice(("en", "fr", None))
        if self.chance(0.1):
            context["@base"] = None
        if self.chance(0.1):
            context["@version"] = 1.1
        if self.chance(0.06):
            context["@protected"] = True
        if self.chance(0.1):
            context["@propagate"] = draw.choice((True, False))
        for alias, keyword in ALIASES.items():
            if self.chance(0.06):
                context[alias] = keyword
        for term in TERMS:
            if self.chance(0.35):
                context[term] = self.definition(depth)
        if self.chance(0.05):
            context["q"] = draw.choice(NAMESPACES)
        return context

    def context(self, depth=0):
        shape = self.draw.random()
        if shape < 0.05:
            return None
        if shape < 0.15:
            return [self.context_map(depth) for _ in range(self.draw.randint(0, 3))]
        return self.context_map(depth)

    def scalar(self):
        return self.draw.choice(("x", "http://e/a", "a", "p:x", "rel", "", 1, -7, True, False, None))

    def value_object(self):
        draw = self.draw
        value = {"@value": draw.choice(("x", "y", 1, True, None))}
        if self.chance(0.3):
            value["@language"] = draw.choice(("en", "de", "@none"))
        elif self.chance(0.4):
            value["@type"] = draw.choice(("http://e/t", "a", "@json", "@id"))
        if self.chance(0.15):
            value["@index"] = "i"
        return value

    def map_for_container(self, depth):
        draw = self.draw
        keys = draw.sample(("en", "de", "@none", "a", "b", "http://e/a", "_:k"), draw.randint(0, 3))
        return {key: self.value(depth + 1) for key in keys}

    def value(self, depth):
        self.left -= 1
        shape = self.draw.random()
        if self.left < 0 or depth > 5 or shape < 0.3:
            return self.scalar()
        if shape < 0.45:
            return [self.value(depth + 1) for _ in range(self.draw.randint(0, 3))]
        if shape < 0.55:
            return self.value_object()
        if shape < 0.62:
            return {self.draw.choice(("@list", "@set")): self.value(depth + 1)}
        if shape < 0.72:
            return self.map_for_container(depth)
        return self.node(depth + 1)

    def types(self):
        names = ("a", "b", "c", "http://e/t", "rel")
        return self.draw.choice(names) if self.chance(0.6) else self.draw.sample(names, self.draw.randint(0, 3))

    def node(self, depth):
        draw = self.draw
        node = {}
        if self.chance(0.12 if depth else 0.9):
            node["@context"] = self.context()
        if self.chance(0.4):
            node[draw.choice(("@id", "@id", "id"))] = draw.choice(("http://e/n", "_:n", "a", "rel", "p:n", "?q"))
        if self.chance(0.3):
            node[draw.choice(("@type", "@type", "type"))] = self.types()
        if self.chance(0.04):
            node["@index"] = "i"
        if self.chance(0.04):
            node["@graph"] = self.value(depth + 1)
        if self.chance(0.04):
            node["@included"] = self.value(depth + 1)
        if self.chance(0.04):
            node["@reverse"] = {draw.choice(TERMS + IRIS): self.value(depth + 1)}
        for name in draw.sample(TERMS + IRIS + ("p:y", "other"), draw.randint(0, 4)):
            node[name] = self.value(depth + 1)
        return node


def draw_document(seed):
    """The document of this seed."""
    return Drawing(seed).node(0)
