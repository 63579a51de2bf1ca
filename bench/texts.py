"""Compares reading and printing with Python's json on random texts: 100,000 trees each way, byte for byte.

Run by hand, at the top of the repository: python3 bench/texts.py [COUNT]

Python prints each random tree in some way of its own (escapes, spaces, order of names, exponents); the program reads it and
prints its compact text, which has to be the one that Python prints of the tree with sorted names and no spaces, and which
Python reads again as the tree. Every tenth text has one byte changed: there both refuse, or both read the same tree.
"""

import decimal
import json
import pathlib
import random
import subprocess
import sys

TOP = pathlib.Path(__file__).resolve().parent.parent
LETTERS = 'abc "\\/\b\f\n\r\t\x00\x1f\x7f\u0080é߿ࠀ中\ud7ff\ue000\uffff𐀀😀\U0010ffff'
COUNT = 100_000


def text(draw):
    return "".join(draw.choice(LETTERS) for _ in range(draw.randrange(8)))


def number(draw):
    return draw.choice((0, 1, -1, 1.1, 2**63 - 1, -(2**63), draw.randrange(-(2**63), 2**63), draw.randrange(-1000, 1000)))


def tree(draw, depth):
    kind = draw.randrange(8 if depth > 0 else 5)
    if kind < 3:
        return (None, True, False)[kind]
    if kind == 3:
        return number(draw)
    if kind == 4:
        return text(draw)
    if kind < 7:
        return [tree(draw, depth - 1) for _ in range(draw.randrange(5))]
    return {text(draw): tree(draw, depth - 1) for _ in range(draw.randrange(5))}


def compact(value):
    return json.dumps(value, ensure_ascii=False, separators=(",", ":"), sort_keys=True).encode()


def printed(draw, value):
    """The tree in some way of printing, on one line."""
    spaces = draw.choice(((",", ":"), (", ", ": "), (" ,\t", " : ")))
    return json.dumps(value, ensure_ascii=draw.random() < 0.5, separators=spaces).encode()


def spoilt(draw, bytes_):
    """With one byte changed, but for line feeds, which part the texts."""
    at = draw.randrange(len(bytes_))
    other = draw.choice(b'\x00 "\\{}[],:0123456789eE+-.abu\x80\xa9\xc3\xff')
    return bytes_[:at] + bytes([other]) + bytes_[at + 1 :]


def profile(value):
    """Whether the numbers are ones that are read here: whole ones of 64 bits, and 1.1."""
    if isinstance(value, decimal.Decimal):
        return value == decimal.Decimal("1.1") or (value == value.to_integral_value() and -(2**63) <= value < 2**63)
    if isinstance(value, int) and not isinstance(value, bool):
        return -(2**63) <= value < 2**63
    if isinstance(value, list):
        return all(profile(item) for item in value)
    if isinstance(value, dict):
        return all(profile(item) for item in value.values())
    return True


def whole(value):
    """Whole numbers that are written as fractions, as the whole numbers that they are."""
    if isinstance(value, decimal.Decimal):
        return 1.1 if value == decimal.Decimal("1.1") else int(value)
    if isinstance(value, list):
        return [whole(item) for item in value]
    if isinstance(value, dict):
        return {name: whole(item) for name, item in value.items()}
    return value


def halves(value):
    """Whether a text or name has a half of a surrogate pair, which Python reads and UTF-8 doesn't have."""
    if isinstance(value, str):
        return any("\ud800" <= c <= "\udfff" for c in value)
    if isinstance(value, list):
        return any(halves(item) for item in value)
    if isinstance(value, dict):
        return any(halves(name) or halves(item) for name, item in value.items())
    return False


def no_constant(name):
    raise ValueError(name)


def expected(bytes_):
    """What Python makes of it, as far as both read the same language."""
    try:
        value = json.loads(bytes_.decode("utf-8"), parse_float=decimal.Decimal, parse_constant=no_constant)
    except (ValueError, RecursionError):
        return b"refused"
    if not profile(value) or halves(value):
        return b"refused"
    return compact(whole(value))


def main():
    count = int(sys.argv[1]) if len(sys.argv) > 1 else COUNT
    draw = random.Random(2026)
    folder = TOP / "crates" / "ld_tree_bench"
    subprocess.run(["rt", "run", "--", "lines"], cwd=folder, stdin=subprocess.DEVNULL, stdout=subprocess.DEVNULL, stderr=subprocess.DEVNULL, check=True)
    program = str(folder / "out" / "ld_tree_bench")
    texts, wanted = [], []
    for number_ in range(count):
        value = tree(draw, 4)
        line = printed(draw, value)
        if number_ % 10 == 9:
            line = spoilt(draw, line)
            wanted.append(expected(line))
        else:
            wanted.append(compact(value))
        texts.append(line)
    answer = subprocess.run([program, "lines"], input=b"\n".join(texts), stdout=subprocess.PIPE, check=True).stdout
    lines = answer.split(b"\n")[:-1]
    if len(lines) != count:
        raise SystemExit(f"{count} texts, {len(lines)} lines")
    differences = [place for place in range(count) if lines[place] != wanted[place]]
    for place in differences[:20]:
        print(texts[place], lines[place], wanted[place])
    read_again = sum(1 for line in lines if line != b"refused" and compact(json.loads(line.decode("utf-8"))) != line)
    refused = sum(1 for line in lines if line == b"refused")
    print(f"texts {count} refused {refused} differences {len(differences)} read again otherwise {read_again}")
    if differences or read_again:
        raise SystemExit(1)


if __name__ == "__main__":
    main()
