"""The rounds of the scripts in examples/protocols, as many as are asked for: round k has the states from which a bad
one is at most k steps away. A script says its rules once in `round1` and once, with the slip, in `broken1`; the rounds
after these are the same text over the round before. So round k has about (r + 1)^k copies of the bad states, r the
number of rules, but for peterson, whose rounds have one relation of all rules under a quantifier: 2^k copies.
"""
import pathlib
import re

FOLDER = pathlib.Path(__file__).resolve().parent.parent / "examples" / "protocols"

# The number of rounds that add something to the one before (None: all do), and the steps from a start to a bad state
# in the variant with the slip. The scripts show both.
KNOWN = {
    "synapse": (0, 2),
    "msi": (0, 3),
    "mesi": (2, 3),
    "illinois": (2, 3),
    "moesi": (1, 4),
    "berkeley": (0, 2),
    "firefly": (2, 4),
    "dragon": (1, 3),
    "readers": (2, 4),
    "buffer": (None, 4),
    "ticket": (2, 2),
    "ticket3": (1, 2),
    "peterson": (1, 6),
}


def definitions(name):
    """The definitions of a script by their names, as they stand, without comments."""
    script = re.sub(r";.*", "", (FOLDER / f"{name}.smt2").read_text())
    found = {}
    for start in (match.start() for match in re.finditer(r"^\(define-fun ", script, re.M)):
        depth, end = 0, start
        while depth or end == start:
            depth += {"(": 1, ")": -1}.get(script[end], 0)
            end += 1
        text = re.sub(r"[ \t]+\n", "\n", script[start:end])
        found[re.match(r"\(define-fun (\S+)", text)[1]] = text
    return found


def rounds(name, first, count):
    """The counters, the definitions of `count` rounds and of what they need, and the names of the rounds from 0 on."""
    every = definitions(name)
    names = re.findall(r"\(([^\s()]+) Int\)", every["start"].split(") Bool")[0])
    base = re.search(r"\((bad|both) ", every[first])[1]
    needed, queue = {"start", base, first}, ["start", base, first]
    while queue:
        used = set(re.findall(r"\(([^\s()]+) ", every[queue.pop()])) & every.keys() - needed
        needed |= used
        queue += used
    kept = [text for other, text in every.items() if other in needed and other != first]
    made = [base] + [f"r{k}" for k in range(1, count + 1)]
    for before, own in zip(made, made[1:]):
        text = every[first].replace(f"(define-fun {first} ", f"(define-fun {own} ")
        kept.append(text.replace(f"({base} ", f"({before} "))
    return names, kept, made
