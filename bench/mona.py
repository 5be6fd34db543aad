"""The same questions for mona: natural numbers as sets of binary places (WS1S), with addition by a set of carries."""

PLUS = """ws1s;
pred plus(var2 x, var2 y, var2 z) = ex2 c: 0 notin c & (all1 t:
  (t + 1 in c <=> (t in x & t in y | t in x & t in c | t in y & t in c)) &
  (t in z <=> (t in x <=> (t in y <=> t in c))));
pred atmost(var2 x, var2 y) = ex2 d: plus(x, d, y);
pred times1(var2 x, var2 y) = x = y;
"""


def times(factors):
    """Predicates times<n>(x, y), that y is n x, for these factors and those that they need, by halving."""
    needed = set()
    for n in factors:
        while n > 1:
            needed.add(n)
            n = n - 1 if n % 2 else n // 2
    lines = []
    for n in sorted(needed):
        if n % 2:
            lines.append(f"pred times{n}(var2 x, var2 y) = ex2 h: times{n - 1}(x, h) & plus(h, x, y);")
        else:
            lines.append(f"pred times{n}(var2 x, var2 y) = ex2 h: times{n // 2}(x, h) & plus(h, h, y);")
    return PLUS + "\n".join(lines) + "\n"


def payable(coins):
    names = [f"s{i}" for i in range(len(coins))]
    parts = "".join(f" & (ex2 a: times{c}(a, {name}))" for c, name in zip(coins, names))
    sums = "s0" if len(coins) == 1 else None
    if len(coins) == 2:
        sums = "plus(s0, s1, x)"
    elif len(coins) == 3:
        sums = "(ex2 h: plus(s0, s1, h) & plus(h, s2, x))"
    return f"pred payable(var2 x) = ex2 {', '.join(names)}: {sums}{parts};\n"


def unpayable(coins, bound):
    return times(coins) + payable(coins) + f"var2 x;\natmost(pconst({bound}), x) & ~payable(x);\n"


def in_class(residue, modulus):
    return f"(ex2 k, h: times{modulus}(k, h) & plus(h, pconst({residue}), x))"


def in_classes(classes):
    return times(m for _, m in classes) + "var2 x;\n" + " & ".join(in_class(*c) for c in classes) + ";\n"


def outside(classes):
    return times(m for _, m in classes) + "var2 x;\n~(" + " | ".join(in_class(*c) for c in classes) + ");\n"


def twice(classes):
    both = [f"{in_class(*a)} & {in_class(*b)}" for i, a in enumerate(classes) for b in classes[:i]]
    return times(m for _, m in classes) + "var2 x;\n" + " | ".join(both) + ";\n"


def differ(n, least):
    between = (f"(ex2 k, low, high: atmost(pconst({least}), k) & times{n}(k, low) & times{n + 1}(k, high)"
               " & atmost(low, x) & atmost(x, high))")
    return times((n, n + 1)) + payable((n, n + 1)) + f"var2 x;\n~(payable(x) <=> {between});\n"
