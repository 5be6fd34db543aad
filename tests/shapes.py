"""Scripts of 4,194,304 bytes that are made to be hard, each with what has to be written and the status."""
import plain

BYTES = 4_194_304
MOST_NODES = 65_536
DONE, REFUSED = 0, 1


def filled(head, unit, tail=b""):
    """The head, as many units as fit, and the tail; blanks at the end make up for the rest."""
    body = head + unit * ((BYTES - len(head) - len(tail)) // len(unit)) + tail
    return body.ljust(BYTES)


def numbered(head, unit, tail=b""):
    """The same, where each unit has its own number in six digits in place of a `%`."""
    count = (BYTES - len(head) - len(tail)) // (len(unit) + 5)
    body = head + b"".join(unit.replace(b"%", b"%06d" % k) for k in range(count)) + tail
    return body.ljust(BYTES)


def padded(body):
    """A short script with a comment behind it."""
    return body + b";" * (BYTES - len(body))


def refused(text, mark, cause):
    """The error line at the first place of these bytes."""
    return plain.error_line(text, text.index(mark), cause)


def texts():
    yield "one comment", filled(b";", b"x"), b"", DONE
    yield "blanks", filled(b"", b" "), b"", DONE
    yield "line feeds", filled(b"", b"\n"), b"", DONE
    text = filled(b'(echo "', b"x", b'")')
    yield "one string", text, text[6:-1] + b"\n", DONE
    text = filled(b'(echo "', b"x")
    yield "one string without an end", text, plain.error_line(text, BYTES, b"syntax"), REFUSED
    yield "one symbol between bars", filled(b"(declare-const |", b"x", b"| Int)"), b"", DONE
    text = filled(b"(assert ", b"x", b")")
    yield "one unknown symbol", text, refused(text, b"xx", b"unknown symbol"), REFUSED
    yield "one keyword", filled(b"(set-info :", b"x", b")"), b"", DONE
    text = filled(b"(assert (= 0 ", b"9", b"))")
    yield "one numeral", text, refused(text, b"9", b"coefficient outside 64 bits"), REFUSED


def parentheses():
    text = filled(b"", b"(")
    yield "open parentheses", text, plain.error_line(text, plain.DEEPEST, b"nesting over 256"), REFUSED
    text = filled(b"", b")")
    yield "closed parentheses", text, plain.error_line(text, 0, b"syntax"), REFUSED
    text = filled(b"", b"()")
    yield "empty lists", text, plain.error_line(text, 0, b"syntax"), REFUSED
    group = b"(" * (plain.DEEPEST - 2) + b")" * (plain.DEEPEST - 2)
    yield "lists as deep as may be", filled(b"(set-info :a (", group, b"))"), b"", DONE
    deep = plain.DEEPEST - 1
    term = b"(assert " + b"(! " * deep + b"true" + b" :a)" * deep + b")"
    yield "terms as deep as may be", filled(b"", term, b"(check-sat)"), b"sat\n", DONE


def terms():
    nodes = b"more than 65536 nodes"
    text = filled(b"(assert (= ", b"0 ", b"))")
    yield "numerals compared", text, refused(text, b"(=", nodes), REFUSED
    text = filled(b"(assert (distinct ", b"0 ", b"))")
    yield "numerals compared in pairs", text, refused(text, b"(distinct", nodes), REFUSED
    yield "numerals added", filled(b"(assert (= 0 (+ ", b"0 ", b")))(check-sat)"), b"sat\n", DONE
    tail = b")))(check-sat)(get-value (x))"
    text = filled(b"(declare-const x Int)(assert (= 0 (+ ", b"x ", tail)
    yield "one constant added", text, b"sat\n((x 0))\n", DONE
    deep = plain.DEEPEST - 4
    lets = b"(assert (let ((x true)) " + b"(let ((x x)) " * deep + b"x" + b")" * deep + b"))"
    yield "one let in a let", filled(b"", lets, b"(check-sat)"), b"sat\n", DONE
    yield "one let of many names", numbered(b"(assert (let (", b"(n% 0)", b") true))(check-sat)"), b"sat\n", DONE
    text = filled(b"(assert (exists (", b"(x Int)", b") true))(check-sat)")
    yield "one quantifier of many variables", text, b"sat\n", DONE
    text = numbered(b"(define-fun f (", b"(n% Int)", b") Bool true)(set-empty f)")
    yield "one definition of many parameters", text, refused(text, b"f)", b"more than 10 variables"), REFUSED
    most = b"(assert (or " + b"false " * (MOST_NODES // 2) + b"))(check-sat)"
    yield "65,536 nodes", padded(most), b"unsat\n", DONE
    head = b"(assert (or "
    text = filled(head, b"false ", b"))(check-sat)")
    # Node 0 is there from the start, and each word is a node before any two are joined.
    full = len(head) + len(b"false ") * (MOST_NODES - 1)
    yield "more nodes than may be", text, plain.error_line(text, full, nodes), REFUSED
    text = padded(b"(define-fun f0 ((x Int)) Bool (>= x 0))" + b"".join(
        b"(define-fun f%d ((x Int)) Bool (and (f%d x) (f%d x)))" % (k + 1, k, k) for k in range(40)))
    # Definition k has 2^(k + 1) - 1 nodes of its own, and a copy of the one before it no longer fits from the 15th on.
    yield "definitions that double", text, refused(text, b"(f14 x)", nodes), REFUSED


def scripts():
    names = b"".join(b"(declare-const n%06d Int)" % k for k in range(150_000))
    text = (names + b"(check-sat)(get-value (n000000 n149999))").ljust(BYTES)
    yield "150,000 declared names", text, b"sat\n((n000000 0) (n149999 0))\n", DONE
    yield "pushes of many levels", filled(b"", b"(push 9223372036854775807)"), b"", DONE
    yield "levels that begin and end", filled(b"", b"(push)(declare-const x Int)(pop)"), b"", DONE
    text = filled(b"", b"(check-sat)")
    yield "checks", text, b"sat\n" * text.count(b"check"), DONE
    text = filled(b"(declare-const x Int)(check-sat)(get-value (x", b" x", b"))")
    asked = text.count(b"x") - 1
    yield "values of one constant", text, b"sat\n(" + b" ".join([b"(x 0)"] * asked) + b")\n", DONE


def all_shapes():
    for family in (texts, parentheses, terms, scripts):
        yield from family()


def bounded_shapes():
    """Scripts whose work goes by the state bound: name, script, words, the seconds that it may take, status and output."""
    pairs = b"(declare-const x Int)(assert (and ((_ divisible 16381) x) ((_ divisible 16369) x)))(check-sat)"
    yield "pairs past the bound", pairs, (), 20, (REFUSED, refused(pairs, b"(and", b"state bound 16384 exceeded"))
    names = b"abcdefgh"
    sums = b"".join(b" (* %d %c)" % (2000 + k, names[k]) for k in range(8))
    wide = b"".join(b"(declare-const %c Int)" % name for name in names) + b"(assert (<= (+" + sums + b") 0))(check-sat)"
    yield "eight constants and 16,000 states", wide, (), 60, (DONE, b"sat\n")
    numbers = b" ".join(b"(= x %d)" % (k * k * 1_000_003) for k in range(300))
    many = b"(declare-const x Int)(assert (or " + numbers + b"))(check-sat)(get-value (x))"
    yield "a set of 300 numbers", many, ("--states=65536",), 60, (DONE, b"sat\n((x 0))\n")
