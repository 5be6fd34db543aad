"""A plain reader of scripts: where each command ends, and the first refusal of a token or a parenthesis."""

SPACES = b"\t\n\r "
DIGITS = b"0123456789"
LETTERS = b"abcdefghijklmnopqrstuvwxyzABCDEFGHIJKLMNOPQRSTUVWXYZ"
WORD = LETTERS + DIGITS + b"~!@$%^&*_-+=<>.?/"
FORBIDDEN = bytes([*range(9), 11, 12, *range(14, 32), 127])
DEEPEST = 256


class Refusal(Exception):
    """A refusal and the number of the byte at which it stands."""

    def __init__(self, cause, at):
        super().__init__(cause, at)
        self.cause, self.at = cause, at


def position(text, at):
    """Line and column of a byte, both from 1."""
    return text.count(b"\n", 0, at) + 1, at - text.rfind(b"\n", 0, at)


def error_line(text, at, cause):
    line, column = position(text, at)
    return b'(error "%d:%d: %s")\n' % (line, column, cause)


def run_end(text, at, allowed):
    while at < len(text) and text[at] in allowed:
        at += 1
    return at


def skip_blanks(text, at):
    while at < len(text):
        if text[at] in SPACES:
            at += 1
        elif text[at] == ord(";"):
            ends = [end for end in (text.find(b"\n", at), text.find(b"\r", at)) if end >= 0]
            at = min(ends, default=len(text))
        else:
            break
    return at


def is_numeral(word):
    return word == b"0" or (word != b"" and all(byte in DIGITS for byte in word) and word[0] != ord("0"))


def is_number(word):
    whole, point, places = word.partition(b".")
    return is_numeral(whole) and (not point or (places != b"" and all(byte in DIGITS for byte in places)))


def is_coded(word):
    digits = {b"x": b"0123456789abcdefABCDEF", b"b": b"01"}.get(word[:1], b"")
    return len(word) > 1 and all(byte in digits for byte in word[1:])


def quoted_end(text, start, quote, doubled, others):
    at = start + 1
    while True:
        at = text.find(quote, at)
        if at < 0:
            raise Refusal(b"syntax", len(text))
        if not (doubled and text[at + 1:at + 2] == quote):
            break
        at += 2
    if any(byte in others for byte in text[start + 1:at]):
        raise Refusal(b"syntax", start)
    return at + 1


def token(text, at):
    """The kind of the token at a byte, and its end."""
    byte = text[at:at + 1]
    if byte in (b"(", b")"):
        return byte, at + 1
    if byte == b'"':
        return b"string", quoted_end(text, at, b'"', True, FORBIDDEN)
    if byte == b"|":
        return b"symbol", quoted_end(text, at, b"|", False, FORBIDDEN + b"\\")
    end = run_end(text, at + 1, WORD)
    if byte in DIGITS and is_number(text[at:end]):
        return b"number", end
    if byte == b"#" and is_coded(text[at + 1:end]):
        return b"number", end
    if byte == b":" and end > at + 1:
        return b"keyword", end
    if byte in WORD and byte not in DIGITS:
        return b"symbol", end
    raise Refusal(b"syntax", at)


def list_end(text, start):
    """The end of the list at a byte, the kind of its first item, and where that stands."""
    depth, at, first = 0, start, None
    while True:
        at = skip_blanks(text, at)
        if at == len(text):
            raise Refusal(b"syntax", at)
        kind, end = token(text, at)
        if kind == b"(":
            if depth == DEEPEST:
                raise Refusal(b"nesting over 256", at)
            depth += 1
        elif kind == b")":
            depth -= 1
        if first is None and at > start:
            first = (kind, at, end)
        at = end
        if depth == 0:
            return at, first


def commands(text):
    """The place of each command up to the first refusal as (name, start, end), and that refusal, if there is one."""
    found, at = [], 0
    try:
        while True:
            at = skip_blanks(text, at)
            if at == len(text):
                return found, None
            kind, _ = token(text, at)
            if kind != b"(":
                raise Refusal(b"syntax", at)
            end, (kind, start, name_end) = list_end(text, at)
            if kind != b"symbol":
                raise Refusal(b"syntax", at)
            found.append((text[start:name_end], at, end))
            at = end
    except Refusal as refusal:
        return found, refusal
