"""The texts of a case's file: lines in quotes and without, digits that repeat and count, and words."""
import re

import formats

COMMENT = re.compile(r"\s+#.*")
PIECE = re.compile(r'\s*"((?:[^"\\]|\\.)*)"(?:\*([0-9]+))?')
ESCAPE = re.compile(r"\\(x[0-9A-Fa-f]{2}|.)")
HEXADECIMAL = re.compile(r"(rec|(in|out) \S+) [0-9A-Fa-f*{}.() ]*")
COUNTER = re.compile(r"\{([0-9A-F]+)\.\.([0-9A-F]+)\}")
IN_LINE = re.compile(r"\(([^()]*)\)")
WORD = re.compile(r'\s*(?:"((?:[^"\\]|\\.)*)"|([^\s"#]\S*))(?=\s|$)')
ESCAPES = {"n": b"\n", "r": b"\r", "t": b"\t", "\\": b"\\", '"': b'"'}


class BadCase(ValueError):
    """A case that can't be read; its text says why."""


def unescaped(text):
    """The bytes of a text in quotes."""
    found, at = b"", 0
    for each in ESCAPE.finditer(text):
        found += text[at : each.start()].encode() + escape_bytes(each[1])
        at = each.end()
    return found + text[at:].encode()


def escape_bytes(name):
    if len(name) == 3:
        return bytes.fromhex(name[1:])
    if name not in ESCAPES:
        raise BadCase(f"there is no escape \\{name}")
    return ESCAPES[name]


def escaped(data):
    """Bytes as a text in quotes."""
    names = {value: "\\" + name for name, value in ESCAPES.items()}
    ones = (data[at : at + 1] for at in range(len(data)))
    return '"%s"' % "".join(names.get(one) or (one.decode() if 0x20 <= one[0] < 0x7F else f"\\x{one[0]:02X}") for one in ones)


def exact_bytes(text):
    """The bytes of pieces in quotes, of which "..."*N means N times the piece."""
    found, at = b"", 0
    while text[at:].strip() and not text[at:].lstrip().startswith("#"):
        piece = PIECE.match(text, at)
        if not piece:
            raise BadCase(f"not in quotes: {text[at:].strip()}")
        found += unescaped(piece[1]) * int(piece[2] or 1)
        at = piece.end()
    return found


def plain_bytes(text):
    """The bytes of a line that is written without quotes: without the comment, and where it ends in hexadecimal digits without the blanks
    between them. Such a line may count, and then means several lines."""
    text = uncommented(text)
    if text.startswith(" "):
        raise BadCase("a line that begins with a blank has to be in quotes")
    if not HEXADECIMAL.fullmatch(text):
        return (text + "\n").encode()
    return "".join(joined(each) + "\n" for each in lines_meant(text)).encode()


def digit_bytes(text):
    """The bytes whose hexadecimal digits a line has, with blanks between them, repetitions, counters and a comment."""
    digits = [formats.digits_of(each) for each in lines_meant(uncommented(text))]
    if any(each is None or len(each) % 2 for each in digits):
        raise BadCase("no hexadecimal digits of whole bytes")
    return bytes.fromhex("".join(digits))


def uncommented(text):
    return COMMENT.sub("", " " + (text or ""), count=1)[1:].rstrip()


def lines_meant(text):
    """The lines that a line with counters means; in parentheses they count within it."""
    return expanded(IN_LINE.sub(lambda found: " ".join(expanded(found[1])), text))


def joined(text):
    """A line that ends in hexadecimal digits, without blanks between them."""
    head, digits = formats.parted(text) or (None, "")
    return f"{head} {digits}" if digits else text


def expanded(text):
    """The texts that a text with counters {FIRST..LAST} means: one for each number; several counters count together."""
    lengths = {int(last, 16) - int(first, 16) for first, last in COUNTER.findall(text)}
    if not lengths:
        return [text]
    if len(lengths) > 1 or min(lengths) < 0:
        raise BadCase("counters of one line don't count equally far")
    return [COUNTER.sub(lambda found: f"{int(found[1], 16) + step:0{len(found[1])}X}", text) for step in range(lengths.pop() + 1)]


def words_of(text):
    """The words of a command line. A word that is empty, or has blanks, quotes or # in it, is in quotes."""
    words, at = [], 0
    while text[at:].strip() and not text[at:].lstrip().startswith("#"):
        word = WORD.match(text, at)
        if not word:
            raise BadCase(f"no words: {text[at:].strip()}")
        words.append(word[2].encode() if word[1] is None else unescaped(word[1]))
        at = word.end()
    return words


def word_text(word):
    return word.decode() if re.fullmatch(rb"[!$-\[\]-~]+", word) and not word.startswith(b"#") else escaped(word)
