"""Texts of files of rows: escapes, ranges, repeated pieces, and the words of a call."""
import re

# What has to be an escape in a file of rows: control characters but tabs, and a backslash that begins no escape.
UNPRINTED = re.compile(rb"[\0-\x08\x0a-\x1f\x7f]|\\(?=x[0-9a-f]{2})")
ESCAPE = re.compile(rb"\\x([0-9a-f]{2})")
REPEATED = re.compile(rb"<<(.*?)\*(\d+)>>")
RANGE = re.compile(rb"\{(\d+)\.\.(\d+)\}")
WORD = re.compile(rb"(?:'[^']*'|[^' ])+")
LINE = re.compile(rb"[^\n\0]*[\n\0]|[^\n\0]+\Z")


def unescaped(text):
    text = REPEATED.sub(lambda found: found[1] * int(found[2]), text)
    return ESCAPE.sub(lambda found: bytes.fromhex(found[1].decode()), text)


def decoded(text):
    return text.decode(errors="backslashreplace")


def escaped(text):
    """Returns a text as files of rows have it."""
    return decoded(UNPRINTED.sub(lambda found: b"\\x%02x" % found[0][0], text))


def spread(line):
    """Returns the line once for each number of its ranges, which go on together, or once if it has none."""
    ranges = [range(int(first), int(last) + 1) for first, last in RANGE.findall(line)]
    lines = []
    for at in range(min(map(len, ranges), default=1)):
        numbers = iter(ranges)
        lines.append(RANGE.sub(lambda found: b"%0*d" % (len(found[1]), next(numbers)[at]), line))
    return lines


def ended(line):
    """Ends a line with a line feed, but for one that ends with a zero byte or a `\\c`."""
    return line.removesuffix(b"\\c") if line.endswith((b"\0", b"\\c")) else line + b"\n"


def text_of(lines):
    return b"".join(map(ended, lines))


def lines_of(text):
    """Cuts a text behind each line feed and each zero byte."""
    return LINE.findall(text)


def shown(line):
    """Returns a line of an output as files of rows have it."""
    return escaped(line.removesuffix(b"\n")) + ("" if line.endswith((b"\n", b"\0")) else "\\c")


def words_of(call):
    """Returns the words of a call, or `None` if a quote has no partner."""
    if call.count(b"'") % 2:
        return None
    return [unescaped(word.replace(b"'", b"")) for word in WORD.findall(call)]
