"""Words and numbers as pictures and pages show them."""
import html
import re

# What neither XML nor UTF-8 can hold, what ends a line besides a newline, and what turns the order of letters: a file name can have it.
UNFIT = re.compile("[\x00-\x08\x0b-\x1f\x7f-\x9f\u061c\u200e\u200f\u2028-\u202e\u2066-\u2069\ud800-\udfff\ufffe\uffff]")


def plain(words: str) -> str:
    """The same words, with a sign instead of each character that cannot be written."""
    return UNFIT.sub("\ufffd", words)


def escaped(words: str) -> str:
    """Words as they are written in XML and in HTML, in an attribute, too."""
    return html.escape(plain(words), quote=True)


def counted(count: int, noun: str, nouns: str = "") -> str:
    """A count with its noun: `1 frame`, `86,400 frames`; `nouns` is what more than one are called, if not with an s."""
    return "%s %s" % (format(count, ","), noun if count == 1 else nouns or noun + "s")


def seconds(time: int) -> str:
    """A time in microseconds, in seconds to the last digit."""
    return "%d.%06d s" % divmod(time, 1000000)
