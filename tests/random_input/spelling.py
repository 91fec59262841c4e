"""Lines with other white space, and lines that are spoiled."""

ODD_BYTES = b" \t\r,.'$+-019azAZ#\x00\x0b\x0c\x80\xff"
LONGEST_LINE = 1000


def spaced(random, line):
    """The same line, now and then with other white space, also just as long as a line may be, or a byte longer."""
    if random.random() < 0.85:
        return line
    space = random.choice((b" ", b"\t", b"  ", b" \r\t"))
    line = random.choice((b"", space)) + line.replace(b" ", space) + random.choice((b"", space))
    return line.ljust(random.choice((0,) * 9 + (LONGEST_LINE, LONGEST_LINE + 1)))


def spoiled(random, line):
    """A line with a byte or a word too many, too few or changed; most of them are not valid."""
    place = random.randint(0, len(line))
    before, behind, odd = line[:place], line[place:], bytes([random.choice(ODD_BYTES)])
    length = random.choice((LONGEST_LINE, LONGEST_LINE + 1))
    return random.choice((
        before + odd + behind, before + odd + behind[1:], before + behind[1:],
        line + b" " + line.split()[-1], line[:line.rfind(b" ") + 1], line.replace(b" ", b""), line[::-1], line.upper(),
        b"1 " + line, b"1,2 " + line, b"," + line, line + bytes(random.choices(range(11, 256), k=5)),
        b"#".ljust(length, b"\xfe"), b"lst", b"12345678901234567890",
    ))
