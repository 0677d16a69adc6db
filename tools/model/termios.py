"""What a terminal is set to: termio(7I), in 35 bytes."""
ISTRIP, INLCR, IGNCR, ICRNL, IUCLC, IXON, IXANY, IMAXBEL = 0x20, 0x40, 0x80, 0x100, 0x200, 0x400, 0x800, 0x2000
OPOST, OLCUC, ONLCR, OCRNL, ONOCR, ONLRET, XTABS = 0x1, 0x2, 0x4, 0x8, 0x10, 0x20, 0x1800
ISIG, ICANON, ECHO, ECHOE, ECHOK, ECHONL, NOFLSH, TOSTOP = 0x1, 0x2, 0x8, 0x10, 0x20, 0x40, 0x80, 0x100
ECHOCTL, ECHOKE, IEXTEN = 0x200, 0x800, 0x8000
INTR, QUIT, ERASE, KILL, EOF, EOL, EOL2, START, STOP, SUSP, REPRINT, WERASE, LNEXT = 0, 1, 2, 3, 4, 5, 6, 8, 9, 10, 12, 14, 15
FIRST = bytes.fromhex("00002500" "00000005" "00000000" "00008a3b" "031c7f15040000001113" "1a00120017160000" "00")


class Termios:
    def __init__(self, text=FIRST):
        self.text = bytes(text)
        self.input, self.output, _, self.local = (int.from_bytes(text[at:at + 4], "big") for at in (0, 4, 8, 12))
        self.keys = self.text[16:]

    def is_key(self, byte, *places):
        """Whether a byte is one of these keys: a control byte of 0 is none."""
        return byte != 0 and any(self.keys[place] == byte for place in places)


def shown(termios, byte):
    """A byte as it is echoed: a control byte but TAB as ^ and a letter under ECHOCTL."""
    if termios.local & ECHOCTL and byte != 9 and (byte < 32 or byte == 127):
        return bytes([ord("^"), byte ^ 0x40])
    return bytes([byte])


def columns(termios, line):
    """How many columns each byte of a line has on the screen, the line counted from column 0."""
    at, widths = 0, []
    for byte in line:
        if byte == 9:
            width = 8 - at % 8
        elif byte < 32 or byte == 127:
            width = 2 if termios.local & ECHOCTL else 0
        else:
            width = 1
        widths.append(width)
        at += width
    return widths


def wiped(termios, line, taken):
    """BS SP BS for each column of the bytes that were taken from the end of a line."""
    return b"\b \b" * sum(columns(termios, line)[len(line) - taken:])


def posted(termios, column, byte):
    """(what goes out for a byte, how many of it were made, the rule by which the byte itself went, the next column): OPOST."""
    flags = termios.output
    if flags & OLCUC and ord("a") <= byte <= ord("z"):
        byte -= 32
    if byte == 10:
        if flags & ONLCR:
            return b"\r\n", 1, None, 0
        return b"\n", 0, None, 0 if flags & ONLRET else column
    if byte == 13:
        if flags & OCRNL:
            return b"\n", 0, None, 0 if flags & ONLRET else column
        if flags & ONOCR and column == 0:
            return b"", 0, "onocr", 0
        return b"\r", 0, None, 0
    if byte == 9:
        width = 8 - column % 8
        if flags & XTABS == XTABS:
            return b" " * width, width, "replaced", lowered(column + width)
        return b"\t", 0, None, lowered(column + width)
    if byte == 8:
        return b"\b", 0, None, max(column - 1, 0)
    return bytes([byte]), 0, None, column if byte < 32 or byte == 127 else lowered(column + 1)


def lowered(column):
    return column if column <= 65535 else column - 65528
