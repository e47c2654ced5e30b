"""The text of the Microterm ACT 4 in source document 001, and the file that is dumped there.

The dump is a file of the first edition. In the second one the file has 16 booleans, 8 numbers and
20 strings more, all of them absent.
"""

SIZE, SECOND_SIZE = 392, 464

TEXT = b"""\
microterm|act4|microterm act iv,
    cr=^M, cud1=^J, ind=^J, bel=^G, am, cub1=^H,
    ed=^_, el=^^, clear=^L, cup=^T%p1%c%p2%c,
    cols#80, lines#24, cuf1=^X, cuu1=^Z, home=^],
"""

# As od -c prints it: addresses and three-digit bytes are octal, each byte takes four columns, an
# asterisk repeats the row before it, and a byte that prints as nothing is a space.
DUMP = r"""
000 032 001      \0 025  \0  \b  \0 212  \0   "  \0   m   i   c   r
020   o   t   e   r   m   |   a   c   t   4   |   m   i   c   r   o
040   t   e   r   m       a   c   t       i   v  \0  \0 001  \0  \0
060  \0  \0  \0  \0  \0  \0  \0  \0  \0  \0  \0  \0  \0  \0  \0  \0
100  \0  \0   P  \0 377 377 030  \0 377 377 377 377 377 377 377 377
120 377 377 377 377  \0  \0 002  \0 377 377 377 377 004  \0 006  \0
140  \b  \0 377 377 377 377  \n  \0 026  \0 030  \0 377 377 032  \0
160 377 377 377 377 034  \0 377 377 036  \0 377 377 377 377 377 377
200 377 377 377 377 377 377 377 377 377 377 377 377 377 377 377 377
*
520 377 377 377 377      \0 377 377 377 377 377 377 377 377 377 377
540 377 377 377 377 377 377 007  \0  \r  \0  \f  \0 036  \0 037  \0
560 024   %   p   1   %   c   %   p   2   %   c  \0  \n  \0 035  \0
600  \b  \0 030  \0 032  \0  \n  \0
"""
BYTES = {"\\0": 0, "\\b": 8, "\\n": 10, "\\f": 12, "\\r": 13, "": 32}


def byte(cell):
    cell = cell.strip()
    if len(cell) == 3:
        return int(cell, 8)
    return BYTES[cell] if cell in BYTES else ord(cell)


def dumped():
    """The bytes of the dump."""
    file = b""
    for row in DUMP.split("\n")[1:-1]:
        if row != "*":
            address = int(row[:3], 8)
            while len(file) < address:  # after an asterisk
                file += file[-16:]
            cells = row[3:]
            file += bytes(byte(cells[at:at + 4]) for at in range(0, len(cells), 4))
    return file
