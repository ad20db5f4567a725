#!/usr/bin/env python3
"""Make the program's input and its expected output.

    python3 expected.py            write the files `stdin` and `stdout`
    python3 expected.py --check    only compare them; exit 1 on a difference

The input is a day log with a fault at its end. What it comes to was written by
hand from documents 01 and 02; the program has no part in it.
"""
import pathlib
import sys

HERE = pathlib.Path(__file__).parent


def record(link, line):
    """A record of document 01: the mark, the link, the length high byte first, the line as received."""
    line += b"\r\n"
    return bytes([73, 82, link, len(line) // 256, len(line) % 256]) + line


# The first channel, in slot 0, with all that a line tells; the second, in slot 1, with a key.
DAY = [
    (0, b":1AB SJOIN 5 #a +kl key 7 :@+1ABAAAAAA 1ABAAAAAB"),
    (3, b":2CD SJOIN 1000 #Race +k buoy @2CDAAAAAA"),
    # its masks, which are kept in folded order; then some that come too late and are logged all the same
    (31, b":1AB BMASK 1000 #race b :Loud* *!*@rowdy"),
    (31, b":1AB BMASK 1001 #race b late!*@*"),
    # two more channels, in slots 2 and 3; the first of them is left again, so that its slot is free
    (7, b":1AB SJOIN 8 #gone + 1ABAAAAAC"),
    (7, b":1AB SJOIN 9 #sail + +1ABAAAAAE"),
    (7, b":1ABAAAAAC QUIT :bye"),
    # one that comes and goes
    (0, b":1AB SJOIN 5 #A + 1ABAAAAAD"),
    (0, b":1ABAAAAAD PART #a :off"),
]

# A later time: the users join without status. It comes often, so that the log is longer than what is read at once, and reads cut its records.
DAY += [(3, b":1AB SJOIN 1200 #race +nt :@1ABAAAAAA 1ABAAAAAB")] * 200

LEFT = (
    b"5 #a +kl key 7 @+1ABAAAAAA 1ABAAAAAB\n"
    b"\n"
    b"1000 #Race +k buoy 1ABAAAAAA 1ABAAAAAB @2CDAAAAAA\n"
    b"*!*@rowdy Loud*\n"
    b"9 #sail + +1ABAAAAAE\n"
    b"\n"
)


def main(words):
    log = b"".join(record(link, line) for link, line in DAY)
    # link 32, in the third byte of its record
    files = {"stdin": log + bytes([73, 82, 32, 0, 2]) + b"\r\n", "stdout": LEFT + b"29 %d\n" % (len(log) + 2)}
    same = True
    for name, data in files.items():
        path = HERE / name
        if words != ["--check"]:
            path.write_bytes(data)
        elif path.read_bytes() != data:
            print(f"{name} differs")
            same = False
    return 0 if same else 1


if __name__ == "__main__":
    sys.exit(main(sys.argv[1:]))
