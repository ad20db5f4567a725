#!/usr/bin/env python3
"""Make the program's input and its expected output.

    python3 expected.py            write the files `stdin` and `stdout`
    python3 expected.py --check    only compare them; exit 1 on a difference

First comes the day of `examples/morning.txt` with `examples/morning.out`, then
the odd cases below. Every answer was written by hand from documents 01 and 02
and the console's own description (README.md); the program has no part in it.
"""
import pathlib
import sys

HERE = pathlib.Path(__file__).parent
EXAMPLES = HERE / ".." / ".." / "examples"

NO_REQUEST = b"! input\n"
YES = b"yes\n"
NO = b"no\n"

# the answer to an accepted line of which nothing goes out
NOTHING = b"-\n"


def refused(number):
    return b"! %d\n" % number


def refused_at(number, place):
    return b"! %d %d\n" % (number, place)


def done(number):
    return b"= %d\n" % number


# ---- no request
CASES = [
    (line, NO_REQUEST)
    for line in [
        b"\n",
        b"\r\n",
        b" \n",
        b"hello\n",
        b"\0\n",
        b"\xff\n",
        # no number, leading zeros, something before or behind it, ten digits and more
        b"+\n",
        b"-\n",
        b"+x\n",
        b"+ 1\n",
        b"+1 \n",
        b"++1\n",
        b"+-1\n",
        b"+01\n",
        b"-00\n",
        b"+1000000000\n",
        b"+4294967299\n",
        b"+18446744073709551619\n",
        # one CR is passed over, and only before LF
        b"+1\r\r\n",
        b"+1\r \n",
        b"?\r\r\n",
        b"?x\n",
        b"? \n",
        b"??\n",
        # a link's line needs the number, and SPACE right behind it
        b"1\n",
        b"1\r\n",
        b"1:QUIT\r\n",
        b"1\tQUIT\r\n",
        b"1x QUIT\r\n",
        b" 1 QUIT\r\n",
        b"01 QUIT\r\n",
        b"-1 QUIT\r\n",
        b"1000000000 QUIT\r\n",
        # a question needs both SPACEs, and its word in small letters right at the start
        b"banned\n",
        b"banned \n",
        b"banned \r\n",
        b"banned #race\n",
        b"banned #race\r\n",
        b"banned\t#race x\n",
        b"bannedx #race x\n",
        b" banned #race x\n",
        b"Banned #race x\n",
        b"ban #race x\n",
        # a name of more than 512 bytes is none
        b"banned #" + b"n" * 512 + b" x\n",
        b"banned #" + b"n" * 5000 + b" x\n",
    ]
]

# ---- links: twice changes nothing more, 31 is the last one, nine digits are a number
CASES += [
    (b"+3\n", done(0)),
    (b"+3\r\n", done(0)),
    (b"+31\n", done(0)),
    (b"+32\n", done(3)),
    (b"+999999999\r\n", done(3)),
    (b"-30\n", done(0)),
    (b"-32\r\n", done(3)),
    (b"-999999999\n", done(3)),
]

# ---- lines that are refused: the bytes behind the SPACE are the line, as they came
CASES += [
    (b"1 \n", refused(5)),
    (b"1 QUIT\n", refused(5)),
    (b"1 QU\0IT\r\n", refused(6)),
    (b"1 A\rB\r\n", refused(6)),
    (b"1 \r\n", refused(7)),
    (b"1 : X\r\n", refused(8)),
    (b"1   \r\n", refused(9)),
    (b"1 12\r\n", refused(9)),
    (b"1 PING\r\n", refused(11)),
    (b"0 QUIT\r\n", refused(13)),
    (b"4 QUIT\r\n", refused(3)),
    (b"32 QUIT\r\n", refused(3)),
    (b"999999999 QUIT\r\n", refused(3)),
]

# ---- sixteen words behind a command: what follows the fourteenth is one parameter, so that the line is read and refused by its command
SIXTEEN = b" ".join(b"%d" % n for n in range(1, 17))
CASES += [
    (b"1 PING " + SIXTEEN + b"\r\n", refused(11)),
    (b"1 :1CBAAAAAA NOTICE " + SIXTEEN + b" and free text :without the colon\r\n", refused(11)),
    (b"1 :1CB SJOIN " + SIXTEEN + b"\r\n", refused(12)),
    (b"1 :1CB BMASK " + SIXTEEN + b"\r\n", refused(12)),
    (b"31 :1CBAAAAAA PART " + SIXTEEN + b"\r\n", refused(12)),
    (b"31 QUIT " + SIXTEEN + b"\r\n", refused(12)),
    # what is judged before the command comes first
    (b"4 QUIT " + SIXTEEN + b"\r\n", refused(3)),
    (b"1 QUIT " + SIXTEEN + b" " * 512 + b"\r\n", refused(4)),
    (b"1 QUIT " + SIXTEEN + b"\n", refused(5)),
    (b"1 QUIT " + SIXTEEN + b"\0\r\n", refused(6)),
    (b"1 : QUIT " + SIXTEEN + b"\r\n", refused(8)),
    (b"1 12 " + SIXTEEN + b"\r\n", refused(9)),
    # behind ':' they are a reason, here of a user who is in no channel
    (b"31 :1CBAAAAAZ QUIT :" + SIXTEEN + b"\r\n", b"0,1,2,3 :1CBAAAAAZ QUIT :" + SIXTEEN + b"\r\n"),
]

# ---- modes that are refused, and where: the place counts from 0 in the link's line, where the modes stand at 16
CASES += [
    # no '+' first; a '+' later; a letter that is none; of two faults the first
    (b"1 :1CB SJOIN 5 #a n 1CBAAAAAA\r\n", refused_at(32, 16)),
    (b"1 :1CB SJOIN 5 #a ++ 1CBAAAAAA\r\n", refused_at(32, 17)),
    (b"1 :1CB SJOIN 5 #a +nN 1CBAAAAAA\r\n", refused_at(32, 18)),
    (b"1 :1CB SJOIN 5 #a +n\xff 1CBAAAAAA\r\n", refused_at(32, 18)),
    (b"1 :1CB SJOIN 5 #a +nxn 1CBAAAAAA\r\n", refused_at(32, 18)),
    (b"31 :1CB SJOIN 5 #a +nx 1CBAAAAAA\r\n", refused_at(32, 18)),
    # a letter twice, at its second place; SPACEs count
    (b"1 :1CB SJOIN 5 #a +nn 1CBAAAAAA\r\n", refused_at(33, 18)),
    (b"1 :1CB SJOIN 5 #a +ntnx 1CBAAAAAA\r\n", refused_at(33, 19)),
    (b"1 :1CB   SJOIN 5  #a +kk a b :1CBAAAAAA\r\n", refused_at(33, 21)),
    # a parameter missing, at the end of the line, with SPACEs there; too many, at the first surplus one
    (b"1 :1CB SJOIN 5 #a +k 1CBAAAAAA\r\n", refused_at(34, 28)),
    (b"1 :1CB SJOIN 5 #a +k 1CBAAAAAA  \r\n", refused_at(34, 30)),
    (b"1 :1CB SJOIN 5 #a +kl a,b :1CBAAAAAA\r\n", refused_at(34, 34)),
    (b"1 :1CB SJOIN 5 #a + x 1CBAAAAAA\r\n", refused_at(34, 18)),
    (b"1 :1CB SJOIN 5 #a +k a,b 7 :1CBAAAAAA\r\n", refused_at(34, 23)),
    # a bad key, a bad limit; of both the first
    (b"1 :1CB SJOIN 5 #a +k a,b 1CBAAAAAA\r\n", refused_at(35, 19)),
    (b"1 :1CB SJOIN 5 #a +k " + b"k" * 24 + b" 1CBAAAAAA\r\n", refused_at(35, 19)),
    (b"1 :1CB SJOIN 5 #a +kl a,b x :1CBAAAAAA\r\n", refused_at(35, 20)),
    (b"1 :1CB SJOIN 5 #a +l 65536 1CBAAAAAA\r\n", refused_at(36, 19)),
    (b"1 :1CB SJOIN 5 #a +kl key 07 1CBAAAAAA\r\n", refused_at(36, 24)),
    (b"1 :1CB SJOIN 5 #a +lk x a,b :1CBAAAAAA\r\n", refused_at(36, 20)),
    # what is judged before the modes, and behind them, has no place
    (b"1 :1CB SJOIN 5 a +nn 1CBAAAAAA\r\n", refused(16)),
    (b"1 :1CB SJOIN 5 #a +n 1CBAAAAA\r\n", refused(18)),
]

# ---- questions: the name and the text are what stands behind the first and the second SPACE, whatever bytes they are
ROWDY = b"!deck@rowdy.boat"
CASES += [
    (b"banned #race sam" + ROWDY + b"\n", YES),
    (b"banned #race sam" + ROWDY + b"\r\n", YES),
    (b"banned #race sam" + ROWDY + b"\r\r\n", NO),
    (b"banned #race sam" + ROWDY + b" \n", NO),
    (b"banned #race  " + ROWDY + b"\n", YES),
    (b"banned #race \0\xff " + ROWDY + b"\n", YES),
    (b"banned #RACE ROWDY!x@\n", YES),
    (b"banned #race rowdy!x\n", NO),
    (b"banned #race \n", NO),
    (b"banned #race \r\n", NO),
    (b"banned #penalty sam" + ROWDY + b"\n", NO),
    # the name is looked at before the text
    (b"banned  \n", refused(16)),
    (b"banned  x\n", refused(16)),
    (b"banned race x\n", refused(16)),
    (b"banned #" + b"n" * 50 + b" x\n", refused(16)),
    (b"banned #" + b"n" * 511 + b" " + b"x" * 600 + b"\n", refused(16)),
    (b"banned #" + b"n" * 49 + b" x\n", refused(19)),
    (b"banned #none " + b"x" * 5000 + b"\n", refused(19)),
    # 512 bytes are a text, more aren't
    (b"banned #race " + b"x" * (512 - len(ROWDY)) + ROWDY + b"\n", YES),
    (b"banned #race " + b"x" * (512 - len(ROWDY)) + ROWDY + b"\r\n", YES),
    (b"banned #race " + b"x" * (513 - len(ROWDY)) + ROWDY + b"\n", refused(23)),
    (b"banned #race " + b"x" * (513 - len(ROWDY)) + ROWDY + b"\r\n", refused(23)),
    (b"banned #race " + b"x" * 512 + b"\r\r\n", refused(23)),
    (b"banned #race " + b"x" * 5000 + b"\n", refused(23)),
]


# ---- masks: those that are there keep their spelling; a line that is later says nothing, but its masks are judged
def numbered(numbers, length):
    return [b"%02d" % n + b"m" * (length - 2) for n in numbers]


def masks_line(masks):
    return b":1CB BMASK 70010 #race b :" + b" ".join(masks) + b"\r\n"


CASES += [
    (b"1 :1CB BMASK 70010 #race b\r\n", refused(12)),
    (b"1 BMASK 70010 #race b x\r\n", refused(13)),
    (b"1 :1CB BMASK 07 #race b x\r\n", refused(14)),
    (b"1 :1CB BMASK 0 #race b x\r\n", refused(15)),
    (b"1 :1CB BMASK 70010 race b x\r\n", refused(16)),
    (b"1 :1CB BMASK 70010 #none q x\r\n", refused(26)),
    (b"1 :1CB BMASK 70010 #race B x\r\n", refused(26)),
    (b"1 :1CB BMASK 70010 #race b : \r\n", refused(26)),
    (b"1 :1CB BMASK 70011 #race b :x " + b"m" * 101 + b"\r\n", refused(26)),
    (b"1 :1CB BMASK 70010 #none b x\r\n", refused(19)),
    (b"1 :1CB BMASK 70011 #race b x\r\n", NOTHING),
    (b"1 :1CB BMASK 4294967295 #race b :" + b" ".join(numbered(range(40), 2)) + b"\r\n", NOTHING),
    (
        b"1 :1CB bmask 1 #Race b :  ROWDY*!*@*  :a,b  *!*@ROWDY.boat \r\n",
        b"0,2,3,31 :1CB BMASK 1 #Race b :  ROWDY*!*@*  :a,b  *!*@ROWDY.boat \r\n",
    ),
    (b"1 " + masks_line(numbered(range(30), 2)), refused(27)),
    (b"1 " + masks_line(numbered(range(29), 2)), b"0,2,3,31 " + masks_line(numbered(range(29), 2))),
    (b"1 " + masks_line([b"more"]), refused(27)),
    (b"1 " + masks_line([b"rowdy*!*@*", b":A,B"]), b"0,2,3,31 " + masks_line([b"rowdy*!*@*", b":A,B"])),
    (
        b"?\r\n",
        b"70000 #penalty +nt @0PDAAAAAA @0PDAAAAAB 1CBAAAAAA\n\n"
        b"70010 #race +nkl buoy 40 @1CBAAAAAA +1CBAAAAAB\n"
        b"*!*@rowdy.boat " + b" ".join(numbered(range(29), 2)) + b" :a,b Rowdy*!*@*\n.\n",
    ),
]


# ---- the length: 512 bytes pass whatever the link's number, 513 and more get 4
def quit_line(length):
    opening = b":1CBAAAAAB QUIT :long "
    return opening + b"x" * (length - len(opening) - 2) + b"\r\n"


CASES += [
    (b"31 " + quit_line(513), refused(4)),
    (b"31 " + quit_line(514), refused(4)),
    (b"31 " + quit_line(5000), refused(4)),
    (b"2 " + b"y" * 5000 + b"\n", refused(4)),
    (b"999999999 " + quit_line(600), refused(3)),
    (b"31 " + quit_line(512), b"0,1,2,3 " + quit_line(512)),
    (b"+3" + b" " * 5000 + b"\n", NO_REQUEST),
    (b"?" + b"\r" * 600 + b"\n", NO_REQUEST),
    (b"1" * 5000 + b"\n", NO_REQUEST),
    (b"1" * 600 + b" QUIT\r\n", NO_REQUEST),
]

# ---- any bytes; a command in small letters, an empty reason; no other link
CASES += [
    (
        b"0 :0PDAAAAAA PART #penalty :\xff\x80 \x01\x7f\r\n",
        b"1,2,3,31 :0PDAAAAAA PART #penalty :\xff\x80 \x01\x7f\r\n",
    ),
    (b"-0\n", done(0)),
    (b"-2\n", done(0)),
    (b"-3\r\n", done(0)),
    (b"-31\n", done(0)),
    (b"1 :1CBAAAAAA quit :\r\n", b"- :1CBAAAAAA QUIT :\r\n"),
]

# ---- who is left: #race is empty and its slot free, the lowest one, which the next channel takes, without masks. They go too where the time falls
PENALTY = b"70000 #penalty +nt @0PDAAAAAB\n\n"
FINISH = b"79999 #finish + 1CBAAAAAC\n\n"
CASES += [
    (b"?\n", PENALTY + b".\n"),
    (
        b"1 :1CB SJOIN 80000 #finish +lsi 9 1CBAAAAAC\r\n",
        b"- :1CB SJOIN 80000 #finish +isl 9 1CBAAAAAC\r\n",
    ),
    (b"?\n", PENALTY + b"80000 #finish +isl 9 1CBAAAAAC\n\n.\n"),
    (b"1 :1CB BMASK 80000 #finish b late*\r\n", b"- :1CB BMASK 80000 #finish b late*\r\n"),
    (b"banned #finish latecomer\n", YES),
    (b"1 :1CB SJOIN 79999 #finish + 1CBAAAAAC\r\n", b"- :1CB SJOIN 79999 #finish + 1CBAAAAAC\r\n"),
    (b"banned #finish latecomer\n", NO),
]

# ---- the longest record: ten digits, 50 bytes of name, all modes, 23 of key, five digits, 64 operators with voice
SETTINGS = b"4294967295 #" + b"n" * 49 + b" +imnpstkl " + b"k" * 23 + b" 65535"
MEMBERS = [b"@+9XXA%05d" % i for i in range(64)]
FIRST = b":1CB SJOIN " + SETTINGS + b" :" + b" ".join(MEMBERS[:32]) + b"\r\n"
SECOND = b":1CB SJOIN " + SETTINGS + b" :" + b" ".join(MEMBERS[32:]) + b"\r\n"
LONGEST = SETTINGS + b" " + b" ".join(MEMBERS) + b"\n"
CASES += [
    (b"1 " + FIRST, b"- " + FIRST),
    (b"1 " + SECOND, b"- " + SECOND),
    (b"1 :1CB SJOIN 4294967295 #" + b"N" * 49 + b" + 9XXA00064\r\n", refused(22)),
]
assert len(LONGEST) == 870

# ---- and the longest list: 32 masks of 100 bytes, four a line
MASKS = numbered(range(31), 100) + [b"*" * 49 + b"?" * 50 + b"z"]
LISTED = [b":1CB BMASK 4294967295 #" + b"n" * 49 + b" b :" + b" ".join(MASKS[i : i + 4]) + b"\r\n" for i in range(0, 32, 4)]
LONGEST += b" ".join(MASKS[31:] + MASKS[:31]) + b"\n"
CASES += [(b"1 " + line, b"- " + line) for line in reversed(LISTED)]
CASES += [
    (b"1 :1CB BMASK 4294967295 #" + b"n" * 49 + b" b more\r\n", refused(27)),
    (b"banned #" + b"N" * 49 + b" " + b"y" * 511 + b"Z\r\n", YES),
    (b"banned #" + b"n" * 49 + b" " + b"z" * 511 + b"y\r\n", NO),
    (b"banned #" + b"n" * 49 + b" " + b"y" * 512 + b"z\r\n", refused(23)),
    (b"banned #" + b"n" * 49 + b" " + b"y" * 600 + b"z\n", refused(23)),
    (b"banned #" + b"n" * 49 + b" " + b"y" * 5000 + b"z\n", refused(23)),
    # the last line is unfinished, and taken as it is
    (b"?", PENALTY + FINISH + LONGEST + b".\n"),
]
assert len(LONGEST) == 870 + 3232


def made():
    stdin = (EXAMPLES / "morning.txt").read_bytes() + b"".join(case[0] for case in CASES)
    stdout = (EXAMPLES / "morning.out").read_bytes() + b"".join(case[1] for case in CASES)
    return {"stdin": stdin, "stdout": stdout}


if __name__ == "__main__":
    differs = 0
    for name, content in made().items():
        if sys.argv[1:] == ["--check"]:
            if (HERE / name).read_bytes() != content:
                print(name, "is not what the cases say")
                differs = 1
        else:
            (HERE / name).write_bytes(content)
    sys.exit(differs)
