#!/usr/bin/env python3
"""Tests of the program at a terminal, which is a pseudo-terminal here, and of how
it ends, run through bin/relay. Says which test fails; the last line is 'N passed, M failed', the status 1 if one did.
"""
import os
import pathlib
import pty
import select
import signal
import subprocess
import sys
import tempfile
import termios
import tty

ROOT = pathlib.Path(__file__).resolve().parent.parent
RELAY = ROOT / "bin" / "relay"
NOTE = "note: help prints the requests\n"
HELP = [
    "+N        registers link N",
    "-N        drops link N",
    "N LINE    takes LINE from link N",
    "?         prints the table",
    "banned NAME TEXT",
    "          says whether TEXT is banned from channel NAME",
    "help      prints this",
    "Ctrl-D    ends the program",
    "! NUMBER PLACE",
    "          answers a refused LINE; PLACE counts in LINE, from 0",
]


def equal(got, expected):
    if got != expected:
        raise AssertionError(f"{got!r}, expected {expected!r}")


def holds(text, part):
    if part not in text:
        raise AssertionError(f"{text!r} doesn't have {part!r}")


def typed(lines, *words, end=b"\x04"):
    """Status, standard output and standard error of a run to which the lines are typed, each once the one before it is answered; only input is the terminal."""
    ours, theirs = pty.openpty()
    tty.setcbreak(theirs)
    mode = termios.tcgetattr(theirs)
    mode[3] |= termios.ICANON
    mode[3] &= ~termios.ECHO
    termios.tcsetattr(theirs, termios.TCSANOW, mode)
    started = subprocess.Popen([RELAY, *words], stdin=theirs, stdout=subprocess.PIPE, stderr=subprocess.PIPE)
    os.close(theirs)
    for line in lines:
        os.write(ours, line)
    os.write(ours, end)
    try:
        out, err = started.communicate(timeout=20)
    except subprocess.TimeoutExpired:
        started.send_signal(signal.SIGTERM)
        started.communicate()
        raise
    os.close(ours)
    return started.returncode, out.decode(), err.decode()


def piped(given, *words, **options):
    ended = subprocess.run([RELAY, *words], input=given, capture_output=True, timeout=20, **options)
    return ended.returncode, ended.stdout.decode(), ended.stderr.decode()


# ---- at a terminal


def test_lf_alone_is_taken_with_its_cr():
    join = b"1 :1CB SJOIN 70030 #race +n :@1CBAAAAAA"
    out = "= 0\n- :1CB SJOIN 70030 #race +n @1CBAAAAAA\r\n70030 #race +n @1CBAAAAAA\n\n.\n"
    equal(typed([b"+1\n", join + b"\n", b"?\n"]), (0, out, NOTE))
    equal(typed([b"+1\n", join + b"\r\n", b"?\n"]), (0, out, NOTE))
    equal(piped(b"+1\n" + join + b"\n"), (0, "= 0\n! 5\n", ""))


def test_longest_line_that_is_typed():
    opening = b"1 :1CBAAAAAA QUIT :a "
    longest = opening + b"x" * (2 + 512 - len(opening) - 2)
    equal(typed([b"+1\n", longest + b"\n"]), (0, "= 0\n- " + longest.decode()[2:] + "\r\n", NOTE))
    equal(typed([b"+1\n", longest + b"x\n"]), (0, "= 0\n! 4 line over 512 bytes\n", NOTE))


def test_questions_that_are_typed():
    lines = [b"+1\n", b"1 :1CB SJOIN 70030 #race +n :@1CBAAAAAA\n", b"1 :1CB BMASK 70030 #race b sam*\n", b"1 :1CB BMASK 70031 #race b joe*\n"]
    out = "= 0\n- :1CB SJOIN 70030 #race +n @1CBAAAAAA\r\n- :1CB BMASK 70030 #race b sam*\r\n-\n"
    asked = [b"banned #race Sam\n", b"banned #race joe\r\n", b"banned #race \n", b"banned #race\n", b"banned #race " + b"s" * 512 + b"\n", b"banned #race " + b"s" * 513 + b"\n"]
    answers = "yes\nno\nno\n! input\nno\n! 23 mask or text over 512 bytes\n"
    equal(typed(lines + asked), (0, out + answers, NOTE))


def test_unfinished_line_is_taken_as_it_is():
    equal(typed([b"+1\n", b"1 :1CBAAAAAA QUIT"], end=b"\x04\x04"), (0, "= 0\n! 5 no CR LF at the end\n", NOTE))


def test_help_and_empty_lines():
    equal(typed([b"\n", b"\r\n", b"help\n", b"help\r\n"]), (0, "".join(line + "\n" for line in HELP) * 2, NOTE))
    equal(typed([b"helpful\n", b" \n"]), (0, "! input\n! input\n", NOTE))
    equal(piped(b"\n\r\nhelp\n"), (0, "! input\n" * 3, ""))


def test_numbers_have_words():
    lines = [b"+1\n", b"+32\n", b"-33\n", b"1 PING\n", b"2 PING\n", b"1 :1CBAAAAAA PART #race\n", b"1 :1CB SJOIN 0 #race + 1CBAAAAAA\n", b"banned #race sam\n"]
    words = [
        "= 0",
        "= 3 link above 31, or not registered",
        "= 3 link above 31, or not registered",
        "! 11 command not SJOIN, PART, QUIT or BMASK",
        "! 3 link above 31, or not registered",
        "! 19 channel not in the table",
        "! 15 time is 0",
        "! 19 channel not in the table",
    ]
    equal(typed(lines), (0, "".join(line + "\n" for line in words), NOTE))
    numbers = "".join(" ".join(line.split()[:2]) + "\n" for line in words)
    equal(piped(b"".join(lines).replace(b"\n", b"\r\n")), (0, numbers, ""))


def test_place_is_shown():
    lines = [b"+1\n", b"1 :1AB SJOIN 1 #a +nn 1ABAAAAAA\n", b"1 :1AB SJOIN 1 #a +k 1ABAAAAAA  \r\n", b"1 :1AB SJOIN 1 a +nn 1ABAAAAAA\n"]
    out = [
        "= 0",
        "! 33 18 mode letter twice",
        ":1AB SJOIN 1 #a +nn 1ABAAAAAA",
        "                  ^",
        "! 34 30 mode parameter missing, or too many",
        ":1AB SJOIN 1 #a +k 1ABAAAAAA  ",
        "                              ^",
        "! 16 bad channel name, or names differ",
    ]
    equal(typed(lines), (0, "".join(line + "\n" for line in out), NOTE))
    equal(piped(b"".join(lines[:2]).replace(b"\n", b"\r\n")), (0, "= 0\n! 33 18\n", ""))


def test_what_moves_the_cursor_is_shown_as_question_marks():
    line = b":1AB SJOIN 1 #\xc3\xa9\x1b +n\tx 1ABAAAAAA"
    out = "! 32 20 mode letter unknown, or '+' missing\n:1AB SJOIN 1 #??? +n?x 1ABAAAAAA\n" + " " * 20 + "^\n"
    equal(typed([b"+1\n", b"1 " + line + b"\n"]), (0, "= 0\n" + out, NOTE))


def test_place_at_the_end_of_the_longest_line():
    longest = b":1AB SJOIN 1 #a +l 1ABAAAAAA".ljust(510)
    out = "! 34 510 mode parameter missing, or too many\n" + longest.decode() + "\n" + " " * 510 + "^\n"
    equal(typed([b"+1\n", b"1 " + longest + b"\n"] * 2), (0, ("= 0\n" + out) * 2, NOTE))


def test_control_c_ends_it():
    ours, theirs = pty.openpty()
    started = subprocess.Popen([RELAY], stdin=theirs, stdout=subprocess.PIPE, stderr=subprocess.PIPE, preexec_fn=restored)
    equal(select.select([started.stderr], [], [], 20)[0], [started.stderr])
    started.send_signal(signal.SIGINT)
    started.communicate(timeout=20)
    equal(started.returncode, -signal.SIGINT)
    os.close(ours)
    os.close(theirs)


def restored():
    signal.signal(signal.SIGINT, signal.SIG_DFL)


def test_lines_that_the_readme_types():
    text = (ROOT / "README.md").read_text()
    block = text.split("and Ctrl-D to end:\n\n")[1].split("\n\n")[0]
    lines = [line[4:] for line in block.split("\n")]
    asked = [line for line in lines if line[0] in "+?1b"]
    answers = "".join(line + "\n" for line in lines if line not in asked)
    equal(len(asked), 6)
    status, out, err = typed([line.encode() + b"\n" for line in asked])
    equal((status, out.replace("\r", ""), err), (0, answers, NOTE))


# ---- how it ends


def test_version_is_the_files():
    version = (ROOT / "VERSION").read_text()
    equal(subprocess.run([RELAY, "--version"], capture_output=True, text=True).stdout, "relay " + version)


def test_day_log_that_cannot_be_used():
    with tempfile.TemporaryDirectory() as folder:
        for name in [folder, folder + "/no/log", folder + "/" + "x" * 300]:
            status, out, err = piped(b"+1\n", name)
            equal((status, out, err[:7 + len(name)]), (1, "", "relay: " + name))
        equal(piped(b"+1\n", "x" * 5000)[:2], (1, ""))
        if os.getuid() != 0:
            log = pathlib.Path(folder) / "log"
            log.touch(0o444)
            equal(piped(b"+1\n", str(log))[0], 1)


def test_day_log_that_cannot_be_synced():
    status, out, err = piped(b"+1\n1 :1CBAAAAAA QUIT\r\n", "/dev/full")
    equal((status, out), (1, ""))
    holds(err, "relay: /dev/full: ")


def test_full_disk():
    with open("/dev/full", "w") as full:
        ended = subprocess.run([RELAY], input=b"+1\n", stdout=full, stderr=subprocess.PIPE, timeout=20)
    equal(ended.returncode, 1)
    holds(ended.stderr.decode(), "relay: standard output: ")


def test_reader_that_is_gone():
    ours, theirs = os.pipe()
    os.close(ours)
    ended = subprocess.run([RELAY], input=b"+1\n", stdout=theirs, stderr=subprocess.PIPE, timeout=20)
    os.close(theirs)
    equal(ended.returncode, 1)
    holds(ended.stderr.decode(), "relay: standard output: ")


def test_closed_standard_input_and_output():
    program = ROOT / "crates" / "console" / "out" / "console"
    with tempfile.TemporaryDirectory() as folder:
        log = pathlib.Path(folder) / "log"
        for words in ["", str(log)]:
            for closed in ["<&-", ">&-", "<&- >&-", "<&- 2>&-"]:
                ended = subprocess.run(["sh", "-c", f'"{RELAY}" {words} {closed}'], capture_output=True, timeout=20, input=b"")
                equal((ended.returncode, ended.stdout), (1, b""))
                if "2>" not in closed:
                    equal(ended.stderr[:7], b"relay: ")
        # the program by itself: no answer stands in the day log
        for closed in ["<&-", ">&-", "2>&-", "<&- >&- 2>&-"]:
            subprocess.run(["sh", "-c", f'printf "+1\\n1 :1CBAAAAAA QUIT\\r\\n" | (exec "{program}" "{log}" {closed})'], capture_output=True, timeout=20)
            equal(log.read_bytes() if log.exists() else b"", b"")


def test_standard_input_that_cannot_be_read():
    folder = os.open("/", os.O_RDONLY)
    ended = subprocess.run([RELAY], stdin=folder, capture_output=True, timeout=20)
    os.close(folder)
    equal((ended.returncode, ended.stdout), (1, b""))
    holds(ended.stderr.decode(), "relay: standard input: ")


def main():
    subprocess.run([RELAY], stdin=subprocess.DEVNULL, check=True)
    passed = failed = 0
    for name, test in list(globals().items()):
        if not name.startswith("test_") or (sys.argv[1:] and name not in sys.argv[1:]):
            continue
        try:
            test()
            passed += 1
        except (AssertionError, OSError, subprocess.SubprocessError) as error:
            print(f"examples/terminal.py: {name}: {error}")
            failed += 1
    print(f"{passed} passed, {failed} failed")
    return failed != 0


if __name__ == "__main__":
    sys.exit(main())
