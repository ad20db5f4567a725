#!/usr/bin/env python3
"""Tests of the day log, from outside: that it survives a kill, a power cut, a full disk and a restart.

The console is run by itself and through bin/relay. Logs are read and written here
by README.md's words, and tables are compared with those of relays that never stop.
What the console does to its log, in which order, is seen by examples/calls.c, which
makes calls fail too. Says which test fails, and what is left out; the last line is
'N passed, M failed', the status 1 if one did. Arguments name the tests to run.
"""
import contextlib
import os
import pathlib
import random
import resource
import select
import shutil
import signal
import socket
import subprocess
import sys
import tempfile
import time

ROOT = pathlib.Path(__file__).resolve().parent.parent
RELAY = ROOT / "bin" / "relay"
CONSOLE = ROOT / "crates" / "console" / "out" / "console"
CALLS = ROOT / "examples" / "calls.c"

SEED = 20261117
KILLS = 200

# The bytes of a read, and the most that are kept of a line under way.
READ = 4096
UNDER_WAY = 573

# Seconds after which a program that says nothing is taken to hang.
PATIENCE = 30

LINKS = range(32)
ALL_UP = [b"+%d\n" % link for link in LINKS]
ALL_DOWN = [b"-%d\n" % link for link in LINKS]

# A short day: the links that come up, and lines that are all accepted.
UP = [b"+0\n", b"+1\n", b"+2\n", b"+31\n"]
DAY = [
    b"1 :1CB SJOIN 70010 #race +nk buoy :@1CBAAAAAA +1CBAAAAAB\r\n",
    b"0 :0PD SJOIN 70000 #penalty + :@0PDAAAAAA\r\n",
    b"31 :1CB BMASK 70010 #race b :Rowdy*!*@* *!*@rowdy.boat\r\n",
    b"2 :2MK SJOIN 70010 #race +l 40 :+2MKAAAAAA 2MKAAAAAB\r\n",
    b"2 :2MKAAAAAA PART #race :weighing anchor\r\n",
    b"1 :1CB BMASK 70011 #race b late*!*@*\r\n",
    b"0 :0PDAAAAAA QUIT\r\n",
    b"1 :1CB SJOIN 70005 #race +t :@1CBAAAAAB\r\n",
    b"2 :2MKAAAAAB QUIT :done\r\n",
]

# The relays that were started, and the library that calls.c becomes.
STARTED = []
SHIM = None


class LeftOut(Exception):
    """Something is missing that a test needs."""


class Gone(AssertionError):
    """The program ended before it answered."""


def equal(got, expected):
    if got != expected:
        raise AssertionError(f"{got!r}, expected {expected!r}")


def begins(text, opening):
    if not text.startswith(opening):
        raise AssertionError(f"{text!r} doesn't begin with {opening!r}")


def wait_for(test):
    for _ in range(400):
        if test():
            return
        time.sleep(0.05)
    raise AssertionError("waited in vain")


# ---- requests, answers, records


def is_line(request):
    """Whether it is a link's line: a number, a SPACE, and the line."""
    return request[:1].isdigit() and b" " in request


def closes(request):
    """Whether it closes a group."""
    return request[:1] in (b"+", b"-", b"?") or request.startswith(b"banned ")


def sent_line(request):
    """The link and the line of a request."""
    link, line = request.split(b" ", 1)
    return int(link), line


def record(request):
    link, line = sent_line(request)
    return b"IR" + bytes([link]) + len(line).to_bytes(2, "big") + line


def recorded(requests):
    return b"".join(record(request) for request in requests)


def records(log):
    """The links and lines of a log, and the bytes of a torn record behind them."""
    found, at = [], 0
    while at < len(log):
        head = log[at:at + 5]
        if not b"IR".startswith(head[:2]):
            raise AssertionError(f"no record at {at}: {head!r}")
        end = at + 5 + int.from_bytes(head[3:], "big")
        if len(head) < 5 or end > len(log):
            return found, log[at:]
        found.append((head[2], log[at + 5:end]))
        at = end
    return found, b""


def table_end(got, at):
    """Where a table ends that begins at a place, or 0: its lines come in pairs, and then comes '.'."""
    while not got.startswith(b".\n", at):
        for _ in range(2):
            at = got.find(b"\n", at) + 1
            if at == 0:
                return 0
    return at + 2


def split(requests, got):
    """The whole answers to requests, in order, and what stands behind them."""
    found, at = [], 0
    for request in requests:
        end = table_end(got, at) if request == b"?\n" else got.find(b"\n", at) + 1
        if end == 0:
            break
        found.append(got[at:end])
        at = end
    return found, got[at:]


def accepted(requests, answers):
    """Of requests those that are links' lines and were accepted."""
    return [request for request, answer in zip(requests, answers) if is_line(request) and not answer.startswith(b"!")]


# ---- relays


class Relay:
    """A relay that runs. What is sent at once is one read of it, if it is no more than that: what isn't read then is lost. Of a pipe it reads as it comes."""

    def __init__(self, *words, program=CONSOLE, piped=False, limit=None, **options):
        if piped:
            theirs, self.input = os.pipe()
        else:
            ours, other = socket.socketpair(socket.AF_UNIX, socket.SOCK_SEQPACKET)
            theirs, self.input = other.detach(), ours.detach()
        self.said = tempfile.TemporaryFile()
        self.got = b""
        self.is_open = True
        self.is_gone = False

        if limit is not None:
            options["preexec_fn"] = lambda: resource.setrlimit(resource.RLIMIT_FSIZE, (limit, limit))
        # python ignores PIPE and XFSZ, and so does the console where it is started by itself. bin/relay has to see to that alone.
        options = {"restore_signals": program == RELAY, "start_new_session": True} | options
        self.process = subprocess.Popen([program, *words], stdin=theirs, stdout=subprocess.PIPE, stderr=self.said, bufsize=0, **options)
        os.close(theirs)
        self.output = self.process.stdout.fileno()
        STARTED.append(self)

    def send(self, message):
        equal(os.write(self.input, message), len(message))

    def pull(self, seconds=PATIENCE):
        """Takes what has come. Whether more can."""
        if not select.select([self.output], [], [], seconds)[0]:
            if seconds:
                raise AssertionError(f"hangs: nothing came in {seconds} seconds")
            return True
        more = os.read(self.output, 1 << 16)
        self.got += more
        return more != b""

    def answers(self, requests):
        """The answers to requests that were sent."""
        while True:
            found, rest = split(requests, self.got)
            if len(found) == len(requests):
                self.got = rest
                return found
            if not self.pull():
                raise Gone(f"ended; of {len(requests)} requests {len(found)} were answered")

    def ask(self, *requests):
        """The answers to requests, which are sent in as few reads as they fit in."""
        found, rest = [], list(requests)
        while rest:
            n, size = 0, 0
            while n < len(rest) and size + len(rest[n]) <= READ:
                size += len(rest[n])
                n += 1
            self.send(b"".join(rest[:n]))
            found += self.answers(rest[:n])
            rest = rest[n:]
        return found

    def table(self):
        return self.ask(b"?\n")[0]

    def close(self):
        if self.is_open:
            os.close(self.input)
            self.is_open = False

    def end(self):
        """Ends the input. Status, what came on standard output and wasn't asked for yet, and standard error."""
        self.close()
        while self.pull():
            pass
        self.process.wait(PATIENCE)
        self.is_gone = True
        self.said.seek(0)
        return self.process.returncode, self.got, self.said.read()

    def kill(self):
        self.process.kill()
        return self.end()

    def drop(self):
        """Leaves nothing behind, whatever has become of it."""
        self.close()
        if not self.is_gone:
            with contextlib.suppress(ProcessLookupError):
                os.killpg(self.process.pid, signal.SIGKILL)
        self.process.wait()
        self.process.stdout.close()
        self.said.close()


def run(messages, *words, **options):
    """Status, standard output and standard error of a relay that gets these messages."""
    relay = Relay(*words, **options)
    with contextlib.suppress(BrokenPipeError):
        for message in messages:
            relay.send(message)
    return relay.end()


def answered(*requests):
    """The answers of a relay without a log."""
    relay = Relay()
    found = relay.ask(*requests)
    equal(relay.end(), (0, b"", b""))
    return found


def tables_of(requests):
    """The tables before and after each of some lines, which a relay without a log accepts."""
    relay = Relay()
    relay.ask(*ALL_UP)
    tables = [relay.table()]
    for request in requests:
        equal(accepted([request], relay.ask(request)), [request])
        tables.append(relay.table())
    relay.end()
    return tables


def table_of(log):
    """The table of a relay without a log that took the lines of one, and accepted them."""
    found, torn = records(log)
    equal(torn, b"")
    requests = [b"%d %s" % one for one in found]
    relay = Relay()
    relay.ask(*ALL_UP)
    equal(accepted(requests, relay.ask(*requests)), requests)
    table = relay.table()
    relay.end()
    return table


# ---- lines by chance


def some_line(chance, link):
    server = b"%dAA" % link
    users = [server + b"AAAAA%c" % letter for letter in b"ABCDEF"]
    channel = b"#" + chance.choice([b"race", b"Race", b"start", b"penalty", b"mark%d" % chance.randrange(16)])
    stamp = chance.choice([70000, 70010, 70020, 9000000000])
    kind = chance.random()
    if kind < 0.4:
        modes = chance.choice([b"+", b"+n", b"+nt", b"+k buoy", b"+l %d" % chance.randint(1, 90), b"+kl anchor 7"])
        members = b" ".join(chance.choice([b"", b"@", b"+", b"@+"]) + user for user in chance.sample(users, chance.randint(1, 4)))
        return b":%s SJOIN %d %s %s :%s" % (server, stamp, channel, modes, members)
    if kind < 0.6:
        return b":%s PART %s%s" % (chance.choice(users), channel, chance.choice([b"", b" :to leeward"]))
    if kind < 0.75:
        return b":%s QUIT%s" % (chance.choice(users), chance.choice([b"", b" :" + b"x" * chance.randint(1, 300)]))
    if kind < 0.92:
        masks = b" ".join(chance.sample([b"*!*@rowdy.boat", b"sam*", b"*", b"?oe!*", b".", b"*!bar@*"], chance.randint(1, 3)))
        return b":%s BMASK %d %s b :%s" % (server, stamp, channel, masks)
    return chance.choice([b"PING", b":%s SJOIN 0 #race + :%s" % (server, users[0]), b":%s QUIT :%s" % (users[0], b"x" * 600), b""])


def some_request(chance):
    link = chance.randrange(6)
    kind = chance.random()
    if kind < 0.9:
        return b"%d %s\r\n" % (link, some_line(chance, link))
    other = [b"+%d\n" % link, b"+%d\n" % link, b"-%d\n" % link, b"?\n", b"banned #race sam!deck@rowdy.boat\n", b"hello\n", b"\n", b"1 :1AAAAAAAA QUIT\n"]
    return chance.choice(other)


def some_message(chance):
    """Requests for one read: a few, or many."""
    size = chance.choice([chance.randint(1, 3), chance.randint(1, 6), chance.randint(4, 20), chance.randint(1, 60)])
    requests = []
    while len(requests) < size:
        requests.append(some_request(chance))
        if sum(map(len, requests)) > READ:
            return requests[:-1]
    return requests


# ---- killed


class Killed:
    """A log that grows while its relay is killed again and again, and two relays that never stop: `whole` takes the lines of the log, with all links
    registered, `twin` what the killed one was asked, as far as it got."""

    def __init__(self, log):
        self.log = log
        self.chance = random.Random(SEED)
        self.whole, self.twin = Relay(), Relay()
        self.whole.ask(*ALL_UP)
        self.kept = self.torn = b""
        self.busy = self.unanswered = 0
        self.pace()

    def pace(self):
        """Tries how long a line takes. The log is read at each start, so a slow program gets fewer lines."""
        relay = Relay(self.log.with_name("pace"))
        requests = ALL_UP[:6] + [some_request(self.chance) for _ in range(300)]
        began = time.monotonic()
        relay.ask(*requests)
        self.line_time = (time.monotonic() - began) / len(requests)
        relay.end()
        self.lines = max(2, min(30, int(12 / self.line_time / (KILLS * KILLS / 2))))

    def start(self, piped):
        """Starts the relay on the log, and compares its table with those of the relays that never stopped."""
        if self.chance.random() < 0.1:
            relay = Relay(self.log, piped=piped)
            time.sleep(self.chance.uniform(0, 0.01))
            equal(relay.kill()[1], b"")
            # what is torn is there still, or was cut off
            left = self.log.read_bytes()
            self.torn = left[len(self.kept):] and self.torn
            equal(left, self.kept + self.torn)
        relay = Relay(self.log, piped=piped)
        relay.send(b"?\n")
        tables = self.whole.table(), self.twin.table()
        table = relay.answers([b"?\n"])[0]
        equal((table, table), tables)
        equal(self.log.read_bytes(), self.kept)
        return relay

    def feed(self, relay):
        """Sends messages as fast as they are taken: for some time, until the log has grown by some bytes, or until some answers have come. What was sent, a
        message each."""
        messages = [[b"+0\n", *[request for request in ALL_UP[1:6] if self.chance.random() < 0.9]]]
        messages += [some_message(self.chance) for _ in range(self.chance.randint(1, 2 + self.lines))]
        moment = self.chance.choice(["time", "log", "log", "answers"])
        some = self.chance.random() * self.lines
        seconds = 3 * some * self.line_time if moment == "time" else 0.05 + 2 * self.line_time * sum(map(len, messages))
        grown = len(self.kept) + 1 + 100 * some if moment == "log" else sys.maxsize
        heard = 1 + 100 * some if moment == "answers" else sys.maxsize
        os.set_blocking(relay.input, False)
        until = time.monotonic() + seconds
        sent = 0
        while time.monotonic() < until and self.log.stat().st_size < grown and len(relay.got) < heard:
            if sent < len(messages):
                with contextlib.suppress(BlockingIOError):
                    relay.send(b"".join(messages[sent]))
                    sent += 1
            relay.pull(0)
        return messages[:sent]

    def once(self, piped):
        relay = self.start(piped)
        messages = self.feed(relay)
        _, out, err = relay.kill()
        equal(err, b"note: day log: a torn record is cut off at %d\n" % len(self.kept) if self.torn else b"")
        self.compare([(number, request) for number, message in enumerate(messages) for request in message], out, piped)

    def compare(self, sent, out, piped):
        """The log has the accepted lines that were answered, in order; of those that weren't, at most a group, or its beginning."""
        requests = [request for _, request in sent]
        answers, _ = split(requests, out)
        equal(answers, self.twin.ask(*requests[:len(answers)]))
        log = self.log.read_bytes()
        equal(log[:len(self.kept)], self.kept)
        found, self.torn = records(log[len(self.kept):])
        told = [sent_line(request) for request in accepted(requests, answers)]
        equal(found[:len(told)], told)
        behind = self.pass_group(sent[len(answers):], found[len(told):], piped)
        if self.torn and not any(record(request).startswith(self.torn) for request in behind if is_line(request)):
            raise AssertionError(f"the log ends with {self.torn!r}, which is of no line that is next")
        lines = [b"%d %s" % one for one in found]
        equal(accepted(lines, self.whole.ask(*lines)), lines)
        self.kept = log[:len(log) - len(self.torn)]
        self.busy += len(answers) < len(sent)
        self.unanswered += len(told) < len(found)
        self.twin.ask(*ALL_DOWN)

    def pass_group(self, sent, found, piped):
        """Sees that the lines of the log that weren't answered are the next that were sent and accepted, and of one group. What else is of that group."""
        group = []
        while found:
            if not sent or closes(sent[0][1]):
                raise AssertionError(f"the log has {found[0]!r}, which is of a later group than the first that wasn't answered, or wasn't sent")
            group.append(sent[0])
            request = sent[0][1]
            if accepted([request], self.twin.ask(request)):
                equal(found[0], sent_line(request))
                found = found[1:]
            sent = sent[1:]
        if piped and sum(len(request) for _, request in group) > READ + UNDER_WAY:
            raise AssertionError("the log has more lines that weren't answered than one read has")
        if not piped and len({number for number, _ in group}) > 1:
            raise AssertionError("the log has lines of two reads that weren't answered")
        rest = [request for _, request in sent]
        return rest[:next((place for place, request in enumerate(rest) if closes(request)), len(rest))]


def test_killed_at_random_moments(folder):
    killed = Killed(folder / "log")
    for number in range(KILLS):
        try:
            killed.once(piped=number % 2 == 0)
        except AssertionError as error:
            raise AssertionError(f"seed {SEED}, kill {number}: {error}") from error
    killed.start(False).end()
    # the moments were such that the relay was at work
    if killed.busy < KILLS / 4 or len(records(killed.kept)[0]) < KILLS:
        raise AssertionError(f"of {KILLS} kills {killed.busy} came while lines waited, and {len(records(killed.kept)[0])} lines are in the log")
    equal(table_of(killed.kept), killed.whole.table())


# ---- a full disk


def fill(log, start, start_again):
    """Sends groups until the relay stops, and starts it again with more room."""
    chance = random.Random(SEED)
    relay = start()
    relay.ask(*ALL_UP[:6])
    kept, group = b"", []
    with contextlib.suppress(Gone, BrokenPipeError):
        while len(kept) < 1 << 20:
            group = [b"%d %s\r\n" % (link, some_line(chance, link)) for link in (chance.randrange(6) for _ in range(chance.randint(1, 40)))]
            while sum(map(len, group)) > READ:
                group.pop()
            kept += recorded(accepted(group, relay.ask(*group)))
            equal(log.read_bytes(), kept)
    status, out, err = relay.end()
    equal((out, log.read_bytes()), (b"", kept))
    begins(err, b"relay: day log: ")
    equal(err.count(b"\n"), 1)
    equal(kept != b"", True)
    again = start_again()
    equal(again.table(), table_of(kept))
    again.ask(*ALL_UP[:6])
    kept += recorded(accepted(group, again.ask(*group)))
    line = b"5 :5AA SJOIN 1 #race + :@5AAAAAAAA\r\n"
    equal(accepted([line], again.ask(line)), [line])
    kept += record(line)
    equal((log.read_bytes(), again.table()), (kept, table_of(kept)))
    equal(again.end(), (0, b"", b""))
    return status, err


def test_file_size_limit(folder):
    for number, limit in enumerate([1000, 5000, 8192, 30011]):
        log = folder / f"log{number}"
        fill(log, lambda: Relay(log, limit=limit), lambda: Relay(log))


def test_file_size_limit_through_bin_relay(folder):
    log = folder / "log"
    status, err = fill(log, lambda: Relay(log, program=RELAY, limit=10007), lambda: Relay(log, program=RELAY))
    equal((status, err), (1, b"relay: day log: File too large\n"))


def test_limit_between_groups(folder):
    """A group that fits to the byte is kept, the next one isn't, and a start with no room more is as good as any."""
    log = folder / "log"
    limit = len(recorded(DAY[:4]))
    up, first, second = b"".join(UP), b"".join(DAY[:4]), b"".join(DAY[4:])
    answers, tables = answered(*UP, *DAY), tables_of(DAY)
    _, out, err = run([up, first, second], log, limit=limit)
    equal((out, err, log.read_bytes()), (b"".join(answers[:len(UP) + 4]), b"relay: day log: File too large\n", recorded(DAY[:4])))
    _, out, err = run([b"?\n", up, second], log, limit=limit)
    equal((out, err, log.read_bytes()), (tables[4] + b"= 0\n" * len(UP), b"relay: day log: File too large\n", recorded(DAY[:4])))
    _, out, err = run([up, second, b"?\n"], log, limit=len(recorded(DAY)))
    equal((out, err, log.read_bytes()), (b"= 0\n" * len(UP) + b"".join(answers[len(UP) + 4:]) + tables[-1], b"", recorded(DAY)))


def test_full_disk(folder):
    """On a small disk in memory, which is mounted where nothing else sees it. A user without rights is root there."""
    for words in [["unshare", "--mount"], ["unshare", "--map-root-user", "--mount"]]:
        with contextlib.suppress(FileNotFoundError):
            ended = subprocess.run([*words, sys.executable, __file__, "--disk", folder], capture_output=True, text=True)
            said = ended.stdout.splitlines()
            if said[:1] == ["mounted"]:
                equal((ended.returncode, said[1:], ended.stderr), (0, [], ""))
                return
    raise LeftOut("needs a disk, and none can be mounted")


def fill_a_disk(folder):
    """The test of a full disk, where mounting is seen by nobody else. Says 'mounted', and what fails."""
    if subprocess.run(["mount", "-t", "tmpfs", "-o", "size=96k", "tmpfs", folder]).returncode != 0:
        return
    print("mounted", flush=True)
    log, other = folder / "log", folder / "other"
    other.write_bytes(bytes(1 << 15))

    def with_room():
        other.unlink()
        return Relay(log, program=RELAY)

    try:
        equal(fill(log, lambda: Relay(log, program=RELAY), with_room), (1, b"relay: day log: No space left on device\n"))
        if log.stat().st_size < 1 << 15:
            raise AssertionError(f"it stopped long before the disk was full: {log.stat().st_size} bytes")
    except (AssertionError, OSError, subprocess.SubprocessError) as error:
        print(error)
    finally:
        drop_all()


# ---- torn records


def test_cut_at_every_byte(folder):
    log = folder / "log"
    whole = recorded(DAY)
    tables = tables_of(DAY)
    ends = [len(recorded(DAY[:n])) for n in range(len(DAY) + 1)]
    for size in range(len(whole) + 1):
        n = max(n for n, end in enumerate(ends) if end <= size)
        log.write_bytes(whole[:size])
        relay = Relay(log)
        try:
            equal((relay.table(), log.read_bytes()), (tables[n], whole[:ends[n]]))
            relay.ask(*UP, *DAY[n:])
            equal((relay.table(), log.read_bytes()), (tables[-1], whole))
            note = b"note: day log: a torn record is cut off at %d\n" % ends[n] if size > ends[n] else b""
            equal(relay.end(), (0, b"", note))
        except AssertionError as error:
            raise AssertionError(f"cut at {size} of {len(whole)}: {error}") from error


def test_torn_record_through_bin_relay(folder):
    log = folder / "log"
    whole, n = recorded(DAY), len(recorded(DAY[:3]))
    log.write_bytes(whole[:n + 4])
    equal(run([b"?\n"], log, program=RELAY), (0, tables_of(DAY)[3], b"note: day log: a torn record is cut off at %d\n" % n))
    equal(log.read_bytes(), whole[:n])
    equal(run([b"?\n"], log, program=RELAY), (0, tables_of(DAY)[3], b""))


# ---- a log that can't be gone on with


def faults():
    """Logs at fault: what, the log, the number, the place and its words."""
    good = recorded(DAY[:3])
    n = len(good)
    more = recorded(DAY[3:])
    mark, link, length = "no mark where a record of the log begins", "link above 31 in a record of the log", "length over 512 in a record of the log"
    yield "another mark", b"J", 28, 0, mark
    yield "half a mark", b"IS", 28, 1, mark
    yield "no mark behind records", good + b"\n" + more, 28, n, mark
    yield "a byte too many", good + b"I" + more, 28, n + 1, mark
    yield "zeros at the end", good + bytes(100), 28, n, mark
    yield "text", b"some other file\n", 28, 0, mark
    yield "link 32", b"IR\x20", 29, 2, link
    yield "link 255 behind records", good + b"IR\xff" + more, 29, n + 2, link
    yield "length 513", b"IR\x1f\x02\x01", 30, 3, length
    yield "length 65535 behind records", good + b"IR\x00\xff\xff" + more, 30, n + 3, length
    yield "a line of nothing", good + b"IR\x00\x00\x00" + more, 5, n, "no CR LF at the end"
    yield "an unknown command", good + record(b"1 PING\r\n") + more, 11, n, "command not SJOIN, PART, QUIT or BMASK"
    yield "somebody who isn't there", good + record(b"1 :1CBAAAAAC PART #race\r\n") + more, 20, n, "user not in it"
    # the second half is a day of its own, whose PART can't be taken where it stands
    left = [DAY[0], b"1 :1CBAAAAAB PART #race\r\n"]
    yield "a day behind another", recorded(left + left[1:]), 20, len(recorded(left)), "user not in it"
    # what the older program left that appended each start's day, from an empty table, to one file: more channels than there are slots
    start = [b"1 :1CB SJOIN 70010 #mark%d + :1CBAAAAAA\r\n" % n for n in range(16)]
    second = [b"1 :1CB SJOIN 70010 #other + :1CBAAAAAA\r\n"]
    yield "two starts of the older program", recorded(start + second), 21, len(recorded(start)), "all 16 slots used"
    # and before a torn record
    yield "a fault and a torn record", good + record(b"1 PING\r\n") + more[:9], 11, n, "command not SJOIN, PART, QUIT or BMASK"


def test_logs_at_fault_are_left_alone(folder):
    log = folder / "log"
    for name, content, number, place, words in faults():
        said = f"relay: day log: refused by {number} at {place}: {words}\n".encode()
        log.write_bytes(content)
        try:
            equal(run([b"+1\n?\n"], log)[1:], (b"", said))
            equal(log.read_bytes(), content)
            equal(run([b"+1\n?\n"], log, program=RELAY), (1, b"", said))
            equal(log.read_bytes(), content)
        except AssertionError as error:
            raise AssertionError(f"{name}: {error}") from error


def test_what_is_no_log(folder):
    fifo = folder / "fifo"
    os.mkfifo(fifo)
    for name in [fifo, folder, pathlib.Path("/dev/null"), pathlib.Path("/dev/full"), pathlib.Path("/dev/zero")]:
        said = b"relay: %s: " % os.fsencode(name)
        _, out, err = run([b"+1\n?\n"], name)
        equal(out, b"")
        begins(err, said)
        status, out, err = run([b"+1\n?\n"], name, program=RELAY)
        equal((status, out), (1, b""))
        begins(err, said)


def test_log_is_spared_where_standard_files_are_closed(folder):
    """It then gets the number of one of them, and what is said or answered there mustn't stand in it."""
    log = folder / "log"
    for closed in [[0], [1], [2], [0, 1], [0, 2], [1, 2], [0, 1, 2]]:
        log.write_bytes(recorded(DAY))
        process = subprocess.Popen([CONSOLE, log], stdin=subprocess.PIPE, stdout=subprocess.PIPE, stderr=subprocess.DEVNULL,
                                   preexec_fn=lambda: [os.close(number) for number in closed])
        out, _ = process.communicate(b"+1\n" + DAY[0], timeout=PATIENCE)
        try:
            equal((out, log.read_bytes()), (b"", recorded(DAY)))
        except AssertionError as error:
            raise AssertionError(f"closed {closed}: {error}") from error


# ---- restarts


def test_no_link_is_registered_after_a_restart(folder):
    log = folder / "log"
    equal(run([b"+1\n" + DAY[0]], log)[1], b"".join(answered(b"+1\n", DAY[0])))
    relay = Relay(log)
    for link in LINKS:
        equal(relay.ask(b"%d :1CBAAAAAA QUIT\r\n" % link), [b"! 3\n"])
    equal(relay.table(), tables_of(DAY)[1])
    equal(relay.ask(b"+1\n", b"+2\n", b"1 :1CBAAAAAB QUIT\r\n"), [b"= 0\n", b"= 0\n", b"2 :1CBAAAAAB QUIT\r\n"])
    equal(relay.end(), (0, b"", b""))
    equal(log.read_bytes(), recorded([DAY[0], b"1 :1CBAAAAAB QUIT\r\n"]))


def test_answers_are_those_without_a_log(folder):
    """Of the crate's own input, first without a log, where nothing is made."""
    given = (ROOT / "crates" / "console" / "stdin").read_bytes()
    expected = (ROOT / "crates" / "console" / "stdout").read_bytes()
    log = folder / "sub" / "log"
    log.parent.mkdir()
    for words in [(), (log,)]:
        ended = subprocess.run([CONSOLE, *words], input=given, capture_output=True, timeout=PATIENCE, cwd=folder)
        equal((ended.stdout, ended.stderr), (expected, b""))
        equal([path.name for path in folder.iterdir()], ["sub"])
        equal([path.name for path in log.parent.iterdir()], ["log"] if words else [])
    table = Relay(log).table()
    equal((table, records(log.read_bytes())[1]), (table_of(log.read_bytes()), b""))


def test_signals_through_bin_relay_leave_a_log_to_go_on_with(folder):
    log = folder / "log"
    for number, sent in enumerate([signal.SIGTERM, signal.SIGHUP, signal.SIGINT]):
        relay = Relay(log, program=RELAY, preexec_fn=lambda: [signal.signal(one, signal.SIG_DFL) for one in (signal.SIGTERM, signal.SIGHUP, signal.SIGINT)])
        relay.ask(*ALL_UP)
        equal(len(accepted([DAY[number]], relay.ask(DAY[number]))), 1)
        relay.process.send_signal(sent)
        relay.process.wait(PATIENCE)
        equal(relay.end(), (-sent, b"", b""))
        equal(log.read_bytes(), recorded(DAY[:number + 1]))
    equal(run([b"?\n"], log, program=RELAY), (0, tables_of(DAY)[3], b""))


def test_reader_that_is_gone(folder):
    """What can't be answered is in the log, and the relay stops."""
    log = folder / "log"
    relay = Relay(log, program=RELAY)
    relay.ask(*UP)
    ours, theirs = os.pipe()
    os.dup2(ours, relay.output)
    os.close(ours)
    os.close(theirs)
    relay.send(b"".join(DAY[:2]))
    with contextlib.suppress(BrokenPipeError):
        relay.send(DAY[2])
    equal(relay.end(), (1, b"", b"relay: standard output: Broken pipe\n"))
    equal(log.read_bytes(), recorded(DAY[:2]))
    equal(run([b"?\n"], log, program=RELAY), (0, tables_of(DAY)[2], b""))


# ---- one at a time


def test_one_relay_at_a_time(folder):
    log = folder / "log"
    taken = (1, b"", b"relay: %s: another relay has it\n" % os.fsencode(log))
    first = Relay(log, program=RELAY)
    first.ask(*ALL_UP)
    first.ask(DAY[0])
    equal(run([b"+1\n" + DAY[1]], log, program=RELAY), taken)
    equal(log.read_bytes(), recorded(DAY[:1]))
    # bin/relay is gone, and the program isn't
    first.process.kill()
    first.process.wait()
    equal(accepted(DAY[1:2], first.ask(DAY[1])), DAY[1:2])
    equal(run([b"+1\n" + DAY[1]], log, program=RELAY), taken)
    equal(log.read_bytes(), recorded(DAY[:2]))
    first.end()
    wait_for(lambda: run([b"?\n"], log, program=RELAY) != taken)
    equal(run([b"?\n"], log, program=RELAY), (0, tables_of(DAY)[2], b""))


# ---- calls, by examples/calls.c

START = ["folder sync = 0", "log sync = 0"]

# What is answered without a record: refused lines, and what is no request.
IDLE = [b"1 :1CBAAAAAC PART #race\r\n", b"hello\n", b"1 PING\r\n", b"\n", b"1 :1CBAAAAAA QUIT\n"]


class Noted:
    """A relay's calls, those of its start apart, what it answered and said, and the log that it left. Each message is a read."""

    def __init__(self, folder, messages, *rules, word=None, **options):
        if SHIM is None:
            raise LeftOut("needs cc, which builds examples/calls.c")
        self.log = folder / "log"
        notes = folder / "notes"
        notes.unlink(missing_ok=True)
        environment = {"LD_PRELOAD": str(SHIM), "CALLS_LOG": str(self.log), "CALLS_NOTES": str(notes), "CALLS_RULES": f",{','.join(rules)},"}
        self.status, self.out, self.err = run(messages, word or self.log, env=os.environ | environment, **options)
        self.notes = notes.read_text().splitlines()
        self.start, self.calls = self.notes[:2], self.notes[2:]

    def calls_behind(self, answers):
        """The calls behind those that write the first answers, however these are written."""
        n, left = 0, len(b"".join(answers))
        while left > 0:
            call, answer = self.calls[n].split(" = ")
            begins(call, "out write ")
            left -= int(answer)
            n += 1
        equal(left, 0)
        return self.calls[n:]


def wrote(*parts):
    """The call that writes an answer, or some, in one go."""
    n = len(b"".join(parts))
    return f"out write {n} = {n}"


def kept(requests):
    """The calls that keep a group."""
    n = len(recorded(requests))
    return [f"log write {n} = {n}", "log sync = 0"]


def test_group_is_written_synced_and_answered_once(folder):
    group = [DAY[0], *IDLE, DAY[1], IDLE[0], DAY[3], *IDLE]
    answers = answered(b"+0\n", b"+1\n", b"+2\n", *group, DAY[4], DAY[6])
    noted = Noted(folder, [b"+0\n+1\n+2\n", b"".join(group), DAY[4] + DAY[6]])
    expected = [*kept([DAY[0], DAY[1], DAY[3]]), wrote(*answers[3:-2]), *kept([DAY[4], DAY[6]]), wrote(*answers[-2:])]
    equal((sorted(noted.start), noted.calls_behind(answers[:3])), (START, expected))
    equal((noted.out, noted.err, noted.log.read_bytes()), (b"".join(answers), b"", recorded([DAY[0], DAY[1], DAY[3], DAY[4], DAY[6]])))


def test_other_requests_close_a_group(folder):
    for request in [b"?\n", b"?\r\n", b"banned #race sam!deck@rowdy.boat\n", b"banned #none sam\n", b"+3\n", b"+1\n", b"+99\n", b"-1\n", b"-3\n", b"-99\n"]:
        with tempfile.TemporaryDirectory() as name:
            first, second = [DAY[0], IDLE[0], DAY[3]], [IDLE[1], DAY[1]]
            asked = [b"+0\n", b"+1\n", b"+2\n", *first, request.replace(b"?\r\n", b"?\n"), *second]
            answers = answered(*asked)
            noted = Noted(pathlib.Path(name).resolve(), [b"+0\n+1\n+2\n", b"".join([*first, request, *second])])
            try:
                calls = noted.calls_behind(answers[:3])
                equal(calls[:3], [*kept([DAY[0], DAY[3]]), wrote(*answers[3:6])])
                noted.calls = calls[3:]
                equal(noted.calls_behind(answers[6:7]), [*kept(DAY[1:2]), wrote(*answers[7:])])
                equal((noted.out, noted.err), (b"".join(answers), b""))
            except AssertionError as error:
                raise AssertionError(f"{request!r}: {error}") from error


def test_refused_lines_alone_are_no_group(folder):
    noted = Noted(folder, [b"+1\n", b"".join(IDLE), b"hello\n"])
    answers = answered(b"+1\n", *IDLE, b"hello\n")
    equal(noted.calls_behind(answers[:1]), [wrote(*answers[1:-1]), wrote(answers[-1])])
    equal((noted.out, noted.err, noted.log.read_bytes()), (b"".join(answers), b"", b""))


def failing(folder, rules, calls, said, left, program=CONSOLE):
    """Two groups, of which the second fails by rules: its calls, what is said, and what is left of the log. Whatever comes behind it isn't answered either."""
    messages = [b"".join(UP), b"".join(DAY[:2]), b"".join([DAY[2], IDLE[0], *DAY[3:], b"?\n", b"+5\n", DAY[0], b"hello\n"]), DAY[1]]
    noted = Noted(folder, messages, *rules, program=program)
    answers = answered(*UP, *DAY[:2])
    if program == CONSOLE:
        equal(noted.calls_behind(answers[:len(UP)]), [*kept(DAY[:2]), wrote(*answers[len(UP):]), *calls])
    else:
        equal(noted.status, 1)
    equal((noted.out, noted.err, noted.log.read_bytes()), (b"".join(answers), said, left))
    return noted


def failures():
    """Rules by which the second group fails, and what is to come of it."""
    before, size = len(recorded(DAY[:2])), len(recorded(DAY[2:]))
    half = size // 2
    left = recorded(DAY)
    disk, full = b"relay: day log: Input/output error\n", b"relay: day log: No space left on device\n"
    uncut = b"relay: day log, cutting it back: Input/output error\n"
    written, part = [f"log write {size} = {size}", "log sync = -1"], [f"log write {size} = {half}", f"log write {size - half} = -1"]
    cut = [f"log cut {before} = 0", "log sync = 0"]
    partly = ["log write 2 half", "log write 3 fails"]
    equal(records(left[:before + half])[1] != b"", True)
    yield "a sync", ["log sync 3 fails"], [*written, *cut], disk, left[:before]
    yield "a write", ["log write 2 fails"], [f"log write {size} = -1", *cut], full, left[:before]
    yield "half a write", partly, [*part, *cut], full, left[:before]
    yield "half a write, and the cut", [*partly, "log cut 1 fails"], [*part, f"log cut {before} = -1"], full + uncut, left[:before + half]
    yield "a sync, and the cut's", ["log sync 3 fails", "log sync 4 fails"], [*written, cut[0], "log sync = -1"], disk + uncut, left[:before]


def test_failed_group_is_cut_off_and_not_answered(folder):
    for number, (name, rules, calls, said, left) in enumerate(failures()):
        for program in [CONSOLE, RELAY]:
            place = folder / f"{number}{program.name}"
            place.mkdir()
            try:
                noted = failing(place, rules, calls, said, left, program)
                # the next start goes on, and cuts off what is torn
                found, torn = records(left)
                note = b"note: day log: a torn record is cut off at %d\n" % (len(left) - len(torn)) if torn else b""
                rest = DAY[len(found):]
                expected = b"".join([tables_of(DAY)[len(found)], b"= 0\n" * len(UP), *answered(*UP, *DAY)[len(UP) + len(found):]])
                equal(run([b"?\n", b"".join(UP), b"".join(rest)], noted.log), (0, expected, note))
                equal(noted.log.read_bytes(), recorded(DAY))
            except AssertionError as error:
                raise AssertionError(f"{name} fails, {program.name}: {error}") from error


def test_write_that_takes_a_part_is_gone_on_with(folder):
    size = len(recorded(DAY))
    answers = answered(*UP, *DAY)
    n = len(b"".join(answers[len(UP):]))
    before = Noted(folder, [b"".join(UP)]).calls
    noted = Noted(folder, [b"".join(UP), b"".join(DAY)], "log write 1 half", f"out write {len(before) + 1} half")
    expected = [f"log write {size} = {size // 2}", f"log write {size - size // 2} = {size - size // 2}", "log sync = 0"]
    equal(noted.calls_behind(answers[:len(UP)]), [*expected, f"out write {n} = {n // 2}", f"out write {n - n // 2} = {n - n // 2}"])
    equal((noted.out, noted.err, noted.log.read_bytes()), (b"".join(answers), b"", recorded(DAY)))


def quits(size, to):
    """Lines of so many bytes in all, as many as there can be, and the answers: all of the least length but the last."""
    least = b"1 :1CBAAAAAA QUIT\r\n"
    n = size // len(least) - 1
    text = b"x" * (size - (n + 1) * len(least) - 2)
    return [(least, to + b" :1CBAAAAAA QUIT\r\n")] * n + [(b"1 :1CBAAAAAA QUIT :%s\r\n" % text, to + b" :1CBAAAAAA QUIT %s\r\n" % text)]


def full_reads(to):
    """Requests with their answers, and how many bytes of them come in a read before; the others make a read that is full."""
    long = b"y" * 491
    long_quit = b"1 :1CBAAAAAB QUIT :a %s\r\n" % long, to + b" :1CBAAAAAB QUIT :a %s\r\n" % long
    empty = b"\n", b"! input\n"
    yield quits(READ, to), 0
    yield [long_quit, *quits(READ - 2, to)], 512
    yield [empty] * READ, 0
    yield [(b"1 " + b"z" * 598 + b"\n", b"! 4\n"), *[empty] * (READ - 1)], 600


def test_read_that_is_full_is_one_group(folder):
    """As many lines as a read can have, with nowhere or everywhere to go to, and as many empty ones; behind nothing, or behind a long line under way."""
    for number, up in enumerate([[1], LINKS]):
        to = b",".join(b"%d" % link for link in up if link != 1) or b"-"
        for case, (told, before) in enumerate(full_reads(to)):
            given = b"".join(request for request, _ in told)
            equal(len(given), before + READ)
            place = folder / f"{number}{case}"
            place.mkdir()
            messages = [b"".join(ALL_UP[link] for link in up), given[:before], given[before:]]
            noted = Noted(place, [message for message in messages if message])
            lines = accepted(*zip(*told))
            answers = b"".join(answer for _, answer in told)
            try:
                equal((noted.out == b"= 0\n" * len(up) + answers, noted.err, noted.log.read_bytes() == recorded(lines)), (True, b"", True))
                equal(noted.calls_behind([b"= 0\n"] * len(up)), (kept(lines) if lines else []) + [wrote(answers)])
            except AssertionError as error:
                raise AssertionError(f"{len(up)} links, case {case}: {error}") from error


def test_start_syncs_the_file_and_its_folder(folder):
    """Before the first answer, whether the file is new or not, and by whatever name it is called. Where that fails, there is no answer."""
    log = folder / "log"
    for word, options in [(log, {}), ("log", {"cwd": folder}), ("./log", {"cwd": folder})]:
        log.unlink(missing_ok=True)
        for _ in ["new", "not new"]:
            noted = Noted(folder, [b"?\n"], word=word, **options)
            equal((sorted(noted.start), noted.calls[0][:9], noted.out), (START, "out write", b".\n"))
    for rule, named in [("log sync 1 fails", folder / "log"), ("folder sync 1 fails", f"{folder}/")]:
        for content in [None, recorded(DAY), recorded(DAY)[:-1]]:
            log.unlink(missing_ok=True)
            if content is not None:
                log.write_bytes(content)
            noted = Noted(folder, [b"?\n"], rule)
            equal((noted.out, noted.err), (b"", b"relay: %s: Input/output error\n" % os.fsencode(named)))
            equal(log.read_bytes(), content or b"")


def test_start_that_cannot_read_or_cut_stops(folder):
    log = folder / "log"
    whole, last = recorded(DAY)[:-1], len(recorded(DAY[:-1]))
    said = b"relay: day log: Input/output error\n"
    log.write_bytes(whole)
    noted = Noted(folder, [b"?\n"])
    equal((sorted(noted.start), noted.calls[:2]), (START, [f"log cut {last} = 0", "log sync = 0"]))
    for rule, left in [("log read 1 fails", whole), ("log read 2 fails", whole), ("log cut 1 fails", whole), ("log sync 2 fails", whole[:last])]:
        log.write_bytes(whole)
        noted = Noted(folder, [b"?\n"], rule)
        try:
            equal((noted.out, noted.err, log.read_bytes()), (b"", said, left))
        except AssertionError as error:
            raise AssertionError(f"{rule}: {error}") from error


def left_on_disk(notes, begun, content):
    """What a disk may hold after a power cut, of a log that was begun with and what it came to be: of what wasn't synced, nothing, some or all."""
    synced = written = len(begun)
    states = {content}
    for note in notes:
        call, answer = note.split(" = ")
        if call.startswith("log write"):
            written += int(answer)
        elif call.startswith("log cut"):
            written = int(call.split()[-1])
            states.add(begun)
        elif call == "log sync":
            synced = written
            states = {content}
    return sorted(states | {content[:synced], content[:(synced + len(content)) // 2]})


def power_cuts(folder, first):
    """The day from a line on, before which the log has the others, and that line torn unless it is the first. The power goes at each call of the relay."""
    groups = [DAY[first:2], DAY[2:4], DAY[4:5], DAY[5:6], DAY[6:8], DAY[8:9]]
    messages = [UP, groups[0], [IDLE[0], DAY[2], IDLE[1], DAY[3], b"?\n", DAY[4]], IDLE[:2], [DAY[5]], [DAY[6], DAY[7], b"-1\n", b"+1\n", DAY[8]]]
    requests, sent = sum(messages, []), [b"".join(message) for message in messages if message]
    ends = [first + sum(map(len, groups[:n])) for n in range(len(groups) + 1)]
    begun = recorded(DAY[:first]) + record(DAY[first])[:9 if first else 0]
    tables = tables_of(DAY)
    log = folder / "log"
    log.write_bytes(begun)
    calls = len(Noted(folder, sent).notes)
    equal(log.read_bytes(), recorded(DAY))
    for number in range(1, calls + 1):
        log.write_bytes(begun)
        noted = Noted(folder, sent, f"note {number} killed")
        equal((noted.status, len(noted.notes)), (-signal.SIGKILL, number - 1))
        if "folder sync = 0" not in noted.notes:
            equal(noted.out, b"")
        told = first + len(accepted(requests, split(requests, noted.out)[0]))
        for left in left_on_disk(noted.notes, begun, log.read_bytes()):
            try:
                log.write_bytes(left)
                found = len(records(left)[0])
                if not told <= found <= min([end for end in ends if end > told], default=len(DAY)):
                    raise AssertionError(f"{told} lines were answered, and {found} are in the log")
                relay = Relay(log)
                equal(relay.table(), tables[found])
                relay.ask(*UP, *DAY[found:])
                equal((relay.table(), log.read_bytes()), (tables[-1], recorded(DAY)))
                relay.end()
            except AssertionError as error:
                raise AssertionError(f"at call {number} of {calls}, with {len(left)} bytes: {error}") from error


def test_power_cut_at_every_call(folder):
    """An empty file, whose name isn't on the disk before its folder is synced, and one with a torn record."""
    power_cuts(folder, 0)
    power_cuts(folder, 2)


# ---- all of them


def drop_all():
    while STARTED:
        STARTED.pop().drop()


def build_shim(folder):
    """The library that calls.c becomes, or nothing where there is no compiler."""
    compiler = shutil.which(os.environ.get("CC", "cc"))
    if compiler is None:
        return None
    library = folder / "calls.so"
    subprocess.run([compiler, "-std=c99", "-pedantic", "-Wall", "-Wextra", "-Werror", "-O2", "-shared", "-fPIC", CALLS, "-o", library], check=True)
    return library


def attempt(name, test):
    """Whether a test passed, failed, or was left out, which is said."""
    with tempfile.TemporaryDirectory() as folder:
        try:
            test(pathlib.Path(folder).resolve())
            return "passed"
        except LeftOut as error:
            print(f"examples/daylog.py: {name}: left out: {error}")
            return "left out"
        except (AssertionError, OSError, ValueError, IndexError, subprocess.SubprocessError) as error:
            print(f"examples/daylog.py: {name}: {str(error)[:2000]}")
            return "failed"
        finally:
            drop_all()


def main():
    global SHIM
    if sys.argv[1:2] == ["--disk"]:
        fill_a_disk(pathlib.Path(sys.argv[2]))
        return 0
    subprocess.run([RELAY], stdin=subprocess.DEVNULL, check=True)
    with tempfile.TemporaryDirectory() as folder:
        SHIM = build_shim(pathlib.Path(folder).resolve())
        tests = [(name, test) for name, test in globals().items() if name.startswith("test_") and (not sys.argv[1:] or name in sys.argv[1:])]
        ended = [attempt(name, test) for name, test in tests]
    print(f"{ended.count('passed')} passed, {ended.count('failed')} failed")
    return "failed" in ended


if __name__ == "__main__":
    sys.exit(main())
