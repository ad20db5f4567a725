#!/usr/bin/env python3
"""Tests of bin/relay and bin/replay alone: when they build, what they say, how they end.

Each test has a small tree of its own, with a stand-in for `rt` that writes down
how it is called and a stand-in for the program, so nothing is proved here and
nothing of this repository is touched. Says which test fails; the last line is
'N passed, M failed', the status 1 if one did.
"""
import contextlib
import os
import pathlib
import pty
import shutil
import signal
import subprocess
import sys
import tempfile
import time

HERE = pathlib.Path(__file__).resolve().parent

# Writes down its call, and an overlap with another one; proves nothing. A program is left alone where it is there already, as by rt where nothing has changed.
RT = """#!/bin/sh
echo "$*" >>"$TREE/calls"
mkdir "$TREE/busy" 2>/dev/null || echo overlap >>"$TREE/calls"
echo $$ >>"$TREE/provers"
sleep "${PROVING-0}" &
echo $! >>"$TREE/provers"
wait
rmdir "$TREE/busy"
if [ "$2" = "${UNPROVED-}" ]; then
    echo "a fact can't be shown"
    echo "logic=not-proved"
    exit 1
fi
echo "fn $2::main: proved"
echo "logic=proved functions=3 axioms=0"
[ "$1" != run ] || echo "rt: running out/$2"
mkdir -p out
case $1 in
run) [ -f "out/$2" ] || cp "$TREE/program" "out/$2" ;;
esac
"""

# Answers its input with its arguments before it; says what SAYS says.
PROGRAM = """#!/bin/sh
echo "$*"
cat
[ -z "${SAYS-}" ] || echo "$SAYS" >&2
"""

# Says its number, and goes on until its input ends.
HOLDS = """#!/bin/sh
echo $$
exec cat
"""

# As before, and leaves behind what has its standard error, and none of its other files.
LEAVES = """#!/usr/bin/env python3
import os, subprocess, sys
left = subprocess.Popen(["sleep", "60"], stdin=subprocess.DEVNULL, stdout=subprocess.DEVNULL)
print(os.getpid(), flush=True)
print(left.pid, flush=True)
sys.stdin.read()
"""

# Prints the set of signals that it ignores.
IGNORES = """#!/bin/sh
while read -r name set; do
    [ "$name" != SigIgn: ] || echo "$set"
done </proc/self/status
"""

WAITS = """#!/bin/sh
trap 'echo ended by TERM; exit 0' TERM
trap 'echo ended by HUP; exit 0' HUP
echo started
while :; do sleep 0.05; done
"""


class Tree:
    """A repository of four crates, of which either program needs two."""

    def __init__(self, folder):
        self.folder = folder
        folder.chmod(0o755)
        for name in ["laws", "console", "day", "other"]:
            for part in ["src", "specs", "proofs"]:
                (folder / "crates" / name / part).mkdir(parents=True)
                (folder / "crates" / name / part / "file").write_text("x")
        (folder / "crates.txt").write_text("laws:\nother: laws\nconsole: laws io\nday: laws io\n")
        (folder / "VERSION").write_text("1.2.3\n")
        (folder / "bin").mkdir()
        for name in ["relay", "replay", "program.sh"]:
            shutil.copy(HERE.parent / "bin" / name, folder / "bin" / name)
        (folder / "tools").mkdir()
        self.script("tools/rt", RT)
        self.script("program", PROGRAM)
        self.log = folder / "day.log"
        self.log.write_text("a day\n")

    def script(self, name, text):
        path = self.folder / name
        path.write_text(text)
        path.chmod(0o755)

    def built(self, program=PROGRAM):
        for name in ["console", "day"]:
            (self.folder / "crates" / name / "out").mkdir(exist_ok=True)
            self.script(f"crates/{name}/out/{name}", program)
        return self

    def few_tools(self):
        """A folder with what bin/relay needs to build and to run, but for rt."""
        tools = self.folder / "few"
        tools.mkdir()
        for name in ["bash", "sh", "env", "dirname", "readlink", "awk", "find", "cat", "grep", "sed", "mkdir", "touch", "flock", "setsid"]:
            (tools / name).symlink_to(shutil.which(name))
        return tools

    def environment(self, **more):
        path = f"{self.folder}/tools:{os.environ['PATH']}"
        return os.environ | {"PATH": path, "TREE": str(self.folder)} | more

    def start(self, *words, **options):
        more = options.pop("more", {})
        name = options.pop("name", "relay")
        options = {"stdin": subprocess.DEVNULL, "stdout": subprocess.PIPE, "stderr": subprocess.PIPE} | options
        return subprocess.Popen([self.folder / "bin" / name, *words], env=self.environment(**more), text=True, cwd="/", **options)

    def run(self, *words, **options):
        """Status, standard output and standard error."""
        given = options.pop("input", None)
        if given is not None:
            options["stdin"] = subprocess.PIPE
        started = self.start(*words, **options)
        out, err = started.communicate(given, timeout=60)
        return started.returncode, out, err

    def calls(self):
        with contextlib.suppress(FileNotFoundError):
            return (self.folder / "calls").read_text().splitlines()
        return []

    def seen(self):
        """All that is in the tree, with its times."""
        return sorted((str(path), path.lstat().st_mtime_ns, path.lstat().st_size) for path in self.folder.rglob("*"))

    def touch(self, name):
        later = time.time() + 5
        os.utime(self.folder / name, (later, later))


def equal(got, expected):
    if got != expected:
        raise AssertionError(f"{got!r}, expected {expected!r}")


def holds(text, part):
    if part not in text:
        raise AssertionError(f"{text!r} doesn't have {part!r}")


def wait_for(test):
    for _ in range(400):
        if test():
            return
        time.sleep(0.05)
    raise AssertionError("waited in vain")


def is_running(number):
    with contextlib.suppress(FileNotFoundError):
        return pathlib.Path(f"/proc/{number}/stat").read_text().rsplit(")", 1)[1].split()[0] != "Z"
    return False


# ---- when it builds


def test_built_program_runs_and_nothing_is_touched(tree):
    tree.built()
    before = tree.seen()
    equal(tree.run(tree.log, input="a\n"), (0, f"{tree.log}\na\n", ""))
    equal(tree.calls(), [])
    equal(tree.seen(), before)


def test_built_program_runs_for_a_user_without_write_access(tree):
    tree.built()
    user = {"user": 65534, "group": 65534, "extra_groups": []} if os.getuid() == 0 else {}
    for path in [tree.folder, *tree.folder.rglob("*")]:
        path.chmod(path.stat().st_mode & ~0o222)
    try:
        equal(tree.run(input="a\n", **user), (0, "\na\n", ""))
    finally:
        for path in [tree.folder, *tree.folder.rglob("*")]:
            path.chmod(path.stat().st_mode | 0o200)


def test_what_the_program_needs_is_built_in_order_and_told(tree):
    status, out, err = tree.run(tree.log, input="a\n")
    equal((status, out), (0, f"{tree.log}\na\n"))
    equal(tree.calls(), ["check laws", "run console"])
    lines = err.splitlines()
    equal([line[:6] for line in lines if not line.startswith("rt: ")], ["note: "] * 3)
    holds(lines[0], "minutes")
    equal(lines[1:3], ["note: laws, crate 1 of 2", "rt: laws logic=proved functions=3"])
    equal(lines[3:], ["note: console, crate 2 of 2", "rt: console logic=proved functions=3"])


def test_newer_source_is_built_once(tree):
    for name in ["crates/laws/proofs/file", "crates/console/specs/file", "crates.txt"]:
        tree.built()
        os.utime(tree.folder / "crates/console/out/console", (1, 1))
        for path in [*(tree.folder / "crates").rglob("*"), tree.folder / "crates.txt"]:
            os.utime(path, (0, 0))
        equal(tree.run()[0], 0)
        equal(tree.calls(), [])
        os.utime(tree.folder / name, (2, 2))
        equal(tree.run()[0], 0)
        equal(tree.calls(), ["check laws", "run console"])
        equal(tree.run()[0], 0)
        equal(tree.calls(), ["check laws", "run console"])
        (tree.folder / "calls").unlink()


def test_source_that_is_gone_is_noticed(tree):
    tree.built()
    os.utime(tree.folder / "crates/console/out/console", (1, 1))
    for path in [*(tree.folder / "crates").rglob("*"), tree.folder / "crates.txt"]:
        os.utime(path, (0, 0))
    (tree.folder / "crates/laws/src/file").unlink()
    equal(tree.run()[0], 0)
    equal(tree.calls(), ["check laws", "run console"])


def test_other_crates_are_no_matter(tree):
    tree.built()
    tree.touch("crates/other/src/file")
    equal(tree.run()[0], 0)
    equal(tree.calls(), [])


def test_source_changed_while_it_is_built_is_newer_after(tree):
    started = tree.start(more={"PROVING": "1"})
    wait_for(tree.calls)
    (tree.folder / "crates/laws/src/file").write_text("y")
    started.communicate(timeout=60)
    equal(len(tree.calls()), 2)
    equal(tree.run()[0], 0)
    equal(len(tree.calls()), 4)


def test_two_starts_build_once(tree):
    first = tree.start(more={"PROVING": "0.5"})
    wait_for(tree.calls)
    second = tree.start(more={"PROVING": "0.5"})
    out, err = second.communicate(timeout=60)
    equal((second.returncode, out), (0, "\n"))
    equal([line[:6] for line in err.splitlines()], ["note: "])
    holds(err, "waiting")
    equal(first.wait(), 0)
    equal(tree.calls(), ["check laws", "run console"])
    first.communicate()


def test_unproved_crate_is_told_in_full(tree):
    status, out, err = tree.run(more={"UNPROVED": "laws"})
    equal((status, out), (1, ""))
    equal(tree.calls(), ["check laws"])
    holds(err, "a fact can't be shown\nlogic=not-proved")
    holds(err, "\nrelay: ")


def test_without_rt_it_says_so_first(tree):
    tools = tree.few_tools()
    before = tree.seen()
    status, out, err = tree.run(more={"PATH": str(tools)})
    equal((status, out), (127, ""))
    equal(err.splitlines()[0][:20], "relay: rt is missing")
    holds(err, "README.md")
    equal(tree.seen(), before)
    tree.built()
    equal(tree.run(more={"PATH": str(tools)}), (0, "\n", ""))


def test_unwritable_tree_is_told(tree):
    if os.getuid() != 0:
        return
    status, out, err = tree.run(user=65534, group=65534, extra_groups=[])
    equal((status, out, tree.calls()), (1, "", []))
    holds(err, "relay: ")


def test_signals_end_the_provers(tree):
    for sent, group in [(signal.SIGTERM, False), (signal.SIGHUP, False), (signal.SIGINT, False), (signal.SIGINT, True)]:
        started = tree.start(more={"PROVING": "60"}, start_new_session=True, preexec_fn=restored)
        wait_for(lambda: (tree.folder / "provers").exists() and len((tree.folder / "provers").read_text().split()) == 2)
        if group:
            os.killpg(started.pid, sent)
        else:
            started.send_signal(sent)
        started.communicate(timeout=20)
        equal(started.returncode, -sent)
        for number in (tree.folder / "provers").read_text().split():
            wait_for(lambda: not is_running(number))
        (tree.folder / "provers").unlink()
        (tree.folder / "busy").rmdir()
    # the next start isn't kept waiting
    equal(tree.run()[0], 0)


# ---- how it is used, how it ends


def test_help_and_version(tree):
    tree.built()
    for word in ["-h", "--help"]:
        status, out, err = tree.run(word)
        equal((status, out[:13], err), (0, "usage: relay ", ""))
    for word in ["-V", "--version"]:
        equal(tree.run(word), (0, "relay 1.2.3\n", ""))


def test_wrong_usage_makes_nothing(tree):
    tree.built()
    before = tree.seen()
    for words in [["-x"], ["--"], ["-"], ["--helpful"], ["a", "b"], ["a", "-h"]]:
        status, out, err = tree.run(*words)
        equal((status, out), (2, ""))
        equal(err[:7], "relay: ")
    equal(tree.seen(), before)


def test_status_is_what_was_said(tree):
    tree.built()
    equal(tree.run(more={"SAYS": "relay: it broke"}), (1, "\n", "relay: it broke\n"))
    equal(tree.run(more={"SAYS": "note: all is well"}), (0, "\n", "note: all is well\n"))
    equal(tree.run(more={"SAYS": "so to say relay: no"}), (0, "\n", "so to say relay: no\n"))


def test_replay_is_started_as_the_relay_is(tree):
    tree.built()
    equal(tree.run(name="replay", input="a log"), (0, "\na log", ""))
    equal(tree.run(name="replay", more={"SAYS": "replay: it broke"}), (1, "\n", "replay: it broke\n"))
    equal(tree.run(name="replay", more={"SAYS": "relay: it broke"}), (0, "\n", "relay: it broke\n"))
    equal(tree.calls(), [])
    tree.touch("crates/day/src/file")
    equal(tree.run(name="replay")[:2], (0, "\n"))
    equal(tree.calls(), ["check laws", "run day"])


def test_replay_help_version_and_wrong_usage(tree):
    tree.built()
    for word in ["-h", "--help"]:
        status, out, err = tree.run(word, name="replay")
        equal((status, out[:14], err), (0, "usage: replay ", ""))
    for word in ["-V", "--version"]:
        equal(tree.run(word, name="replay"), (0, "replay 1.2.3\n", ""))
    before = tree.seen()
    for words in [["-x"], ["log"], ["a", "b"], [""]]:
        status, out, err = tree.run(*words, name="replay")
        equal((status, out, err[:8]), (2, "", "replay: "))
    equal(tree.seen(), before)


def test_ended_program_passes_its_status(tree):
    tree.built("#!/bin/sh\nkill -s SEGV $$\n")
    equal(tree.run()[0], 128 + signal.SIGSEGV)


def test_signals_are_passed_on(tree):
    tree.built(WAITS)
    for sent, said in [(signal.SIGTERM, "TERM"), (signal.SIGHUP, "HUP"), (signal.SIGINT, "TERM")]:
        started = tree.start(preexec_fn=restored)
        equal(started.stdout.readline(), "started\n")
        started.send_signal(sent)
        out, err = started.communicate(timeout=20)
        equal((started.returncode, out, err), (-sent, f"ended by {said}\n", ""))


def test_closed_pipes_and_file_size_limits_are_for_the_program_to_see(tree):
    tree.built(IGNORES)
    for name in ["relay", "replay"]:
        status, out, err = tree.run(name=name, preexec_fn=restored)
        equal((status, err), (0, ""))
        ignored = {number for number in signal.Signals if int(out, 16) >> number - 1 & 1}
        equal(ignored & {signal.SIGPIPE, signal.SIGXFSZ, signal.SIGTERM, signal.SIGHUP}, {signal.SIGPIPE, signal.SIGXFSZ})


def test_control_c_at_a_terminal(tree):
    tree.built(WAITS)
    child, terminal = pty.fork()
    if child == 0:
        restored()
        os.execve(tree.folder / "bin" / "relay", ["relay"], tree.environment())
    wait_for(lambda: b"started" in os.read(terminal, 100))
    os.write(terminal, b"\x03")
    _, status = os.waitpid(child, 0)
    equal(os.WIFSIGNALED(status) and os.WTERMSIG(status), signal.SIGINT)
    os.close(terminal)


# ---- one program at a time has a day log


def holding(tree, *words):
    """A start whose program runs, and the program's number."""
    started = tree.start(*words, stdin=subprocess.PIPE)
    return started, int(started.stdout.readline())


def taken(path):
    return 1, "", f"relay: {path}: another relay has it\n"


def test_day_log_is_one_programs(tree):
    tree.built(HOLDS)
    other, link = tree.folder / "other.log", tree.folder / "link.log"
    other.touch()
    link.symlink_to(tree.log)
    first, _ = holding(tree, tree.log)
    before = tree.seen()
    # a second start by either name; it hasn't run the program
    for path in [tree.log, link]:
        equal(tree.run(path, input="a\n"), taken(tree.log))
    # another log, or none
    for words in [[other], []]:
        second, _ = holding(tree, *words)
        equal(second.communicate("a\n", timeout=60), ("a\n", ""))
        equal(second.returncode, 0)
    equal((tree.seen(), tree.log.read_text()), (before, "a day\n"))
    # it is free where the first is gone
    equal((first.communicate("b\n", timeout=60), first.returncode), (("b\n", ""), 0))
    equal(tree.run(tree.log, input="a\n")[0], 0)


def test_day_log_behind_a_link_is_given_by_its_own_name(tree):
    """The program syncs the folder of the name that it is given."""
    tree.built()
    real = tree.folder / "real"
    real.mkdir()
    link, lost = tree.folder / "link.log", tree.folder / "lost.log"
    link.symlink_to("real/day.log")
    lost.symlink_to("none/day.log")
    equal(tree.run(link, input="a\n"), (0, f"{real.resolve()}/day.log\na\n", ""))
    equal(tree.run(lost, input="a\n"), (1, "", f"relay: {lost}: a link that leads nowhere\n"))


def test_without_a_day_log_there_is_no_lock(tree):
    tree.built(HOLDS)
    first, _ = holding(tree)
    second, _ = holding(tree)
    for started in [first, second]:
        equal((started.communicate("", timeout=60), started.returncode), (("", ""), 0))


def test_day_log_is_the_programs_though_bin_relay_is_killed(tree):
    tree.built(HOLDS)
    first, number = holding(tree, tree.log)
    first.kill()
    first.wait()
    equal(is_running(number), True)
    equal(tree.run(tree.log, input=""), taken(tree.log))
    # the program ends with its input
    first.communicate("", timeout=60)
    wait_for(lambda: not is_running(number))
    equal(tree.run(tree.log, input="")[0], 0)


def test_day_log_is_free_when_its_program_is_killed(tree):
    tree.built(HOLDS)
    first, number = holding(tree, tree.log)
    os.kill(number, signal.SIGKILL)
    first.communicate(timeout=60)
    equal(first.returncode, 128 + signal.SIGKILL)
    equal(tree.run(tree.log, input="")[0], 0)


def test_day_log_is_free_though_standard_error_is_read_on(tree):
    tree.built(LEAVES)
    first, number = holding(tree, tree.log)
    left = int(first.stdout.readline())
    try:
        first.kill()
        first.stdin.close()
        wait_for(lambda: not is_running(number))
        tree.built()
        equal(tree.run(tree.log, input=""), (0, f"{tree.log}\n", ""))
    finally:
        os.kill(left, signal.SIGKILL)
        first.wait()


def test_day_log_that_is_missing_is_locked_too(tree):
    tree.built(HOLDS)
    tree.log.unlink()
    first, _ = holding(tree, tree.log)
    equal(tree.run(tree.log, input=""), taken(tree.log))
    first.communicate("", timeout=60)


def test_day_log_that_cannot_be_opened_is_the_programs_to_tell(tree):
    tree.built()
    for path in [tree.folder, tree.folder / "no" / "log", tree.folder / ("x" * 300)]:
        equal(tree.run(path, more={"SAYS": "relay: no log"}), (1, f"{path}\n", "relay: no log\n"))


def test_without_flock_there_is_no_day_log(tree):
    tree.built()
    tools = tree.few_tools()
    (tools / "flock").unlink()
    before = tree.seen()
    for path in [tree.log, tree.folder / "new.log"]:
        status, out, err = tree.run(path, more={"PATH": str(tools)})
        equal((status, out, err[:24]), (127, "", "relay: flock is missing,"))
        holds(err, "README.md")
    equal(tree.seen(), before)
    for name in ["relay", "replay"]:
        equal(tree.run(name=name, more={"PATH": str(tools)}), (0, "\n", ""))


def test_replay_takes_no_lock(tree):
    tree.built(HOLDS)
    first, _ = holding(tree, tree.log)
    with open(tree.log) as log:
        status, out, err = tree.run(name="replay", stdin=log)
    equal((status, out[-7:], err), (0, "\na day\n", ""))
    first.communicate("", timeout=60)
    # nor does it keep a relay from one
    tree.script("crates/day/out/day", WAITS)
    with open(tree.log) as log:
        reading = tree.start(name="replay", stdin=log, preexec_fn=restored)
    equal(reading.stdout.readline(), "started\n")
    equal(tree.run(tree.log, input="")[0], 0)
    reading.terminate()
    reading.communicate(timeout=60)


def restored():
    """Hear every signal, as from a terminal: what a shell starts in the background, or under nohup, ignores some."""
    for sent in (signal.SIGHUP, signal.SIGINT, signal.SIGQUIT, signal.SIGTERM):
        signal.signal(sent, signal.SIG_DFL)


def main():
    wanted = sys.argv[1:]
    passed = failed = 0
    for name, test in list(globals().items()):
        if not name.startswith("test_") or (wanted and name not in wanted):
            continue
        folder = pathlib.Path(tempfile.mkdtemp())
        try:
            test(Tree(folder))
            passed += 1
        except (AssertionError, OSError, ValueError, subprocess.TimeoutExpired) as error:
            print(f"examples/start.py: {name}: {error}")
            failed += 1
        finally:
            shutil.rmtree(folder)
    print(f"{passed} passed, {failed} failed")
    return failed != 0


if __name__ == "__main__":
    sys.exit(main())
