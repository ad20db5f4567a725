//! Lines a second that the console takes, by the lines of a group: without a day log, with one in
//! memory, and with one on a disk. As a table in Markdown.
//!
//!     cargo run --release --bin groups -- FOLDER [SECONDS]
//!
//! FOLDER is on a disk; the logs are written to a folder in it, and to one in /dev/shm where that is a
//! tmpfs, both of which are removed at the end. A row takes about SECONDS (10 unless told). The program
//! is crates/console/out/console, which bin/relay builds, or the one that RELAY_CONSOLE names. It
//! isn't started by bin/relay: what that adds is done once, at the start.
//!
//! A group is written to the console in one write, and the next one when all its answers have come. So
//! it is one read of the console's, and has one write to the log and one sync. Every answer is compared,
//! and at the end of a row each log with the records of all lines that were sent.
//!
//! The logs and the sync take turns of 50 ms. A figure is the median of the turns, and not the best as
//! in `bench`: a disk's own time varies, and its best turn is luck. All stay on one processor. Only one
//! ever works at a time, and handing a line over to another processor can take several times as long as
//! the line: whether it does is the kernel's choice, which changes within a turn.
//!
//! The share of the sync is the time of the sync calls of a group, by the time that the console takes
//! for a group with its log on the disk. The calls are timed here, beside the console and not in it:
//! the same records are appended to a file in the same folder, with one write and one sync a group. A
//! share is that of a turn of the console and the turn of the sync next to it. It leaves out the write
//! before the sync, and whatever makes the console slower after it has slept. And the syncs here follow
//! one another at once, while the console takes lines between its own, when a disk may finish something
//! or fall asleep. So it is an estimate, and the rest is not what the lines alone take: the column
//! without a log says that.

use std::ffi::c_int;
use std::fs::{self, File};
use std::io::{self, Read, Write};
use std::path::{Path, PathBuf};
use std::process::{Child, ChildStdin, ChildStdout, Command, ExitCode, Stdio};
use std::time::{Duration, Instant};
use std::{env, mem, process};

use model::journal::{self, HEAD};
use model::line::LINE;

/// The lines of a group, by row.
const SIZES: [usize; 3] = [1, 10, 100];

/// The bytes that the console reads at once. A pipe takes as many in one piece.
const PIECE: usize = 4096;

/// The link that every line comes by.
const LINK: u32 = 1;

/// The users that the lines name, one after another. A channel has room for them.
const USERS: usize = 50;

/// How long one has its turn: many groups, and short beside what else the machine does.
const TURN: Duration = Duration::from_millis(50);

/// The turns of each in a second, where four take turns.
const TURNS: usize = 5;

/// Where a tmpfs is looked for.
const MEMORY: &str = "/dev/shm";

/// What comes out, or why nothing does.
type Outcome<T> = Result<T, String>;

fn main() -> ExitCode {
    let args: Vec<String> = env::args().skip(1).collect();
    let (folder, seconds) = match args.as_slice() {
        [folder] => (folder, Some(10)),
        [folder, seconds] => (folder, seconds.parse().ok().filter(|&seconds| seconds > 0)),
        _ => return usage(),
    };
    let Some(seconds) = seconds else { return usage() };
    match table(Path::new(folder), TURNS * seconds) {
        Ok(()) => ExitCode::SUCCESS,
        Err(error) => {
            eprintln!("groups: {error}");
            ExitCode::FAILURE
        }
    }
}

fn usage() -> ExitCode {
    eprintln!("usage: groups FOLDER [SECONDS]");
    ExitCode::from(2)
}

/// Prints the table.
fn table(folder: &Path, turns: usize) -> Outcome<()> {
    let kind = file_system(folder).unwrap_or_else(|| "unknown".to_string());
    if kind == "tmpfs" {
        return Err(format!("{}: in memory, where a sync does nothing", folder.display()));
    }
    stay_on_one_processor()?;
    let has_memory = file_system(Path::new(MEMORY)).as_deref() == Some("tmpfs");
    let memory = has_memory.then(|| Room::new(Path::new(MEMORY))).transpose()?;
    let disk = Room::new(folder)?;
    let day = Day::new();
    println!(
        "| Lines a group | no log, lines/s | log in memory, lines/s | log on disk ({kind}), lines/s \
         | on disk, ms a group | share of the sync |"
    );
    println!("|---|---|---|---|---|---|");
    for size in SIZES {
        println!("| {size} | {} |", row(&day, size, turns, memory.as_ref(), &disk)?);
    }
    println!("\n(Medians of {turns} turns of {} ms.)", TURN.as_millis());
    Ok(())
}

/// Times groups of a size, and answers the columns of their row.
fn row(
    day: &Day,
    size: usize,
    turns: usize,
    memory: Option<&Room>,
    disk: &Room,
) -> Outcome<String> {
    let mut without = Console::start(None)?;
    let mut in_memory = memory.map(|room| Console::start(Some(room.file("log")))).transpose()?;
    let mut on_disk = Console::start(Some(disk.file("log")))?;
    let mut syncs = Syncs::new(disk.file("synced"))?;
    for _ in 0..turns {
        without.have_turn(day, size)?;
        if let Some(console) = &mut in_memory {
            console.have_turn(day, size)?;
        }
        on_disk.have_turn(day, size)?;
        syncs.have_turn(day, size)?;
    }
    let shares = syncs.times.iter().zip(&on_disk.times).map(|(sync, group)| sync / group);
    let share = 100.0 * median(shares);
    let speed = |time: f64| with_commas(size as f64 / time);
    let without = speed(without.end(day)?);
    let in_memory = in_memory.map(|console| console.end(day)).transpose()?;
    let in_memory = in_memory.map_or("–".to_string(), speed);
    let on_disk = on_disk.end(day)?;
    syncs.end()?;
    let (milliseconds, on_disk) = (on_disk * 1e3, speed(on_disk));
    Ok(format!("{without} | {in_memory} | {on_disk} | {milliseconds:.3} | {share:.0} %"))
}

/// The one in the middle.
fn median(times: impl Iterator<Item = f64>) -> f64 {
    let mut times: Vec<f64> = times.collect();
    times.sort_by(f64::total_cmp);
    times[times.len() / 2]
}

/// A whole number with a comma before each three digits, as docs/PERFORMANCE.md has them.
fn with_commas(number: f64) -> String {
    let digits = format!("{number:.0}");
    let mut text = String::new();
    for (place, digit) in digits.char_indices() {
        if place > 0 && (digits.len() - place) % 3 == 0 {
            text.push(',');
        }
        text.push(digit);
    }
    text
}

/// The type of the file system that a folder is in: that of the longest mount point in its path.
fn file_system(folder: &Path) -> Option<String> {
    let folder = folder.canonicalize().ok()?;
    let mounts = fs::read_to_string("/proc/mounts").ok()?;
    let point_and_kind = |mount: &'_ str| {
        let mut words = mount.split(' ').skip(1).map(str::to_string);
        words.next().zip(words.next())
    };
    let around = mounts.lines().filter_map(point_and_kind);
    let around = around.filter(|(point, _)| folder.starts_with(point));
    around.max_by_key(|(point, _)| point.len()).map(|(_, kind)| kind)
}

extern "C" {
    /// C's own: the processor that the caller runs on, or -1.
    fn sched_getcpu() -> c_int;

    /// C's own: keeps a thread, 0 being the caller's, on the processors whose bits are set.
    fn sched_setaffinity(thread: c_int, size: usize, set: *const u64) -> c_int;
}

/// Keeps this program, and the consoles that it starts, on the processor that it runs on.
fn stay_on_one_processor() -> Outcome<()> {
    let mut set = [0u64; 16];
    // SAFETY: it takes nothing and changes nothing.
    let processor = usize::try_from(unsafe { sched_getcpu() }).unwrap_or(usize::MAX);
    let Some(bits) = set.get_mut(processor / 64) else {
        return Err("the processor isn't told".to_string());
    };
    *bits = 1 << (processor % 64);
    // SAFETY: so many bytes can be read there.
    match unsafe { sched_setaffinity(0, mem::size_of_val(&set), set.as_ptr()) } {
        0 => Ok(()),
        _ => about("staying on one processor", Err(io::Error::last_os_error())),
    }
}

/// Says what an error is about.
fn about<T>(what: impl std::fmt::Display, result: io::Result<T>) -> Outcome<T> {
    result.map_err(|error| format!("{what}: {error}"))
}

/// A folder for logs, which goes with what is in it.
struct Room {
    path: PathBuf,
}

impl Room {
    /// A new one. Where there is one of its name already, it isn't ours to write to.
    fn new(folder: &Path) -> Outcome<Room> {
        let path = folder.join(format!("groups-{}", process::id()));
        about(path.display(), fs::create_dir(&path))?;
        Ok(Room { path })
    }

    fn file(&self, name: &str) -> PathBuf {
        self.path.join(name)
    }
}

impl Drop for Room {
    fn drop(&mut self) {
        if let Err(error) = fs::remove_dir_all(&self.path) {
            eprintln!("groups: {} is left: {error}", self.path.display());
        }
    }
}

/// What is sent and what must come of it, line by line. The lines name each user in turn, so that one
/// that is lost, or comes twice, shows.
struct Day {
    inputs: Tape,
    answers: Tape,
    records: Tape,
}

impl Day {
    fn new() -> Day {
        let line = |user: usize| format!(":1CB SJOIN 5 #a + 1CBAAAA{user:02}\r\n").into_bytes();
        Day {
            inputs: Tape::new(|user| [format!("{LINK} ").as_bytes(), &line(user)].concat()),
            // No other link is registered, and the line goes out as it came.
            answers: Tape::new(|user| [b"- ", line(user).as_slice()].concat()),
            records: Tape::new(|user| record(&line(user))),
        }
    }
}

/// The record of a line, by the model.
fn record(line: &[u8]) -> Vec<u8> {
    let mut room = [0; HEAD + LINE];
    let size = journal::write_record(LINK, line, &mut room).expect("such a line is logged");
    room[..size].to_vec()
}

/// Texts of one length, one for each user, and again from the first user on: as often as the largest
/// group asks for, wherever it begins.
struct Tape {
    bytes: Vec<u8>,
    each: usize,
}

impl Tape {
    fn new(text: impl Fn(usize) -> Vec<u8>) -> Tape {
        let most = SIZES[SIZES.len() - 1];
        let texts: Vec<Vec<u8>> = (0..USERS + most).map(|place| text(place % USERS)).collect();
        let each = texts[0].len();
        assert!(texts.iter().all(|text| text.len() == each), "texts of more than one length");
        assert!(most * each <= PIECE, "more than is read at once");
        Tape { bytes: texts.concat(), each }
    }

    /// The texts of so many lines, from the line of a number on.
    fn texts(&self, first: usize, count: usize) -> &[u8] {
        let start = first % USERS * self.each;
        &self.bytes[start..start + count * self.each]
    }
}

/// A console that runs.
struct Console {
    child: Child,
    input: ChildStdin,
    output: ChildStdout,
    log: Option<PathBuf>,
    /// The lines that it has taken.
    lines: usize,
    /// The seconds of a group, by turn.
    times: Vec<f64>,
}

impl Console {
    /// Starts one, and registers the link.
    fn start(log: Option<PathBuf>) -> Outcome<Console> {
        let default = concat!(env!("CARGO_MANIFEST_DIR"), "/../../crates/console/out/console");
        let program = env::var_os("RELAY_CONSOLE").unwrap_or_else(|| default.into());
        let mut command = Command::new(&program);
        command.args(&log).stdin(Stdio::piped()).stdout(Stdio::piped());
        let mut child = about(Path::new(&program).display(), command.spawn())?;
        let input = child.stdin.take().expect("a pipe");
        let output = child.stdout.take().expect("a pipe");
        let mut console = Console { child, input, output, log, lines: 0, times: Vec::new() };
        console.ask(format!("+{LINK}\n").as_bytes(), b"= 0\n")?;
        Ok(console)
    }

    /// Sends groups until the turn is over.
    fn have_turn(&mut self, day: &Day, size: usize) -> Outcome<()> {
        let start = Instant::now();
        let mut groups = 0;
        while start.elapsed() < TURN {
            self.ask(day.inputs.texts(self.lines, size), day.answers.texts(self.lines, size))?;
            self.lines += size;
            groups += 1;
        }
        self.times.push(start.elapsed().as_secs_f64() / f64::from(groups));
        Ok(())
    }

    /// Sends requests in one write, and reads until they are answered. What comes is compared as it
    /// comes: a wrong answer may be short, and the rest would be waited for in vain.
    fn ask(&mut self, requests: &[u8], answers: &[u8]) -> Outcome<()> {
        about("the console's input", self.input.write_all(requests))?;
        let mut room = [0; PIECE];
        let mut got = 0;
        while got < answers.len() {
            let count = about("the console's output", self.output.read(&mut room[got..]))?;
            if count == 0 {
                return Err(format!("the console ended behind {} lines", self.lines));
            }
            got += count;
            if !answers.starts_with(&room[..got]) {
                return Err(self.told_wrong(&room[..got], answers));
            }
        }
        Ok(())
    }

    /// What is said of wrong answers: the first of them, and the right one.
    fn told_wrong(&self, got: &[u8], answers: &[u8]) -> String {
        let ended = |byte: &u8| *byte == b'\n';
        let mut pairs = got.split_inclusive(ended).zip(answers.split_inclusive(ended)).enumerate();
        match pairs.find(|(_, (wrong, right))| !right.starts_with(wrong)) {
            Some((place, (wrong, right))) => format!(
                "a wrong answer behind {} lines: '{}' instead of '{}'",
                self.lines + place,
                wrong.escape_ascii(),
                right.escape_ascii()
            ),
            None => format!("more answers than requests behind {} lines", self.lines),
        }
    }

    /// Ends it, tests that nothing is missing from its log, and answers the seconds of a group.
    fn end(mut self, day: &Day) -> Outcome<f64> {
        drop(self.input);
        let mut rest = Vec::new();
        about("the console's output", self.output.read_to_end(&mut rest))?;
        if !rest.is_empty() {
            return Err(format!("the console answered '{}' at its end", rest.escape_ascii()));
        }
        let status = about("the console", self.child.wait())?;
        if !status.success() {
            return Err(format!("the console failed: {status}"));
        }
        if let Some(log) = &self.log {
            test_log(log, &day.records, self.lines)?;
            about(log.display(), fs::remove_file(log))?;
        }
        Ok(median(self.times.into_iter()))
    }
}

/// Tests that a log has the records of so many lines, and nothing else.
fn test_log(path: &Path, records: &Tape, lines: usize) -> Outcome<()> {
    let log = about(path.display(), fs::read(path))?;
    let mut found = log.chunks(records.each).enumerate();
    if let Some((line, _)) = found.find(|(line, record)| *record != records.texts(*line, 1)) {
        return Err(format!("a wrong record in the log behind {line} lines"));
    }
    if log.len() != lines * records.each {
        let found = log.len() / records.each;
        return Err(format!("{found} records in the log, and {lines} lines were answered"));
    }
    Ok(())
}

/// A file to which the records of groups are appended by this program, each group with a sync.
struct Syncs {
    path: PathBuf,
    file: File,
    /// The lines whose records it has.
    lines: usize,
    /// The seconds in the sync of a group, by turn.
    times: Vec<f64>,
}

impl Syncs {
    fn new(path: PathBuf) -> Outcome<Syncs> {
        let file = about(path.display(), File::create_new(&path))?;
        Ok(Syncs { path, file, lines: 0, times: Vec::new() })
    }

    /// Appends groups until the turn is over.
    fn have_turn(&mut self, day: &Day, size: usize) -> Outcome<()> {
        let start = Instant::now();
        let (mut groups, mut syncing) = (0, Duration::ZERO);
        while start.elapsed() < TURN {
            let records = day.records.texts(self.lines, size);
            about(self.path.display(), self.file.write_all(records))?;
            let before = Instant::now();
            about(self.path.display(), self.file.sync_data())?;
            syncing += before.elapsed();
            self.lines += size;
            groups += 1;
        }
        self.times.push(syncing.as_secs_f64() / f64::from(groups));
        Ok(())
    }

    fn end(self) -> Outcome<()> {
        about(self.path.display(), fs::remove_file(&self.path))
    }
}
