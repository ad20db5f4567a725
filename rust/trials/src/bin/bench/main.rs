//! The core's time beside the model's, and the stack that a call takes, as tables in Markdown.
//!
//!     cargo run --release --bin bench -- [RUNS]
//!
//! A figure is the best of RUNS runs (101 unless told), in which core and model take turns, in
//! microseconds a call. Both take the line with a table of their own by its pointer, as an embedding
//! program does, and both test the whole table, its ban lists too. A copy of the table's head, and of
//! the ban list that the line changes if it changes one, is in each figure, since most lines change
//! them. Masks are tried beside C's `fnmatch` too, and beside a matcher that goes back to every star
//! and is stopped after a million steps. Bytes made into lines are told in megabytes a second, beside
//! a splitter that finds LF by C's `memchr`, and as a share of the time of taking the lines. A day log
//! is read and replayed in microseconds a record, and in records a second.
//!
//! With RELAY_EARLIER_LIB=FILE, the path of an earlier libcapi.a, that library takes the model's place,
//! but not the place of its feeder or its reader of day logs where it has none; and where it knows no
//! ban lists, a row with masks in it has figures of the core alone.

mod cases;
mod clock;
mod feeding;
mod matchers;
mod replaying;
mod splitter;
mod stack;

use std::hint::black_box;

use model::refusal::number_of;
use relay::{earlier, Answer, Feeder, Table, LIST};
use trials::convert::{core_table, core_whole};

use cases::{Case, Trial, LINK, LISTS};
use clock::{Clock, Times, OTHER};
use matchers::Fnmatch;

fn main() {
    assert!(relay::layout_matches(), "the library's structs are not laid out as this program's");
    assert!(earlier::layout_fits(), "the earlier library's structs are laid out otherwise");
    let runs = std::env::args().nth(1).and_then(|arg| arg.parse().ok()).unwrap_or(101);
    let clock = Clock { runs };
    lines(&clock);
    with_lists(&clock);
    by_channels(&clock);
    by_members(&clock);
    masks(&clock);
    others(&clock);
    feeding(&clock);
    replaying(&clock);
    stacks();
}

/// Takes a case's line.
fn take(clock: &Clock, case: &Case) -> Times {
    let known = earlier::HAS_LISTS || case.is_without_lists();
    let (core, other) = (by_library(case, relay::take), by_library(case, earlier::take));
    clock.time_if(known, core, other, by_model(case))
}

/// The taking of a case's line by the model, to be called again and again.
fn by_model(case: &Case) -> impl FnMut() -> u8 + '_ {
    let (mut table, mut out) = (Page::of(case.table), Page::of([0; 512]));
    let changed = case.changed_list();
    move || {
        let start = black_box(&case.table);
        (table.0.slots, table.0.links) = (start.slots, start.links);
        if let Some(slot) = changed {
            table.0.bans[slot] = start.bans[slot];
        }
        number_before(number_of(&model::relay::take(&mut table.0, LINK, &case.line, &mut out.0)))
    }
}

/// The taking of a case's line by a library, to be called again and again.
fn by_library<'a>(
    case: &'a Case,
    take: impl Fn(&mut Table, u32, &[u8], &mut [u8]) -> Answer + 'a,
) -> impl FnMut() -> u8 + 'a {
    let start = Page::of(core_table(&case.table));
    let (mut table, mut out) = (Page::of(start.0), Page::of([0; 512]));
    let changed = case.changed_list().map_or(0..0, |slot| slot * LIST..(slot + 1) * LIST);
    move || {
        let start = black_box(&start.0);
        table.0.head.clone_from(&start.head);
        table.0.bans[changed.clone()].copy_from_slice(&start.bans[changed.clone()]);
        number_before(take(&mut table.0, LINK, &case.line, &mut out.0).number)
    }
}

/// The number of a line as every library gives it: an earlier one may have 17 in the place of 32 to 36.
fn number_before(number: u8) -> u8 {
    if matches!(number, 32..=36) {
        17
    } else {
        number
    }
}

/// Something that begins a page of memory: where it lies makes no difference between those that are
/// timed.
#[repr(align(4096))]
struct Page<T>(T);

impl<T> Page<T> {
    fn of(value: T) -> Box<Page<T>> {
        Box::new(Page(value))
    }
}

fn lines(clock: &Clock) {
    heading(
        "Taking a line, µs",
        &["1 channel: core", OTHER, "ratio", "16 full: core", OTHER, "ratio"],
    );
    for (one, full) in cases::small().iter().zip(cases::full()) {
        let (few, many) = (take(clock, one), take(clock, &full));
        println!("| {} | {} | {} |", one.name, few.columns(), many.columns());
    }
}

fn with_lists(clock: &Clock) {
    heading(
        "With ban lists, µs",
        &["1 channel: core", OTHER, "ratio", "16 full: core", OTHER, "ratio"],
    );
    for lists in LISTS {
        let tables = [lists.table(0), lists.table(15)];
        let row = |name: &str, times: [Times; 2]| {
            let [few, many] = times.map(|times| times.columns());
            println!("| {name}; {} | {few} | {many} |", lists.told());
        };
        for (name, line) in lists.lines() {
            let case = |table| Case { name: name.to_string(), table, line: line.clone() };
            row(name, tables.map(|table| take(clock, &case(table))));
        }
        for (name, text) in lists.texts() {
            row(name, tables.map(|table| ask(clock, &table, &text)));
        }
    }
}

/// Asks whether a text is banned from #race.
fn ask(clock: &Clock, table: &model::Table, text: &[u8]) -> Times {
    let core = Page::of(core_table(table));
    let (head, bans) = (&core.0.head, &core.0.bans);
    assert_eq!(relay::is_banned(head, bans, b"#race", text).number, relay::ACCEPTED);
    clock.time_if(
        earlier::HAS_LISTS,
        || u8::from(relay::is_banned(head, bans, b"#race", text).yes),
        || u8::from(earlier::is_banned(head, bans, b"#race", text).yes),
        || u8::from(table.is_banned(b"#race", text) == Ok(true)),
    )
}

fn by_channels(clock: &Clock) {
    heading("SJOIN of one member, by the full channels beside, µs", &["core", OTHER, "ratio"]);
    for case in cases::by_channels() {
        println!("| {} | {} |", case.name, take(clock, &case).columns());
    }
}

fn by_members(clock: &Clock) {
    heading("SJOIN with one channel, by its members, µs", &["core", OTHER, "ratio"]);
    for case in cases::by_members() {
        println!("| {} | {} |", case.name, take(clock, &case).columns());
    }
}

/// Masks, beside C's own matcher and one that goes back to every star, where that comes to an end.
fn masks(clock: &Clock) {
    let columns = ["core", OTHER, "ratio", "fnmatch", "ratio", "backtracking", "ratio"];
    heading("Mask on 512 times `a`, µs", &columns);
    for Trial { name, mask, text } in cases::masks() {
        let mut core = || u8::from(relay::matches(&mask, &text).yes);
        let times = clock.time(
            &mut core,
            || u8::from(earlier::matches(&mask, &text).yes),
            || u8::from(model::mask::matches(&mask, &text) == Ok(true)),
        );
        let by_c = Fnmatch::new(&mask, &text);
        let by_c = clock.by_turns(&mut core, || u8::from(by_c.matches()));
        let by_all = || u8::from(matchers::backtracking(&mask, &text) == Some(true));
        let by_all = match matchers::backtracking(&mask, &text) {
            Some(_) => clock.by_turns(&mut core, by_all).beside(),
            None => format!("over {} steps | –", matchers::CAP),
        };
        println!("| {name} | {} | {} | {by_all} |", times.columns(), by_c.beside());
    }
}

/// The functions that take no command.
fn others(clock: &Clock) {
    heading("Other functions, µs", &["core", OTHER, "ratio"]);
    let row = |name: &str, times: Times| println!("| {name} | {} |", times.columns());

    let mut table = cases::full()[0].table;
    let core = core_table(&table);
    let times = clock.time(
        || relay::register(&core.head, &core.bans, 9).number,
        || earlier::register(&core.head, &core.bans, 9).number,
        || number_of(&table.register(9)),
    );
    row("registering a link, 16 full channels", times);

    for (name, first, second) in cases::merged() {
        let known = earlier::HAS_LISTS || first.bans == model::BanList::EMPTY;
        let (core_first, core_second) = (core_whole(&first), core_whole(&second));
        let times = clock.time_if(
            known,
            || relay::merge(&core_first, &core_second).number,
            || earlier::merge(&core_first, &core_second).number,
            || number_of(&model::channel::merge(&first, &second)),
        );
        row(&name, times);
    }

    let line = cases::long_line();
    for (name, line) in [("fifteen parameters", &cases::many_params()), ("47 members", &line)] {
        let times = clock.time(
            || relay::read(line).number,
            || earlier::read(line).number,
            || number_of(&model::line::read(line)),
        );
        row(&format!("reading a line of {name}"), times);
    }

    let log = || Page::of([0; 517]);
    let (mut core_log, mut earlier_log, mut model_log) = (log(), log(), log());
    let times = clock.time(
        || relay::log(LINK, &line, &mut core_log.0).number,
        || earlier::log(LINK, &line, &mut earlier_log.0).number,
        || number_of(&model::journal::write_record(LINK, &line, &mut model_log.0)),
    );
    row("its day-log record", times);
}

/// Bytes that come in chunks made into lines, and the time of it beside that of taking the lines.
fn feeding(clock: &Clock) {
    let columns = ["core", "memchr", "ratio", feeding::OTHER, "ratio"];
    let shares = ["share of taking, 1 channel", "share of taking, 16 full"];
    heading("Bytes made into lines, MB/s, by chunks of", &[&columns[..], &shares].concat());
    for (size, bytes) in [(1, 1 << 14), (64, 1 << 16), (1_500, 1 << 17), (65_536, 1 << 17)] {
        println!("| {size} | {} |", feeding::columns(clock, &cases::day(bytes), size));
    }
}

/// A day log read record by record, and replayed, from an empty table on.
fn replaying(clock: &Clock) {
    let columns = ["core", replaying::OTHER, "ratio", "core, records/s"];
    heading("A day log of 1,000 records, µs a record", &columns);
    for channels in [1, 16] {
        let log = cases::log(channels, replaying::RECORDS);
        let told = if channels == 1 { "1 channel" } else { "16 channels" };
        println!("| reading it, {told} | {} |", replaying::reading(clock, &log));
        println!("| replaying it, {told} | {} |", replaying::replaying(clock, &log));
    }
}

/// The stack of each call, with its arguments and its answer.
fn stacks() {
    heading("Stack of one call, bytes", &["core"]);
    let row = |name: &str, bytes: usize| println!("| {name} | {bytes} |");
    let lists = LISTS[2];
    let mut table = core_table(&lists.table(15));
    let record = &table.channel(15);
    let line = cases::long_line();
    let lines = lists.lines();
    let parts = relay::parts(&line);
    let feeder = Feeder::empty();
    let mut out = [0; 517];
    row("taking an SJOIN", stack::taken(|| table.take(LINK, &line, &mut out)));
    for (name, line) in &lines[2..] {
        row(&format!("taking: {name}"), stack::taken(|| table.take(LINK, line, &mut out)));
    }
    row("registering a link", stack::taken(|| table.register(9)));
    row("asking for a ban", stack::taken(|| table.is_banned(b"#race", &line)));
    row("merging two records", stack::taken(|| relay::merge(record, record)));
    row("emptying a table", stack::taken(|| relay::empty_head(&mut table.bans)));
    row("reading a line", stack::taken(|| relay::read(&line)));
    row("its parts", stack::taken(|| relay::parts(&line)));
    row("writing a line", stack::taken(|| relay::write(&line, &parts, &mut out)));
    row("its day-log record", stack::taken(|| relay::log(LINK, &line, &mut out)));
    row("reading it back", stack::taken(|| relay::read_record(&out, 0)));
    row("matching a mask", stack::taken(|| relay::matches(b"*a*b", &line)));
    row("making bytes into a line", stack::taken(|| relay::feed(&feeder, &line)));
}

/// The first two lines of a table.
fn heading(first: &str, columns: &[&str]) {
    println!("\n| {first} | {} |", columns.join(" | "));
    println!("|---|{}", "---|".repeat(columns.len()));
}
