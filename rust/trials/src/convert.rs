//! The same value in the core's types and in the model's.

use model::feeder;
use model::journal::{LogRecord, HEAD};
use model::line;
use model::refusal::number_of;
use model::{Fault, Refusal};

/// A record of the model in the core's type.
pub fn core_record(r: &model::Record) -> relay::Record {
    relay::Record {
        name: r.name,
        name_len: r.name_len,
        time: r.time,
        modes: r.modes,
        key: r.key,
        key_len: r.key_len,
        limit: r.limit,
        members: r.members.map(|m| relay::Member { id: m.id, status: m.status }),
        count: r.count,
    }
}

/// A record of the model with its list in the core's type.
pub fn core_whole(w: &model::WholeRecord) -> relay::WholeRecord {
    let bans = relay::BanList { room: w.bans.room };
    relay::WholeRecord { record: core_record(&w.record), bans }
}

/// The slots and the links of a table of the model in the core's type.
pub fn core_head(t: &model::Table) -> relay::Head {
    relay::Head {
        slots: std::array::from_fn(|k| core_record(&t.slots[k])),
        links: relay::Links { set: t.links },
    }
}

/// The ban lists of a table of the model as they are lent.
pub fn core_bans(t: &model::Table) -> relay::Bans {
    let mut bans = [0; relay::BANS];
    for (room, list) in bans.chunks_exact_mut(relay::LIST).zip(&t.bans) {
        room.copy_from_slice(&list.room);
    }
    bans
}

/// A table of the model in the core's type.
pub fn core_table(t: &model::Table) -> relay::Table {
    relay::Table { head: core_head(t), bans: core_bans(t) }
}

/// A feeder of the model in the core's type.
pub fn core_feeder(f: &model::Feeder) -> relay::Feeder {
    relay::Feeder { bytes: f.bytes, len: f.len, dropping: f.dropping }
}

/// The state after bytes were fed and what came of them, of the model, in the core's type.
pub fn core_fed(after: &model::Feeder, fed: &Result<feeder::Fed, Refusal>) -> relay::Fed {
    let state = core_feeder(after);
    let mut answer = relay::Fed { state, used: 0, line: [0; 512], len: 0, number: number_of(fed) };
    if let Ok(fed) = fed {
        answer.used = fed.used;
        match &fed.event {
            Some(Ok(line)) => {
                answer.line[..line.len()].copy_from_slice(line);
                answer.len = line.len();
            }
            Some(Err(refusal)) => answer.number = refusal.number(),
            None => {}
        }
    }
    answer
}

/// What stands at a place of a log, of the model, in the core's type.
pub fn core_read(read: &Option<Result<LogRecord, Fault>>) -> relay::RecordRead {
    match read {
        None => relay::RecordRead::default(),
        Some(Ok(LogRecord { place, link, line })) => {
            let start = place + HEAD;
            let line = relay::Span { start, end: start + line.len() };
            relay::RecordRead { line, link: *link, found: true, ..Default::default() }
        }
        Some(Err(Fault { refusal, place })) => {
            relay::RecordRead { place: *place, number: refusal.number(), ..Default::default() }
        }
    }
}

/// The parts of a message of the model in the core's type.
pub fn core_message(parts: &line::Parts) -> relay::Message {
    let span = |s: line::Span| relay::Span { start: s.start, end: s.end };
    relay::Message {
        has_prefix: parts.has_prefix,
        prefix: span(parts.prefix),
        command: span(parts.command),
        count: parts.count,
        params: parts.params.map(span),
    }
}
