//! Bytes made into lines.

use model::feeder::{Event, Fed};
use model::{Feeder, Refusal};

use crate::convert::{core_fed, core_feeder};
use crate::inputs::{feeders, streams};
use crate::rng::Rng;
use crate::tally::Tally;

/// Feeds bytes in pieces, and then all of them in one go: both yield and keep the same. Now and then
/// no bytes reach the state that they are fed from.
pub fn feed(rng: &mut Rng, tally: &mut Tally) {
    let start = if rng.one_in(6) { feeders::bad_feeder(rng) } else { feeders::feeder(rng) };
    let bytes = streams::stream(rng);
    let pieces = streams::cut(rng, &bytes);
    let told = || format!("{start:?} \"{}\"", bytes.escape_ascii());

    let mut state = start;
    let mut events = Vec::new();
    for piece in &pieces {
        events.extend(compare_feed(&mut state, piece, tally));
    }
    let mut joined = start;
    assert_eq!(compare_feed(&mut joined, &bytes, tally), events, "{} {pieces:?}", told());
    assert_eq!(joined, state, "{} {pieces:?}", told());
}

/// Feeds bytes with core and model, call after call, until they are used up or the state is refused,
/// keeps the state after them and answers what they yield.
pub fn compare_feed(state: &mut Feeder, bytes: &[u8], tally: &mut Tally) -> Vec<Event> {
    let mut events = Vec::new();
    let mut rest = bytes;
    while let Ok(Fed { used, event: Some(event) }) = compare_call(state, rest, tally) {
        events.push(event);
        rest = &rest[used..];
    }
    events
}

/// One call.
fn compare_call(state: &mut Feeder, bytes: &[u8], tally: &mut Tally) -> Result<Fed, Refusal> {
    let before = *state;
    let lent = bytes.to_vec();
    let answer = relay::feed(&core_feeder(state), &lent);
    let expected = state.feed(bytes);
    let told = || format!("{before:?} \"{}\"", bytes.escape_ascii());
    assert_eq!(answer, core_fed(state, &expected), "{}", told());
    assert_eq!(lent, bytes);
    if answer.number == Refusal::IllFormed.number() {
        assert_eq!(answer.state, core_feeder(&before), "{}", told());
    }
    tally.count(answer.number);
    tally.decide(answer.len != 0);
    expected
}
