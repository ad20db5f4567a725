//! The constants of `include/relay.h` are the source's: the numbers of refusals, the limits, the bits
//! of modes and of statuses. Both are read as text, since no compiler sees header and source together.

use std::collections::{BTreeMap, BTreeSet};
use std::fs;

/// Constants by name.
type Constants = BTreeMap<String, u64>;

/// Each limit of the header, and the crate that has it under which name.
const LIMITS: [(&str, &str, &str); 16] = [
    ("LINE", "message", "LINE_LIMIT"),
    ("PARAMS", "message", "PARAM_LIMIT"),
    ("TEXT", "glob", "TEXT_LIMIT"),
    ("NAME", "names", "NAME_LIMIT"),
    ("USER_ID", "names", "USER_ID"),
    ("KEY", "channel", "Record::KEY"),
    ("MEMBERS", "channel", "Record::MEMBERS"),
    ("SLOTS", "channel", "Record::SLOTS"),
    ("MASKS", "channel", "Record::MASKS"),
    ("MASK", "channel", "Record::MASK"),
    ("LIST", "bans", "BanList::LIST"),
    ("BANS", "bans", "BanList::BANS"),
    ("LINKS", "links", "Links::COUNT"),
    ("LOG_HEAD", "journal", "HEAD"),
    ("DESCRIPTION", "telling", "DESCRIPTION_LIMIT"),
    ("REFUSAL_TEXT", "wording", "TEXT_LIMIT"),
];

/// A file of the repository.
fn text(path: &str) -> String {
    let path = format!("{}/../../{path}", env!("CARGO_MANIFEST_DIR"));
    fs::read_to_string(&path).unwrap_or_else(|error| panic!("{path}: {error}"))
}

/// The constants that a header's enums give a number, by their names without RELAY_.
fn of_header(header: &str) -> Constants {
    let mut constants = Constants::new();
    for line in header.lines() {
        let Some((name, rest)) = line.trim().split_once(" = ") else { continue };
        let Some(name) = name.strip_prefix("RELAY_") else { continue };
        let number = rest.split([',', ' ', '/']).next().and_then(|word| word.parse().ok());
        let number = number.unwrap_or_else(|| panic!("no number: {line}"));
        assert_eq!(constants.insert(name.to_string(), number), None, "twice: {name}");
    }
    constants
}

/// The constants of a source file. Those of a type have its name before theirs: `Record::KEY`.
fn of_source(source: &str) -> Constants {
    let mut constants = Constants::new();
    let mut kind = String::new();
    for line in source.lines() {
        if let Some(rest) = line.strip_prefix("impl ") {
            kind = format!("{}::", rest.trim_end_matches(" {"));
        } else if line == "}" {
            kind.clear();
        }
        let Some((_, rest)) = line.trim().split_once("const ") else { continue };
        let Some((name, value)) = rest.split_once(": ") else { continue };
        let Some((_, value)) = value.trim_end_matches(';').split_once(" = ") else { continue };
        if let Some(number) = evaluated(value, &constants) {
            constants.insert(format!("{kind}{name}"), number);
        }
    }
    constants
}

/// The numbers of refusals by the header's names: a variant `NotWellFormed = 1,` of the source's enum is
/// NOT_WELL_FORMED there. That nothing is refused is a constant, ACCEPTED.
fn refusals() -> Constants {
    let source = text("crates/refusal/src/lib.rt");
    let mut numbers = of_source(&source);
    for line in source.lines() {
        let Some((name, number)) = line.trim().trim_end_matches(',').split_once(" = ") else {
            continue;
        };
        let Ok(number) = number.parse() else { continue };
        if name.chars().all(char::is_alphabetic) {
            numbers.insert(in_capitals(name), number);
        }
    }
    numbers
}

/// A name of several words that begin with capitals, as C writes that of a constant.
fn in_capitals(name: &str) -> String {
    let mut written = String::new();
    for letter in name.chars() {
        if letter.is_uppercase() && !written.is_empty() {
            written.push('_');
        }
        written.push(letter.to_ascii_uppercase());
    }
    written
}

/// A number, a constant that was met before, or a number shifted by one of these.
fn evaluated(value: &str, known: &Constants) -> Option<u64> {
    match value.split_once(" << ") {
        Some((number, place)) => Some(evaluated(number, known)? << evaluated(place, known)?),
        None => value.parse().ok().or_else(|| known.get(value).copied()),
    }
}

/// The mode letters of the source with their places: the arms `b'i' => 0,` of `mode_place`.
fn places() -> BTreeMap<char, u64> {
    let source = text("crates/channel/src/modes.rt");
    let constants = of_source(&source);
    let arm = |line: &str| {
        let (letter, place) = line.trim().strip_prefix("b'")?.split_once("' => ")?;
        let place = place.trim_end_matches(',').trim_start_matches("Some(").trim_end_matches(')');
        let place = evaluated(place, &constants);
        Some((letter.parse().ok()?, place.unwrap_or_else(|| panic!("no place: {line}"))))
    };
    source.lines().filter_map(arm).collect()
}

/// What the header must have, by the source.
fn expected() -> Constants {
    let library = |name: &str| of_source(&text(&format!("crates/{name}/src/lib.rt")));
    let mut expected = refusals();
    for (name, source, constant) in LIMITS {
        let constants = library(source);
        let number = constants.get(constant);
        expected.insert(
            name.to_string(),
            *number.unwrap_or_else(|| panic!("crates/{source} has no {constant}")),
        );
    }
    for (letter, place) in places() {
        expected.insert(format!("MODE_{}", letter.to_ascii_uppercase()), 1 << place);
    }
    let channel = library("channel");
    for status in ["VOICE", "OPERATOR"] {
        expected.insert(status.to_string(), channel[&format!("Member::{status}")]);
    }
    expected
}

/// The constants that only one side has, or that have another number on the other.
fn differing(header: &str, expected: &Constants) -> Vec<String> {
    let ours = of_header(header);
    let names: BTreeSet<&String> = ours.keys().chain(expected.keys()).collect();
    names.into_iter().filter(|&name| ours.get(name) != expected.get(name)).cloned().collect()
}

#[test]
fn constants_are_the_sources() {
    let expected = expected();
    assert_eq!(differing(&text("include/relay.h"), &expected), [""; 0]);
    assert_eq!(expected.len(), 63, "0 and 36 numbers, sixteen limits, eight modes, two statuses");
}

/// Wrong headers are noticed: each number made greater by one, each constant renamed, and one more.
#[test]
fn other_constants_are_noticed() {
    let (header, expected) = (text("include/relay.h"), expected());
    let changed = |old: &str, new: &str| {
        assert_eq!(header.matches(old).count(), 1, "{old}");
        differing(&header.replace(old, new), &expected)
    };
    for (name, number) in of_header(&header) {
        let old = format!("RELAY_{name} = {number}");
        assert_eq!(changed(&old, &format!("RELAY_{name} = {}", number + 1)), [name.as_str()]);
        let renamed = format!("RELAY_X_{name} = {number}");
        assert_eq!(changed(&old, &renamed).len(), 2, "{name}");
    }
    let more = "RELAY_BAD_LIMIT = 36,\n    RELAY_MORE = 37 ";
    assert_eq!(changed("RELAY_BAD_LIMIT = 36 ", more), ["MORE"]);
}

/// The sizes and numbers of this crate's own are those of the header.
#[test]
fn sizes_are_the_headers() {
    let header = of_header(&text("include/relay.h"));
    for (name, size) in [
        ("MASKS", relay::MASKS),
        ("MASK", relay::MASK),
        ("LIST", relay::LIST),
        ("BANS", relay::BANS),
        ("ACCEPTED", relay::ACCEPTED.into()),
        ("LINE_TOO_LONG", relay::LINE_TOO_LONG.into()),
        ("LOG_CUT", relay::LOG_CUT.into()),
    ] {
        assert_eq!(header[name], size as u64, "{name}");
    }
    assert_eq!(relay::LIST, 1 + relay::MASKS * (1 + relay::MASK));
    assert_eq!(relay::BANS, 16 * relay::LIST);
}

/// The project has one version, which stands in the file VERSION.
#[test]
fn version_is_the_files() {
    let version = text("VERSION");
    let macros = format!("#define RELAY_VERSION \"{}\"\n", version.trim_end());
    assert_eq!(text("include/relay.h").matches(&macros).count(), 1, "{macros}");
    assert_eq!(env!("CARGO_PKG_VERSION"), version.trim_end());
}

/// The words of each number are those of the table in the source, and there are no others. 0 is no
/// refusal, and 10 and 17 are given no longer: they have none.
#[test]
fn words_are_the_sources() {
    let source = text("crates/wording/src/lib.rt");
    let arm = |line: &str| {
        let (name, words) = line.trim().strip_suffix("\"),")?.split_once(" => held(b\"")?;
        Some((name.to_string(), words.to_string()))
    };
    let arms: BTreeMap<String, String> = source.lines().filter_map(arm).collect();
    let numbers = refusals();
    let without = [0, 10, 17];
    let texts = numbers.len() - without.len() + 1;
    assert_eq!(arms.len(), texts, "a text for each other number, and the empty one");
    assert_eq!(arms["_"], "");
    for number in 0..=u8::MAX {
        let name = numbers.iter().find(|(_, &value)| value == u64::from(number));
        let name = name.filter(|_| !without.contains(&number)).map_or("_", |(name, _)| name);
        assert_eq!(relay::refusal_text(number).as_bytes(), arms[name].as_bytes(), "{number}");
    }
}
