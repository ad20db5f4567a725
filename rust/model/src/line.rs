//! Reading one line and writing one message.

use crate::Refusal;

/// The most bytes of a line, CR LF counted, and the least of a lent output.
pub const LINE: usize = 512;

/// The most parameters of a message.
pub const PARAMS: usize = 15;

/// The most middles: what remains after the last of these is the fifteenth parameter.
const MIDDLES: usize = 14;

/// What a line says: perhaps a prefix, a command, parameters, each a part of the lent bytes.
#[derive(Clone, Debug, PartialEq, Eq)]
pub struct Message<'a> {
    /// The bytes between the first ':' and the next SPACE.
    pub prefix: Option<&'a [u8]>,
    /// The command as it is spelled.
    pub command: &'a [u8],
    /// The middles, then the trailing part, or what remains after the fourteenth, if there is any.
    pub params: Vec<&'a [u8]>,
}

/// Reads one line.
pub fn read(line: &[u8]) -> Result<Message<'_>, Refusal> {
    if line.len() > LINE {
        return Err(Refusal::LongLine);
    }
    read_any_length(line)
}

/// Reads a line of any length: number 24 looks at the written form with its length apart.
fn read_any_length(line: &[u8]) -> Result<Message<'_>, Refusal> {
    let Some(body) = line.strip_suffix(b"\r\n") else {
        return Err(Refusal::NoLineEnd);
    };
    if body.iter().any(|b| matches!(b, 0 | b'\r' | b'\n')) {
        return Err(Refusal::ForbiddenByte);
    }
    if body.is_empty() {
        return Err(Refusal::EmptyLine);
    }
    let (prefix, rest) = split_prefix(body);
    if prefix.is_some_and(<[u8]>::is_empty) {
        return Err(Refusal::EmptyPrefix);
    }
    let (command, rest) = split_word(rest);
    if !is_command(command) {
        return Err(Refusal::BadCommand);
    }
    Ok(Message { prefix, command, params: params_in(rest) })
}

/// The prefix, where the first byte is ':', and what follows it and its run of SPACEs.
fn split_prefix(body: &[u8]) -> (Option<&[u8]>, &[u8]) {
    match body.strip_prefix(b":") {
        Some(text) => {
            let (prefix, rest) = split_word(text);
            (Some(prefix), after_spaces(rest))
        }
        None => (None, body),
    }
}

/// The bytes up to the first SPACE or the end, and what follows them.
fn split_word(text: &[u8]) -> (&[u8], &[u8]) {
    text.split_at(text.iter().position(|&b| b == b' ').unwrap_or(text.len()))
}

fn after_spaces(text: &[u8]) -> &[u8] {
    let spaces = text.iter().take_while(|&&b| b == b' ').count();
    &text[spaces..]
}

/// One or more ASCII letters, or exactly three digits.
fn is_command(word: &[u8]) -> bool {
    let letters = !word.is_empty() && word.iter().all(u8::is_ascii_alphabetic);
    let digits = word.len() == 3 && word.iter().all(u8::is_ascii_digit);
    letters || digits
}

/// The rules *rest* and *middle*: each turn is one *rest*, and a *middle* is followed by the next, up to
/// the fourteenth.
fn params_in(mut text: &[u8]) -> Vec<&[u8]> {
    let mut params = Vec::new();
    while params.len() < MIDDLES {
        text = after_spaces(text);
        if text.is_empty() {
            return params;
        }
        if let Some(trailing) = text.strip_prefix(b":") {
            params.push(trailing);
            return params;
        }
        let (middle, rest) = split_word(text);
        params.push(middle);
        text = rest;
    }
    params.extend(fifteenth(after_spaces(text)));
    params
}

/// All that remains after the fourteenth middle and its SPACEs, less one leading ':' if there is one; no
/// parameter if nothing remains.
fn fifteenth(remains: &[u8]) -> Option<&[u8]> {
    (!remains.is_empty()).then(|| remains.strip_prefix(b":").unwrap_or(remains))
}

/// The prefix of a line; the empty part at the end of the lent bytes where there is none or the
/// line isn't read.
pub fn prefix(line: &[u8]) -> &[u8] {
    read(line).ok().and_then(|m| m.prefix).unwrap_or(end_of(line))
}

/// The command of a line; the empty part at the end of the lent bytes where the line isn't read.
pub fn command(line: &[u8]) -> &[u8] {
    read(line).map(|m| m.command).unwrap_or(end_of(line))
}

/// A parameter of a line by its index; the empty part at the end of the lent bytes where it lies
/// beyond the count or the line isn't read.
pub fn param(line: &[u8], index: usize) -> &[u8] {
    read(line).ok().and_then(|m| m.params.get(index).copied()).unwrap_or(end_of(line))
}

fn end_of(line: &[u8]) -> &[u8] {
    &line[line.len()..]
}

/// A part of the lent bytes by the places where it starts and ends.
#[derive(Clone, Copy, Debug, Default, PartialEq, Eq)]
pub struct Span {
    /// The place of its first byte.
    pub start: usize,
    /// The place after its last byte.
    pub end: usize,
}

/// A message to be written, its parts given by their places. Only the first `count` parameters,
/// and the prefix only with `has_prefix`, are parts of the message.
#[derive(Clone, Copy, Debug, Default, PartialEq, Eq)]
pub struct Parts {
    /// Whether the message has a prefix; one that is present may not be empty.
    pub has_prefix: bool,
    /// The prefix.
    pub prefix: Span,
    /// The command.
    pub command: Span,
    /// The number of parameters.
    pub count: usize,
    /// The parameters.
    pub params: [Span; PARAMS],
}

/// The place where a part of some bytes begins in them.
pub fn place_in(bytes: &[u8], part: &[u8]) -> usize {
    part.as_ptr() as usize - bytes.as_ptr() as usize
}

/// The parts of a line by their places. One that is missing, and each of a line that isn't read, is
/// the empty one at the end of the lent bytes.
pub fn parts(line: &[u8]) -> Parts {
    let end = Span { start: line.len(), end: line.len() };
    let mut parts = Parts { prefix: end, command: end, params: [end; PARAMS], ..Parts::default() };
    if let Ok(message) = read(line) {
        let place = |part: &[u8]| {
            let start = place_in(line, part);
            Span { start, end: start + part.len() }
        };
        parts.has_prefix = message.prefix.is_some();
        parts.prefix = message.prefix.map_or(end, place);
        parts.command = place(message.command);
        parts.count = message.params.len();
        for (span, param) in parts.params.iter_mut().zip(message.params) {
            *span = place(param);
        }
    }
    parts
}

/// Writes a message in the fixed form to the front of the lent output, and answers its length.
pub fn write(lent: &[u8], parts: &Parts, out: &mut [u8]) -> Result<usize, Refusal> {
    if out.len() < LINE {
        return Err(Refusal::ShortOutput);
    }
    let message = message_of(lent, parts).ok_or(Refusal::Unwritable)?;
    let line = form(&message);
    if read_any_length(&line) != Ok(message) {
        return Err(Refusal::Unwritable);
    }
    if line.len() > LINE {
        return Err(Refusal::NoRoom);
    }
    out[..line.len()].copy_from_slice(&line);
    Ok(line.len())
}

/// The message of the given parts, if it has no sixteenth parameter and they lie in the lent bytes.
fn message_of<'a>(lent: &'a [u8], parts: &Parts) -> Option<Message<'a>> {
    let part = |span: &Span| lent.get(span.start..span.end);
    let prefix = if parts.has_prefix { Some(part(&parts.prefix)?) } else { None };
    let command = part(&parts.command)?;
    let params = parts.params.get(..parts.count)?;
    Some(Message { prefix, command, params: params.iter().map(part).collect::<Option<_>>()? })
}

/// The fixed form: one SPACE between parts, ':' before the last parameter where it needs one.
pub fn form(message: &Message) -> Vec<u8> {
    let mut line = Vec::with_capacity(LINE);
    if let Some(prefix) = message.prefix {
        line.push(b':');
        line.extend(prefix);
        line.push(b' ');
    }
    line.extend(message.command);
    for (index, param) in message.params.iter().enumerate() {
        line.push(b' ');
        if index + 1 == message.params.len() && needs_colon(index, param) {
            line.push(b':');
        }
        line.extend(*param);
    }
    line.extend(b"\r\n");
    line
}

/// Whether the last parameter, whose index that is, is empty, starts with ':' or holds a SPACE. The ':'
/// is left off a fifteenth that is non-empty and starts with neither ':' nor SPACE.
fn needs_colon(index: usize, last: &[u8]) -> bool {
    let starts = |byte: u8| last.first() == Some(&byte);
    let left_off = index == MIDDLES && !last.is_empty() && !starts(b':') && !starts(b' ');
    (last.is_empty() || starts(b':') || last.contains(&b' ')) && !left_off
}

#[cfg(test)]
mod tests {
    use super::*;

    /// The text with CR LF after it, as the paper shows lines.
    fn line(text: &[u8]) -> Vec<u8> {
        [text, b"\r\n"].concat()
    }

    fn refused(text: &[u8]) -> Option<u8> {
        read(&line(text)).err().map(Refusal::number)
    }

    #[test]
    fn lines_from_the_water() {
        assert_eq!(
            read(b"PING\r\n"),
            Ok(Message { prefix: None, command: b"PING", params: vec![] })
        );
        assert_eq!(
            read(b":a  X b :\r\n"),
            Ok(Message { prefix: Some(b"a"), command: b"X", params: vec![b"b", b""] })
        );
        assert_eq!(refused(b""), Some(7));
        assert_eq!(refused(b": X"), Some(8));
        assert_eq!(refused(b"12"), Some(9));
    }

    #[test]
    fn sixteen_words_and_513_bytes() {
        assert_eq!(after(14, b" o"), (15, Some(b"o".to_vec())));
        assert_eq!(after(14, b" o p"), (15, Some(b"o p".to_vec())));
        assert_eq!(after(14, b" o :"), (15, Some(b"o :".to_vec())));
        assert_eq!(refused(&[b'x'; 510]), None);
        assert_eq!(refused(&[b'x'; 511]), Some(4));
    }

    /// The text of a command and so many words, then this end.
    fn words(count: usize, end: &[u8]) -> Vec<u8> {
        [b"X".as_slice(), &b" a".repeat(count), end].concat()
    }

    /// The number of parameters of such a text, and the one that stands behind the words.
    fn after(count: usize, end: &[u8]) -> (usize, Option<Vec<u8>>) {
        let line = line(&words(count, end));
        let params = read(&line).unwrap().params;
        assert!(params.iter().take(count).all(|param| param == b"a"));
        (params.len(), params.get(count).map(|param| param.to_vec()))
    }

    #[test]
    fn the_fifteenth_is_all_that_remains() {
        for (end, fifteenth) in [
            (b" o".as_slice(), b"o".as_slice()),
            (b"   o", b"o"),
            (b" o ", b"o "),
            (b"  o p  q :r  ", b"o p  q :r  "),
            (b" :", b""),
            (b"  : ", b" "),
            (b" ::", b":"),
            (b" :::", b"::"),
            (b" :o p", b"o p"),
            (b" : o", b" o"),
            (b" o:", b"o:"),
            (b" o ::", b"o ::"),
        ] {
            assert_eq!(after(14, end), (15, Some(fifteenth.to_vec())), "{end:?}");
        }
        for end in [b"".as_slice(), b" ", b"     "] {
            assert_eq!(after(14, end), (14, None), "{end:?}");
        }
    }

    #[test]
    fn the_fourteenth_is_as_before() {
        assert_eq!(after(13, b" n "), (14, Some(b"n".to_vec())));
        assert_eq!(after(13, b" n   "), (14, Some(b"n".to_vec())));
        assert_eq!(after(13, b" n o"), (15, Some(b"n".to_vec())));
        assert_eq!(after(13, b" :n o"), (14, Some(b"n o".to_vec())));
        assert_eq!(after(13, b" :"), (14, Some(b"".to_vec())));
        assert_eq!(after(12, b" m :n o :p"), (14, Some(b"m".to_vec())));
    }

    #[test]
    fn the_colon_of_a_fifteenth() {
        let formed = |count, end: &[u8]| form(&read(&line(&words(count, end))).unwrap());
        for (read, written) in [
            (b" o".as_slice(), b" o".as_slice()),
            (b"  :o", b" o"),
            (b" :o p  ", b" o p  "),
            (b" o :p", b" o :p"),
            (b"   :", b" :"),
            (b" ::", b" ::"),
            (b" : o", b" : o"),
            (b"  ", b""),
        ] {
            assert_eq!(formed(14, read), line(&words(14, written)), "{read:?}");
            assert_eq!(formed(14, written), line(&words(14, written)), "{read:?}");
        }
        assert_eq!(formed(13, b" :n o"), line(&words(13, b" :n o")));
        assert_eq!(formed(13, b" :n"), line(&words(13, b" n")));
    }

    #[test]
    fn line_ends() {
        assert_eq!(read(b"").unwrap_err().number(), 5);
        assert_eq!(read(b"\n").unwrap_err().number(), 5);
        assert_eq!(read(b"\r").unwrap_err().number(), 5);
        assert_eq!(read(b"X\n\r").unwrap_err().number(), 5);
        assert_eq!(refused(b"\r"), Some(6));
        assert_eq!(refused(b"X\0"), Some(6));
    }

    #[test]
    fn prefix_and_command() {
        for (text, number) in [
            (b" ".as_slice(), 9),
            (b" X", 9),
            (b":", 8),
            (b":a", 9),
            (b":a ", 9),
            (b":QUIT", 9),
            (b"1234", 9),
            (b"A1", 9),
        ] {
            assert_eq!(refused(text), Some(number), "{text:?}");
        }
        assert_eq!(read(b":: 001\r\n").unwrap().prefix, Some(b":".as_slice()));
    }

    #[test]
    fn missing_parts_are_at_the_end() {
        let line = b"X a :\r\n";
        assert_eq!(param(line, 1).as_ptr(), line[5..].as_ptr());
        for part in [prefix(line), param(line, 2), param(line, usize::MAX)] {
            assert_eq!((part.as_ptr(), part.len()), (line[7..].as_ptr(), 0));
        }
        let unread = b": X";
        for part in [prefix(unread), command(unread), param(unread, 0)] {
            assert_eq!((part.as_ptr(), part.len()), (unread[3..].as_ptr(), 0));
        }
    }

    #[test]
    fn spaces_at_the_end_add_nothing() {
        assert_eq!(form(&read(b":a  X  b   c  \r\n").unwrap()), b":a X b c\r\n");
        assert_eq!(form(&read(b"X :b\r\n").unwrap()), b"X b\r\n");
        assert_eq!(form(&read(b"X ::b\r\n").unwrap()), b"X ::b\r\n");
        assert_eq!(form(&read(b"X :b c \r\n").unwrap()), b"X :b c \r\n");
    }

    #[test]
    fn messages_that_would_not_read_back() {
        let span = |start, end| Span { start, end };
        let lent = b"X a b\r:";
        let mut out = [0; 512];
        let mut number = |parts: Parts| write(lent, &parts, &mut out).err().map(Refusal::number);
        let good = Parts { command: span(0, 1), ..Parts::default() };
        assert_eq!(number(good), None);
        assert_eq!(number(Parts { command: span(1, 0), ..good }), Some(24));
        assert_eq!(number(Parts { command: span(7, 8), ..good }), Some(24));
        assert_eq!(number(Parts { command: span(1, 1), ..good }), Some(24));
        assert_eq!(number(Parts { has_prefix: true, ..good }), Some(24));
        assert_eq!(number(Parts { prefix: span(9, 2), ..good }), None);
        assert_eq!(number(Parts { count: 16, ..good }), Some(24));
        let mut spaced = Parts { count: 1, ..good };
        spaced.params[0] = span(2, 5);
        assert_eq!(number(spaced), None);
        spaced.count = 2;
        assert_eq!(number(spaced), Some(24));
        spaced.params = [span(6, 7); 15];
        spaced.count = 1;
        assert_eq!(number(spaced), None);
        spaced.count = 2;
        assert_eq!(number(spaced), Some(24));
        spaced.params[0] = span(4, 6);
        assert_eq!(number(Parts { count: 1, ..spaced }), Some(24));
    }

    /// As a fifteenth anything goes that goes as a last one; before it, middles alone.
    #[test]
    fn fifteen_parameters_to_be_written() {
        let span = |start, end| Span { start, end };
        let lent = b"X a :b\r";
        let mut out = [0; 512];
        let mut number = |parts: Parts| write(lent, &parts, &mut out).err().map(Refusal::number);
        let (command, params) = (span(0, 1), [span(2, 3); 15]);
        let good = Parts { command, count: 15, params, ..Parts::default() };
        assert_eq!(number(good), None);
        for (part, as_last) in [
            (span(2, 6), None),
            (span(4, 6), None),
            (span(3, 4), None),
            (span(1, 1), None),
            (span(5, 7), Some(24)),
        ] {
            for (place, expected) in [(0, Some(24)), (13, Some(24)), (14, as_last)] {
                let mut parts = good;
                parts.params[place] = part;
                assert_eq!(number(parts), expected, "{part:?} at {place}");
            }
        }
    }

    #[test]
    fn a_written_line_has_at_most_512_bytes() {
        let lent = [b'x'; 511];
        let mut out = [7; 600];
        let command = |end| Parts { command: Span { start: 0, end }, ..Parts::default() };
        assert_eq!(write(&lent, &command(511), &mut out), Err(Refusal::NoRoom));
        assert_eq!(out, [7; 600]);
        assert_eq!(write(&lent, &command(510), &mut out[..511]), Err(Refusal::ShortOutput));
        assert_eq!(write(&lent, &command(510), &mut out), Ok(512));
        assert_eq!(out[512..], [7; 88]);
    }
}
