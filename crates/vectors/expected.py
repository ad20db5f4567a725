#!/usr/bin/env python3
"""Make the program's input and its expected output from `examples.txt`.

    python3 expected.py            write the files `stdin` and `stdout`
    python3 expected.py --check    only compare them; exit 1 on a difference

A record of `stdin` is a word of five bytes, which says what is tried, and
then what it is tried on, up to and including LF. The words are, each with a
SPACE after it,

    line    a line as received
    name    any bytes, as a channel name, a server id and a user id
    same    two names with a SPACE between them
    mask    a mask, a SPACE and a text
    over    nothing: the table is empty again
    link    the number of a link that is registered
    drop    the number of a link that is dropped
    take    the number of a link, a SPACE and a line as received from it
    thin    the same, with an output of 511 bytes lent
    harm    nothing: the first slot's name is cut to one byte, so that the
            table isn't well formed
    blot    nothing: the last byte of the first slot's ban list is made 1, so
            that the table isn't well formed
    bans    a channel's name, a SPACE and a text
    meld    nothing: the records of the first two slots, the second under the
            first one's name, are merged with their ban lists

For a line that is read, `stdout` has

    read N          the count of parameters
    prefix P        only if there is one
    command C
    param X         once for each parameter
    written W       the fixed form, without CR LF
    forwarded F     the same, the command in capitals

and for one that isn't, `refused K` with its number. For the others it has

    channel Y       Y being yes or no
    server Y
    user Y

    same Y

    match Y         or `refused K`

    banned Y        or `refused K`

    done            or `refused K`, and then the merged record, or the first
                    one, as a slot of the table is shown

The words from `over` to `blot` are steps of a relay, whose table goes from one
to the next. `link`, `drop`, `take` and `thin` are answered by

    done            or `refused K`

and `take` and `thin` then by

    at P            the place in the line that goes with a number of modes, or 0
    to L L          the links of the relay set, ascending, if any
    count N         how many they are
    sent W          what was written, with its CR LF, if anything was

(The program adds `spoiled` where a byte of the output behind that isn't as
before. It is never expected.) After each step the table is shown, refused or
not:

    links L L       the registered links, ascending, if any
    slot S time T name N modes M key K limit L
                    once for each used slot; the modes as their byte, key and
                    limit only if there is one
    member U S      once for each member of the slot: user id and status
    mask M          once for each mask of the slot's ban list

An empty line follows each record's.

What is below is made from the text of document 01 ("Reading one line",
"Names and ids", "SJOIN", "What goes out", "The numbers a caller may get") and
of document 02, sections 2, 4, 6 and 7, alone. It shares nothing with the
program that it judges. A mask is followed through all places of the text at
once, so that many stars (02, section 3) take no longer than few.
"""

import argparse
import re
import sys
from pathlib import Path
from typing import Dict, FrozenSet, Iterable, List, NamedTuple, Optional, Tuple

FOLDER = Path(__file__).resolve().parent
EXAMPLES = FOLDER / "examples.txt"
STDIN = FOLDER / "stdin"
STDOUT = FOLDER / "stdout"

LINE, NAME, SAME, MASK = b"line", b"name", b"same", b"mask"
OVER, LINK, DROP = b"over", b"link", b"drop"
HARM, BLOT = b"harm", b"blot"
TAKE, THIN = b"take", b"thin"
BANS, MELD = b"bans", b"meld"
STEPS = (OVER, LINK, DROP, HARM, BLOT, TAKE, THIN)

# Directives that have a word's name, and are followed by what is tried.
PLAIN = (NAME, SAME, MASK, OVER, LINK, DROP, HARM, BLOT, BANS, MELD)

# How many bytes of output are lent.
LENT = {TAKE: 600, THIN: 511}

CR_LF = b"\r\n"
LF = b"\n"
SPACE = b" "
COLON = b":"


# --- From examples.txt to lines ---------------------------------------------

ESCAPE = re.compile(rb"\\(x[0-9A-Fa-f]{2}|.?)")
SHORT_ESCAPES = {b"r": b"\r", b"0": b"\0", b"\\": b"\\"}


def escaped_byte(match) -> bytes:
    """Return the byte that one escape stands for."""
    name = match.group(1)
    if len(name) == 3:
        return bytes.fromhex(name[1:].decode("ascii"))
    if name not in SHORT_ESCAPES:
        raise ValueError(f"unknown escape in {match.string!r}")
    return SHORT_ESCAPES[name]


def unescape(text: bytes) -> bytes:
    r"""Replace the escapes \r, \0, \xHH and \\ by the bytes they stand for."""
    return ESCAPE.sub(escaped_byte, text)


def filled(size: bytes, byte: bytes, text: bytes, end: bytes) -> bytes:
    """Expand the '...' of a text to give it `size` bytes, its end counted.

    Several bytes are repeated in turn, the last time perhaps in part.
    """
    before, after = text.split(b"...")
    head, tail = unescape(before), unescape(after) + end
    missing = int(size) - len(head) - len(tail)
    if missing < 1:
        raise ValueError(f"no room to fill: {text!r}")
    return head + (missing * unescape(byte))[:missing] + tail


def filled_pair(arguments: bytes) -> bytes:
    """Expand 'N BYTE MASK TEXT', where one of the two has N bytes."""
    size, byte, *pair = arguments.split(SPACE)
    parts = [
        filled(size, byte, part, b"") if b"..." in part else unescape(part)
        for part in pair
    ]
    return SPACE.join(parts)


def crew(first: bytes, count: bytes, text: bytes) -> bytes:
    """Put user ids, by number from the first on, in the place of '...'."""
    before, after = text.split(b"...")
    numbers = range(int(first), int(first) + int(count))
    ids = SPACE.join(b"1ABA%05d" % number for number in numbers)
    return unescape(before) + ids + unescape(after)


class Record(NamedTuple):
    """What one entry gives: its word, and what it is tried on."""

    word: bytes
    text: bytes


def taken_line(directive: bytes, arguments: bytes) -> bytes:
    """Return the line that is taken by a directive, its end included."""
    if directive in (b"@take", b"@thin"):
        return unescape(arguments) + CR_LF
    if directive == b"@take-lf":
        return unescape(arguments) + LF
    if directive == b"@take-fill":
        return filled(*arguments.split(SPACE, 2), CR_LF)
    if directive == b"@take-crew":
        return crew(*arguments.split(SPACE, 2)) + CR_LF
    raise ValueError(f"unknown directive: {directive!r}")


def entry_record(entry: bytes) -> Record:
    """Return the record, its LF included, that an entry or directive gives."""
    if not entry.startswith(b"@"):
        return Record(LINE, unescape(entry) + CR_LF)
    directive, _, arguments = entry.partition(SPACE)
    if directive == b"@lf":
        return Record(LINE, unescape(arguments) + LF)
    if directive == b"@fill":
        return Record(LINE, filled(*arguments.split(SPACE, 2), CR_LF))
    if directive == b"@fill-lf":
        return Record(LINE, filled(*arguments.split(SPACE, 2), LF))
    if directive in (b"@fill-mask", b"@fill-bans"):
        return Record(directive[-4:], filled_pair(arguments) + LF)
    if directive[1:] in PLAIN:
        return Record(directive[1:], unescape(arguments) + LF)
    link, _, rest = arguments.partition(SPACE)
    line = taken_line(directive, rest)
    return Record(THIN if directive == b"@thin" else TAKE, link + SPACE + line)


def example_records(source: bytes) -> List[Record]:
    """Return all records of examples.txt, comments and empty lines left out."""
    entries = [text for text in source.split(LF) if text and text[:1] != b"#"]
    records = [entry_record(entry) for entry in entries]
    for record in records:
        if LF in record.text[:-1]:
            raise ValueError(f"LF inside a record: {record!r}")
    return records


# --- Reading one line -------------------------------------------------------

LONGEST_LINE = 512
MOST_PARAMETERS = 15
MOST_MIDDLES = 14
COMMAND = re.compile(rb"[A-Za-z]+|[0-9]{3}")
WORD = re.compile(rb"[^ ]+")


class Message(NamedTuple):
    """A line that was read. Without a prefix, `prefix` is None.

    `places` has where each parameter begins in the line, and then where CR LF
    stands; a message that is only to be written has none.
    """

    prefix: Optional[bytes]
    command: bytes
    parameters: List[bytes]
    places: Tuple[int, ...] = ()


class Refused(Exception):
    """What is refused, with the number that the documents give it.

    The place is that of what is wrong with modes, and 0 with any other number.
    """

    def __init__(self, number: int, place: int = 0):
        super().__init__(number, place)
        self.number = number
        self.place = place


def line_text(line: bytes) -> bytes:
    """Return what stands before CR LF, or refuse the line with 4 to 7."""
    if len(line) > LONGEST_LINE:
        raise Refused(4)
    if not line.endswith(CR_LF):
        raise Refused(5)
    text = line[:-len(CR_LF)]
    if b"\0" in text or b"\r" in text or b"\n" in text:
        raise Refused(6)
    if text == b"":
        raise Refused(7)
    return text


def split_prefix(text: bytes) -> Tuple[Optional[bytes], bytes]:
    """Part the prefix, if there is one, from the command and what follows."""
    if not text.startswith(COLON):
        return None, text
    prefix, _, after = text[1:].partition(SPACE)
    return prefix, after.lstrip(SPACE)


def split_parameters(rest: bytes) -> List[bytes]:
    """Return all parameters in the text after the command.

    What remains after fourteen middles is one, less a ':' at its start.
    """
    parameters = []
    rest = rest.lstrip(SPACE)
    while rest and not rest.startswith(COLON) and len(parameters) < MOST_MIDDLES:
        middle, _, rest = rest.partition(SPACE)
        parameters.append(middle)
        rest = rest.lstrip(SPACE)
    if rest:
        parameters.append(rest[1:] if rest.startswith(COLON) else rest)
    return parameters


def parameter_places(text: bytes) -> Tuple[int, ...]:
    """Return where each parameter of a text begins, and then its length."""
    words = list(WORD.finditer(text))[2 if text.startswith(COLON) else 1 :]
    places = []
    for word in words[:MOST_PARAMETERS]:
        trailing = word.group().startswith(COLON)
        places.append(word.start() + trailing)
        if trailing:
            break
    return (*places, len(text))


def read(line: bytes) -> Message:
    """Read one line, or refuse it with the lowest number that applies."""
    prefix, after_prefix = split_prefix(line_text(line))
    if prefix == b"":
        raise Refused(8)
    command, _, rest = after_prefix.partition(SPACE)
    if not COMMAND.fullmatch(command):
        raise Refused(9)
    places = parameter_places(line[: -len(CR_LF)])
    return Message(prefix, command, split_parameters(rest), places)


# --- Writing one line -------------------------------------------------------


def last_parameter(parameter: bytes, count: int) -> bytes:
    """Put ':' before the last parameter where the fixed form asks for it.

    Of a fifteenth parameter only the first byte counts.
    """
    judged = parameter[:1] if count == MOST_PARAMETERS else parameter
    if judged == b"" or judged.startswith(COLON) or SPACE in judged:
        return COLON + parameter
    return parameter


def write(message: Message) -> bytes:
    """Return a message's fixed form, without CR LF."""
    parts = []
    if message.prefix is not None:
        parts.append(COLON + message.prefix)
    parts.append(message.command)
    if message.parameters:
        parts.extend(message.parameters[:-1])
        last = last_parameter(message.parameters[-1], len(message.parameters))
        parts.append(last)
    return SPACE.join(parts)


# --- Names and masks --------------------------------------------------------

LONGEST_TEXT = 512
CHANNEL = re.compile(rb"#[^ \x07\0\r\n,]{1,49}")
SERVER_ID = re.compile(rb"[0-9][A-Z0-9]{2}")
USER_ID = re.compile(rb"[0-9][A-Z0-9]{2}[A-Z][A-Z0-9]{5}")
FOLD = bytes.maketrans(
    b"ABCDEFGHIJKLMNOPQRSTUVWXYZ[]\\~", b"abcdefghijklmnopqrstuvwxyz{}|^"
)


def places_after(
    byte: bytes, places: FrozenSet[int], text: bytes
) -> FrozenSet[int]:
    """Return the places of a text to which one more byte of a mask leads."""
    end = len(text) + 1
    if byte == b"*":
        return frozenset(range(min(places, default=end), end))
    single = (i for i in places if i < len(text))
    return frozenset(i + 1 for i in single if byte in (b"?", text[i : i + 1]))


def matches(mask: bytes, text: bytes) -> bool:
    """Match a mask, or refuse it or the text for its length."""
    if len(mask) > LONGEST_TEXT or len(text) > LONGEST_TEXT:
        raise Refused(23)
    mask, text = mask.translate(FOLD), text.translate(FOLD)
    places = frozenset({0})
    for i in range(len(mask)):
        places = places_after(mask[i : i + 1], places, text)
    return len(text) in places


# --- The table --------------------------------------------------------------

SLOTS = 16
LINKS = 32
SHORTEST_OUTPUT = 512


class Channel(NamedTuple):
    """A channel's record with its ban list, the masks in their order.

    `members` gives each user id its status.
    """

    name: bytes
    time: int
    modes: FrozenSet[int]
    key: Optional[bytes]
    limit: Optional[int]
    members: Dict[bytes, int]
    masks: Tuple[bytes, ...] = ()


class Table(NamedTuple):
    """The registered links, and the slots, a free one being None.

    `blotted` says that unused room of the first slot's ban list isn't zero.
    """

    links: FrozenSet[int]
    slots: Tuple[Optional[Channel], ...]
    blotted: bool = False


EMPTY = Table(frozenset(), SLOTS * (None,))


def check_table(table: Table) -> None:
    """Refuse a table that isn't well formed, by a name or by a blot."""
    if table.blotted:
        raise Refused(1)
    for channel in filter(None, table.slots):
        if not CHANNEL.fullmatch(channel.name):
            raise Refused(1)


def linked(table: Table, word: bytes, link: int) -> Table:
    """Register or drop a link, or refuse it."""
    check_table(table)
    if link >= LINKS:
        raise Refused(3)
    if word == LINK:
        return table._replace(links=table.links | {link})
    return table._replace(links=table.links - {link})


def slot_of(table: Table, name: bytes) -> Optional[int]:
    """Return the slot whose folded name equals a name's."""
    for place, channel in enumerate(table.slots):
        if channel and channel.name.translate(FOLD) == name.translate(FOLD):
            return place
    return None


def with_slot(table: Table, place: int, channel: Optional[Channel]) -> Table:
    """Return the table with another record in one slot."""
    slots = table.slots[:place] + (channel,) + table.slots[place + 1 :]
    return table._replace(slots=slots)


def without_member(table: Table, place: int, user: bytes) -> Table:
    """Return the table without a member of one slot, free if it's emptied."""
    channel = table.slots[place]
    members = {u: s for u, s in channel.members.items() if u != user}
    left = channel._replace(members=members) if members else None
    return with_slot(table, place, left)


def harmed(table: Table) -> Table:
    """Return the table with the first slot's name cut to one byte."""
    channel = table.slots[0]
    return with_slot(table, 0, channel._replace(name=channel.name[:1]))


# --- SJOIN ------------------------------------------------------------------

LATEST_TIME = 4294967295
LARGEST_LIMIT = 65535
MOST_MEMBERS = 64
MODES = b"imnpstkl"
VOICE, OPERATOR = 1, 2
NUMBER = re.compile(rb"0|[1-9][0-9]*")
KEY = re.compile(rb"(?!:)[!-+\--~]{1,23}")
ENTRY = re.compile(rb"(@?)(\+?)(" + USER_ID.pattern + rb")")


def number(text: bytes, largest: int, refusal: int) -> int:
    """Return a decimal without leading zeros, or refuse it."""
    if not NUMBER.fullmatch(text) or int(text) > largest:
        raise Refused(refusal)
    return int(text)


def letter_faults(letters: bytes, place: int) -> Dict[int, int]:
    """Return the number of each letter at fault, by its place in the line."""
    faults = {}
    for k, letter in enumerate(letters):
        if letter not in (MODES if k else b"+"):
            faults[place + k] = 32
        elif letter in letters[1:k]:
            faults[place + k] = 33
    return faults


def is_limit(text: bytes) -> bool:
    """Whether the text is a limit."""
    return bool(NUMBER.fullmatch(text)) and 1 <= int(text) <= LARGEST_LIMIT


def parameter_faults(message: Message, wanted: List[int]) -> Dict[int, int]:
    """Return the number of each parameter at fault, by its place in the line."""
    given, places = message.parameters[3:-1], message.places
    if len(given) > len(wanted):
        return {places[3 + len(wanted)]: 34}
    if len(given) < len(wanted):
        return {places[-1]: 34}
    faults = {}
    for letter, parameter, place in zip(wanted, given, places[3:]):
        if letter == ord("k") and not KEY.fullmatch(parameter):
            faults[place] = 35
        if letter == ord("l") and not is_limit(parameter):
            faults[place] = 36
    return faults


def read_modes(
    message: Message,
) -> Tuple[FrozenSet[int], Optional[bytes], Optional[int]]:
    """Return modes, key and limit, or refuse them by the earliest fault."""
    modes = message.parameters[2]
    wanted = [letter for letter in modes[1:] if letter in b"kl"]
    faults = letter_faults(modes, message.places[2])
    faults.update(parameter_faults(message, wanted))
    if faults:
        raise Refused(faults[min(faults)], min(faults))
    of = dict(zip(wanted, message.parameters[3:-1]))
    key, limit = of.get(ord("k")), of.get(ord("l"))
    return frozenset(modes[1:]), key, None if limit is None else int(limit)


def read_members(text: bytes) -> Dict[bytes, int]:
    """Return the members of a list, or refuse it with 18."""
    members: Dict[bytes, int] = {}
    for entry in filter(None, text.split(SPACE)):
        match = ENTRY.fullmatch(entry)
        if not match:
            raise Refused(18)
        operator, voice, user = match.groups()
        status = (OPERATOR if operator else 0) | (VOICE if voice else 0)
        members[user] = members.get(user, 0) | status
    if not members:
        raise Refused(18)
    return members


def read_join(message: Message) -> Channel:
    """Return the record that an SJOIN tells of, or refuse it.

    The numbers are 12 to 18, with 32 to 36 in the place of 17.
    """
    if not 4 <= len(message.parameters) <= 6:
        raise Refused(12)
    if not SERVER_ID.fullmatch(message.prefix or b""):
        raise Refused(13)
    time, name, *_, members = message.parameters
    when = number(time, LATEST_TIME, 14)
    if when == 0:
        raise Refused(15)
    if not CHANNEL.fullmatch(name):
        raise Refused(16)
    return Channel(name, when, *read_modes(message), read_members(members))


def merged_members(old: Channel, new: Channel) -> Dict[bytes, int]:
    """Return the members of both, each with the statuses that stand."""
    members = {}
    for user in old.members.keys() | new.members.keys():
        before, incoming = old.members.get(user, 0), new.members.get(user, 0)
        if new.time > old.time:
            members[user] = before
        elif new.time < old.time:
            members[user] = incoming
        else:
            members[user] = before | incoming
    if len(members) > MOST_MEMBERS:
        raise Refused(22)
    return members


def merged(old: Channel, new: Channel) -> Channel:
    """Merge an incoming record into the one that is there, or refuse it."""
    members = merged_members(old, new)
    if new.time > old.time:
        return old._replace(members=members)
    if new.time < old.time:
        return new._replace(name=old.name, members=members, masks=())
    return old._replace(
        modes=old.modes | new.modes,
        key=max(old.key or b"", new.key or b"") or None,
        limit=max(old.limit or 0, new.limit or 0) or None,
        members=members,
    )


def list_entry(user: bytes, status: int) -> bytes:
    """Return a member as an entry of a list."""
    operator = b"@" if status & OPERATOR else b""
    voice = b"+" if status & VOICE else b""
    return operator + voice + user


def join_message(prefix: bytes, result: Channel, new: Channel) -> Message:
    """Return the SJOIN that goes out for an incoming record."""
    later = new.time > result.time
    modes, given = b"+", []
    if not later:
        modes += bytes(letter for letter in MODES if letter in new.modes)
        given += [new.key] if new.key is not None else []
        given += [b"%d" % new.limit] if new.limit is not None else []
    members = SPACE.join(
        list_entry(user, 0 if later else status)
        for user, status in sorted(new.members.items())
    )
    time = b"%d" % result.time
    return Message(prefix, b"SJOIN", [time, result.name, modes, *given, members])


def take_join(table: Table, message: Message) -> Tuple[Table, Message]:
    """Return the table after an SJOIN and what goes out, or refuse it."""
    new = read_join(message)
    place = slot_of(table, new.name)
    if place is not None:
        result = merged(table.slots[place], new)
    elif None in table.slots:
        place, result = table.slots.index(None), new
    else:
        raise Refused(21)
    sent = join_message(message.prefix, result, new)
    return with_slot(table, place, result), sent


# --- Ban lists --------------------------------------------------------------

LONGEST_MASK = 100
MOST_MASKS = 32


def with_masks(masks: Iterable[bytes], more: Iterable[bytes]) -> Tuple[bytes, ...]:
    """Add masks to others, each fold once in its first spelling, or refuse."""
    spellings: Dict[bytes, bytes] = {}
    for mask in [*masks, *more]:
        spellings.setdefault(mask.translate(FOLD), mask)
    if len(spellings) > MOST_MASKS:
        raise Refused(27)
    return tuple(spellings[fold] for fold in sorted(spellings))


def take_masks(table: Table, message: Message) -> Tuple[Table, Optional[Message]]:
    """Return the table after a BMASK and what goes out, or refuse it.

    Nothing goes out of one that is later than its channel.
    """
    if len(message.parameters) != 4:
        raise Refused(12)
    if not SERVER_ID.fullmatch(message.prefix or b""):
        raise Refused(13)
    time, name, kind, text = message.parameters
    when = number(time, LATEST_TIME, 14)
    if when == 0:
        raise Refused(15)
    if not CHANNEL.fullmatch(name):
        raise Refused(16)
    masks = [mask for mask in text.split(SPACE) if mask]
    if kind != b"b" or not masks or max(map(len, masks)) > LONGEST_MASK:
        raise Refused(26)
    place = slot_of(table, name)
    if place is None:
        raise Refused(19)
    channel = table.slots[place]
    if when > channel.time:
        return table, None
    result = channel._replace(masks=with_masks(channel.masks, masks))
    return with_slot(table, place, result), message


def banned(table: Table, name: bytes, text: bytes) -> bool:
    """Tell whether a text is banned from a channel, or refuse the question."""
    check_table(table)
    if not CHANNEL.fullmatch(name):
        raise Refused(16)
    place = slot_of(table, name)
    if place is None:
        raise Refused(19)
    if len(text) > LONGEST_TEXT:
        raise Refused(23)
    return any(matches(mask, text) for mask in table.slots[place].masks)


def melded(table: Table) -> Channel:
    """Merge the second slot's record into the first one's, or refuse it."""
    first, second = table.slots[:2]
    if first is None or second is None or table.blotted:
        raise Refused(1)
    if not CHANNEL.fullmatch(first.name):
        raise Refused(1)
    result = merged(first, second)
    if first.time == second.time:
        return result._replace(masks=with_masks(first.masks, second.masks))
    return result._replace(masks=min(first, second, key=lambda c: c.time).masks)


# --- PART, QUIT, and taking a line ------------------------------------------


def take_part(table: Table, message: Message) -> Tuple[Table, Message]:
    """Return the table after a PART and what goes out, or refuse it."""
    if not 1 <= len(message.parameters) <= 2:
        raise Refused(12)
    user = message.prefix or b""
    if not USER_ID.fullmatch(user):
        raise Refused(13)
    name = message.parameters[0]
    if not CHANNEL.fullmatch(name):
        raise Refused(16)
    place = slot_of(table, name)
    if place is None:
        raise Refused(19)
    if user not in table.slots[place].members:
        raise Refused(20)
    return without_member(table, place, user), message


def take_quit(table: Table, message: Message) -> Tuple[Table, Message]:
    """Return the table after a QUIT and what goes out, or refuse it."""
    if len(message.parameters) > 1:
        raise Refused(12)
    user = message.prefix or b""
    if not USER_ID.fullmatch(user):
        raise Refused(13)
    for place, channel in enumerate(table.slots):
        if channel and user in channel.members:
            table = without_member(table, place, user)
    return table, message


COMMANDS = {
    b"SJOIN": take_join,
    b"PART": take_part,
    b"QUIT": take_quit,
    b"BMASK": take_masks,
}


class Taken(NamedTuple):
    """What comes of a line: the table, the relay set and what goes out."""

    table: Table
    relayed: FrozenSet[int]
    sent: bytes


def take(table: Table, link: int, line: bytes, lent: int) -> Taken:
    """Take a line from a link, or refuse it with the first number in order."""
    check_table(table)
    if lent < SHORTEST_OUTPUT:
        raise Refused(2)
    if link >= LINKS or link not in table.links:
        raise Refused(3)
    message = read(line)
    command = message.command.upper()
    if command not in COMMANDS:
        raise Refused(11)
    after, sent = COMMANDS[command](table, message)
    if sent is None:
        return Taken(after, frozenset(), b"")
    return Taken(after, table.links - {link}, write(sent._replace(command=command)))


# --- The two files ----------------------------------------------------------


def answer(label: bytes, yes: object) -> bytes:
    """Return one line of output that answers yes or no."""
    return label + (b" yes" if yes else b" no")


def refused(refusal: Refused) -> bytes:
    """Return one line of output that gives a refusal's number."""
    return b"refused %d" % refusal.number


def message_report(message: Message) -> List[bytes]:
    """Return the output lines for a line that is read."""
    capitals = message._replace(command=message.command.upper())
    report = [b"read %d" % len(message.parameters)]
    if message.prefix is not None:
        report.append(b"prefix " + message.prefix)
    report.append(b"command " + message.command)
    report.extend(b"param " + parameter for parameter in message.parameters)
    report.append(b"written " + write(message))
    report.append(b"forwarded " + write(capitals))
    return report


def report(record: Record) -> List[bytes]:
    """Return the output lines for one record, or refuse it."""
    if record.word == LINE:
        return message_report(read(record.text))
    text = record.text[: -len(LF)]
    if record.word == NAME:
        return [
            answer(b"channel", CHANNEL.fullmatch(text)),
            answer(b"server", SERVER_ID.fullmatch(text)),
            answer(b"user", USER_ID.fullmatch(text)),
        ]
    first, _, second = text.partition(SPACE)
    if record.word == SAME:
        return [answer(b"same", first.translate(FOLD) == second.translate(FOLD))]
    return [answer(b"match", matches(first, second))]


def show_links(label: bytes, links: FrozenSet[int]) -> bytes:
    """Return one line of output with the links of a set, ascending."""
    return SPACE.join([label, *(b"%d" % link for link in sorted(links))])


def slot_report(place: int, channel: Channel) -> List[bytes]:
    """Return the output lines for a used slot."""
    modes = sum(1 << MODES.index(letter) for letter in channel.modes)
    parts = [b"slot %d time %d" % (place, channel.time)]
    parts.append(b"name %s modes %d" % (channel.name, modes))
    if channel.key is not None:
        parts.append(b"key " + channel.key)
    if channel.limit is not None:
        parts.append(b"limit %d" % channel.limit)
    members = sorted(channel.members.items())
    report = [SPACE.join(parts)] + [b"member %s %d" % member for member in members]
    return report + [b"mask " + mask for mask in channel.masks]


def table_report(table: Table) -> List[bytes]:
    """Return the output lines for the table."""
    report = [show_links(b"links", table.links)]
    for place, channel in enumerate(table.slots):
        if channel:
            report.extend(slot_report(place, channel))
    return report


def taken_report(place: int, relayed: FrozenSet[int], sent: bytes) -> List[bytes]:
    """Return the output lines for the place, what goes out, and where to."""
    report = [b"at %d" % place, show_links(b"to", relayed)]
    report.append(b"count %d" % len(relayed))
    return report + ([b"sent " + sent + b"\r"] if sent else [])


def take_step(table: Table, record: Record) -> Tuple[Table, List[bytes]]:
    """Return the table after a line is taken, and what is answered."""
    link, _, line = record.text.partition(SPACE)
    try:
        taken = take(table, int(link), line, LENT[record.word])
    except Refused as refusal:
        nothing = taken_report(refusal.place, frozenset(), b"")
        return table, [refused(refusal), *nothing]
    return taken.table, [b"done", *taken_report(0, taken.relayed, taken.sent)]


def link_step(table: Table, record: Record) -> Tuple[Table, List[bytes]]:
    """Return the table after a link changes, and what is answered."""
    try:
        return linked(table, record.word, int(record.text)), [b"done"]
    except Refused as refusal:
        return table, [refused(refusal)]


def step(table: Table, record: Record) -> Tuple[Table, List[bytes]]:
    """Return the table after a step, and what is answered."""
    if record.word in LENT:
        return take_step(table, record)
    if record.word in (LINK, DROP):
        return link_step(table, record)
    if record.word == BLOT:
        return table._replace(blotted=True), []
    return (EMPTY if record.word == OVER else harmed(table)), []


def meld_report(table: Table) -> List[bytes]:
    """Return the output lines for a merge, the first record if it's refused."""
    try:
        outcome, result = b"done", melded(table)
    except Refused as refusal:
        outcome, result = refused(refusal), table.slots[0]
    return [outcome] + (slot_report(0, result) if result else [])


def answers(table: Table, record: Record) -> List[bytes]:
    """Return the output lines for a record that leaves the table alone."""
    if record.word == MELD:
        return meld_report(table)
    try:
        if record.word == BANS:
            name, _, text = record.text[: -len(LF)].partition(SPACE)
            return [answer(b"banned", banned(table, name, text))]
        return report(record)
    except Refused as refusal:
        return [refused(refusal)]


def outputs(records: Iterable[Record]) -> Iterable[bytes]:
    """Yield the output for each record and the empty line after it."""
    table = EMPTY
    for record in records:
        if record.word in STEPS:
            table, lines = step(table, record)
            lines += table_report(table)
        else:
            lines = answers(table, record)
        yield LF.join(lines) + LF + LF


def made_files() -> Dict[Path, bytes]:
    """Return the contents that `stdin` and `stdout` must have."""
    records = example_records(EXAMPLES.read_bytes())
    return {
        STDIN: b"".join(r.word + SPACE + r.text for r in records),
        STDOUT: b"".join(outputs(records)),
    }


def differing(files: Dict[Path, bytes]) -> List[str]:
    """Return the names of those files that are missing or not as given."""
    return [
        path.name
        for path, contents in files.items()
        if not path.exists() or path.read_bytes() != contents
    ]


def main() -> int:
    """Write the two files, or with --check compare them."""
    parser = argparse.ArgumentParser(description=__doc__.splitlines()[0])
    parser.add_argument("--check", action="store_true", help="only compare")
    check = parser.parse_args().check

    files = made_files()
    if not check:
        for path, contents in files.items():
            path.write_bytes(contents)
        return 0
    names = differing(files)
    for name in names:
        print(f"{name} isn't what examples.txt gives", file=sys.stderr)
    return 1 if names else 0


if __name__ == "__main__":
    sys.exit(main())
