/* SPDX-License-Identifier: Apache-2.0 */
/*
 * The relay core, for programs in C and C++ on x86-64 Linux.
 *
 * Build:  (cd crates/capi && rt lib)          proves the core and writes crates/capi/out/libcapi.a
 *         cc -Iinclude yours.c crates/capi/out/libcapi.a
 *
 * What it is. The relay holds one table: sixteen channels, each with its ban list, and the registered links, numbered 0 to 31. You hand
 * it each line that comes in by a link; it folds the line into the table and answers the line to send on, and to which links. A feeder,
 * one for each link, makes lines of the bytes that come in, however they are cut. The relay reads and writes no socket and no file, has
 * no heap, no globals and no threads: every answer depends on the arguments alone, so calls may run side by side as long as nothing that
 * one of them writes is read or written by another. Allow RELAY_STACK bytes of stack, 128 KB, for a call of any function here, its
 * arguments and its answer included; the benchmark in rust/ prints how much each takes. A table, 64 KB of it, lies where you put it.
 *
 *     if (!relay_layout_matches()) abort();            -- once, before the first call
 *     static relay_table table;
 *     relay_table_clear(&table);
 *     relay_table_register(&table, 3);
 *     relay_feeder feeder = relay_empty_feeder();      -- what link 3 has sent of a line that isn't whole yet
 *
 *     relay_bytes bytes = relay_bytes_of(got, length); -- whenever some have come in by link 3
 *     relay_fed fed;
 *     uint8_t out[RELAY_LINE];
 *     while (relay_next_line(&feeder, &bytes, &fed)) {
 *         if (fed.number != RELAY_ACCEPTED) continue;  -- a line over 512 bytes, which is dropped
 *         relay_answer answer = relay_table_take(&table, 3, relay_bytes_of(fed.line, fed.len), relay_room_of(out, sizeof out));
 *         if (answer.number == RELAY_ACCEPTED)
 *             for (uint32_t link = 0; link < RELAY_LINKS; link++)
 *                 if (answer.set >> link & 1) send_to(link, out, answer.len);
 *     }
 *
 * A day log, the records of `relay_log` one after the other, is read back by `relay_read_record`, and `relay_replay` makes its table anew.
 *
 * What it promises. Any bytes, on any link, with any table, get one answer. Bad input is refused by one of the numbers below, the first
 * in their order that applies; then nothing is changed: table and feeder are as before, every lent buffer too, the ban lists byte for
 * byte, and sets, counts and lengths are 0. (The 4 that a feeder yields in the place of a line refuses that line and not the call; where a
 * replay is stopped, what was taken before stays.) What is accepted puts its output at the front of the lent room and leaves the rest of
 * the room as it was. These promises are proved of the library's source; this header is not part of the proof, so
 * `relay_layout_matches` compares it with what the library says of its structs.
 *
 * What you owe it.
 *  - A pointer is never NULL, not even with the length 0 (`relay_bytes_of` and `relay_room_of` see to that), and as many bytes as the
 *    length says can be read there; of a relay_room they can be written too. The ban lists that go with a head are a plain pointer to
 *    RELAY_BANS bytes, without a length: so many can be read there, and written where the pointer isn't one to const.
 *  - The room that a call writes, and the lists that it may write, overlap neither each other nor the bytes that it reads, and nothing
 *    else writes any of them during the call. So a mask of the table is copied before it goes into a line for that table.
 *  - A bool is 0 or 1, as C's own are. Everything else may hold any value, tables, feeders and logs from disk too: what is bad, and a
 *    length that is too large, is refused by a number.
 *
 * The words. A link is a connection to another relay. A line is what came in, CR LF included. SPACE is the byte 32.
 */
#ifndef RELAY_H
#define RELAY_H

#include <stdbool.h>
#include <stddef.h>
#include <stdint.h>
#include <string.h>

#ifdef __cplusplus
extern "C" {
#endif

/* The version of the whole project, as the file VERSION has it. */
#define RELAY_VERSION "0.10.0"

/* The bytes of stack that are enough for a call. */
#define RELAY_STACK 131072

/* ---- limits ---- */

enum {
    RELAY_LINE = 512,    /* the most bytes of a line, CR LF counted; the least room for one to be written */
    RELAY_PARAMS = 15,   /* the most parameters of a line */
    RELAY_TEXT = 512,    /* the most bytes of a mask, and of a text that it is tried on */
    RELAY_NAME = 50,     /* the most bytes of a channel name, '#' counted */
    RELAY_KEY = 23,      /* the most bytes of a channel's key */
    RELAY_USER_ID = 9,   /* the bytes of a user id */
    RELAY_MEMBERS = 64,  /* the most members of a channel */
    RELAY_SLOTS = 16,    /* the channels of a table */
    RELAY_MASKS = 32,    /* the most masks of a channel's ban list */
    RELAY_MASK = 100,    /* the most bytes of such a mask */
    RELAY_LIST = 3233,   /* the bytes of a ban list */
    RELAY_BANS = 51728,  /* the bytes of the ban lists of a table, one for each slot */
    RELAY_LINKS = 32,    /* links are numbered from 0 to one below this */
    RELAY_LOG_HEAD = 5,  /* a day-log record is this much longer than its line */
    RELAY_DESCRIPTION = 869,  /* the most bytes of a record's text: room for them is always enough */
    RELAY_REFUSAL_TEXT = 48   /* the most bytes of a refusal's words */
};

/* ---- the numbers of refusals ---- */

/*
 * Where several apply, the first in this order is given: 1 to 9, 11 to 16, 32 to 36, 18, 26, 19 to 22, 27, 23 to 25. So what a line says
 * by itself is judged before its channel is looked for, and what would result after that. Of 32 to 36, which are of an SJOIN's modes, the
 * earliest place in the line decides, not their order; `relay_taken` has the place. 28 to 31 stand apart: they are a day log's, and of
 * these the first byte at fault decides.
 */
enum {
    RELAY_ACCEPTED = 0,
    RELAY_NOT_WELL_FORMED = 1,     /* table or record not well formed, its ban lists included; a feeder that no bytes reach */
    RELAY_OUTPUT_TOO_SHORT = 2,    /* lent output under 512 bytes */
    RELAY_BAD_LINK = 3,            /* link above 31, or, of a line that is taken, not registered */
    RELAY_LINE_TOO_LONG = 4,       /* line over 512 bytes; a feeder yields it in the line's place */
    RELAY_NO_LINE_END = 5,         /* no CR LF at the end */
    RELAY_FORBIDDEN_BYTE = 6,      /* NUL, CR or LF before it */
    RELAY_EMPTY_LINE = 7,          /* only CR LF */
    RELAY_EMPTY_PREFIX = 8,        /* prefix empty */
    RELAY_BAD_COMMAND = 9,         /* command malformed or missing */
    RELAY_TOO_MANY_PARAMS = 10,    /* no longer given since 0.10.0; what follows fourteen parameters is the fifteenth, however many words */
    RELAY_UNKNOWN_COMMAND = 11,    /* command not SJOIN, PART, QUIT or BMASK */
    RELAY_WRONG_PARAM_COUNT = 12,  /* parameters not 4 to 6 (SJOIN), 1 to 2 (PART), 0 to 1 (QUIT), 4 (BMASK) */
    RELAY_BAD_SOURCE = 13,         /* prefix missing or not a server id (SJOIN, BMASK), user id (PART, QUIT) */
    RELAY_BAD_TIME = 14,           /* time malformed or over 4294967295 */
    RELAY_ZERO_TIME = 15,          /* time is 0 */
    RELAY_BAD_NAME = 16,           /* bad channel name; names of two records that are merged differ */
    RELAY_BAD_MODES = 17,          /* no longer given since 0.9.0; 32 to 36 have taken its place */
    RELAY_BAD_MEMBERS = 18,        /* bad member list */
    RELAY_NO_SUCH_CHANNEL = 19,    /* channel not in the table (PART, BMASK, finding one, asking for a ban) */
    RELAY_NOT_ON_CHANNEL = 20,     /* user not in it (PART) */
    RELAY_NO_FREE_SLOT = 21,       /* new channel, and all sixteen slots used */
    RELAY_TOO_MANY_MEMBERS = 22,   /* more than 64 members would result */
    RELAY_TEXT_TOO_LONG = 23,      /* mask or text over 512 bytes */
    RELAY_UNWRITABLE = 24,         /* message that would not read back as it was, or with parts outside the lent bytes */
    RELAY_NO_ROOM = 25,            /* written line over 512 bytes; log buffer shorter than the line and 5; output shorter than a record's text */
    RELAY_BAD_MASKS = 26,          /* type not b, no mask in the list, or one over 100 bytes (BMASK) */
    RELAY_TOO_MANY_MASKS = 27,     /* more than 32 masks would result, by BMASK or by merging */
    RELAY_NO_MARK = 28,            /* the day log has no mark where a record begins */
    RELAY_BAD_LOG_LINK = 29,       /* the link of a record of the day log is above 31 */
    RELAY_BAD_LOG_LENGTH = 30,     /* the length of a record of the day log is over 512 */
    RELAY_LOG_CUT = 31,            /* the day log ends inside a record */
    RELAY_UNKNOWN_MODE = 32,       /* a mode letter is unknown, or no '+' stands first (SJOIN, as the four below) */
    RELAY_MODE_TWICE = 33,         /* a mode letter, one of the eight, stands twice */
    RELAY_WRONG_MODE_PARAMS = 34,  /* the parameter of a mode letter is missing, or there are too many */
    RELAY_BAD_KEY = 35,            /* key not 1 to 23 bytes of 33 to 126 without comma */
    RELAY_BAD_LIMIT = 36           /* limit not 1 to 65535, or with leading zeros */
};

/* Words for people, the rest of the room zero. */
typedef struct relay_text {
    uint8_t bytes[RELAY_REFUSAL_TEXT];
    size_t len;
} relay_text;

/* The words of a number of the list above, as "user not in it" of 20; no words of 0, of 10, of 17 and of any other number. */
relay_text relay_refusal_text(uint8_t number);

/* ---- lent bytes ---- */

/* Bytes that a call reads. */
typedef struct relay_bytes {
    const uint8_t *ptr;
    size_t len;
} relay_bytes;

/* Bytes that a call may write. */
typedef struct relay_room {
    uint8_t *ptr;
    size_t len;
} relay_room;

/* ---- lines ---- */

/* A part of some bytes: from start up to, not including, end. */
typedef struct relay_span {
    size_t start;
    size_t end;
} relay_span;

/*
 * A message as parts of some bytes. The params from `count` on, and the prefix where has_prefix is false, are no parts; the reader
 * makes them the empty span at the end of the line, and the writer doesn't look at them.
 */
typedef struct relay_message {
    bool has_prefix;
    relay_span prefix;   /* without its ':' */
    relay_span command;
    size_t count;
    relay_span params[RELAY_PARAMS];
} relay_message;

/* The count of parameters of a line, or the number of its refusal. */
typedef struct relay_line_read {
    uint8_t number;
    size_t count;
} relay_line_read;

/* How many bytes stand at the front of the lent output, or the number of a refusal. */
typedef struct relay_written {
    uint8_t number;
    size_t len;
} relay_written;

/* Whether a mask matches; no where it is refused. */
typedef struct relay_matched {
    uint8_t number;
    bool yes;
} relay_matched;

/*
 * Reads a line by RFC 1459's grammar, and the fifteenth parameter by RFC 2812's: after fourteen parameters, none with ':' before it, and
 * the SPACEs that follow, all that remains is the fifteenth, SPACEs at its end too, less one ':' if it begins with one. Where nothing
 * remains there are fourteen. Numbers 4 to 9.
 */
relay_line_read relay_read(relay_bytes line);

/* The parts of a line, by their places. Of a line that isn't read each is the empty span at its end, and the count is 0. */
relay_message relay_parts(relay_bytes line);

/*
 * Writes the message whose parts are spans of `text`: one SPACE between parts, ':' before the last parameter exactly if it is empty,
 * starts with ':' or holds a SPACE, before a fifteenth exactly if it is empty or starts with ':' or SPACE, CR LF at the end. The command
 * is written as it is spelled. Numbers 2, 24, 25.
 */
relay_written relay_write(relay_bytes text, relay_message message, relay_room out);

/* ---- bytes to lines ---- */

/*
 * The line under way: what is kept of it until its LF comes. Bytes reach exactly these from the empty one: 0 to 512 bytes kept, none of
 * them LF, and not dropping; or dropping, and none kept; all room past the length zero. The empty one is all zero.
 */
typedef struct relay_feeder {
    uint8_t bytes[RELAY_LINE];
    size_t len;
    bool dropping;  /* the line is too long, and what is left of it is dropped */
} relay_feeder;

/*
 * What came of bytes that were fed: the feeder after, how many bytes were used, and what they yielded. It is a line where len is not 0,
 * with its LF, and its CR if one came, the rest of the room zero; a refusal where the number is 4; else nothing.
 */
typedef struct relay_fed {
    relay_feeder state;
    size_t used;
    uint8_t line[RELAY_LINE];
    size_t len;
    uint8_t number;
} relay_fed;

/* Nothing kept: where a link begins, and begins anew. */
relay_feeder relay_empty_feeder(void);

/*
 * Feeds bytes as they came in, up to and with the first that yields something, else all of them; `relay_next_line` makes a loop of it.
 * LF ends a line, and the line is yielded, with or without a CR before it: `relay_read` gives 5 without one. The 513th byte of a line, LF
 * or not, yields one refusal by 4, and the line is dropped up to and with its LF: the line is refused and not the call, and the feeder
 * moves on. What is yielded, and what is kept at the end, depends on the bytes alone and never on how they are cut. Number 1 for a feeder
 * that no bytes reach: it is as given then, and no byte is used.
 */
relay_fed relay_feed(relay_feeder state, relay_bytes bytes);

/* ---- names, masks and keys: any bytes ---- */

/* Whether two names are equal, without regard to case; '[', ']', '\' and '~' are the capitals of '{', '}', '|' and '^'. */
bool relay_same_name(relay_bytes a, relay_bytes b);

/*
 * Whether a mask matches a text: '?' matches one byte, '*' any run, the empty one too, every other byte as in names. Number 23. However many
 * stars the mask has, (its length + 1) * (the text's length + 1) steps always reach the answer, and no step looks at more than one byte of
 * the mask and one of the text.
 */
relay_matched relay_match(relay_bytes mask, relay_bytes text);

/* Whether the second key is the greater one: by the first byte that differs, unsigned; a proper beginning is smaller. */
bool relay_key_less(relay_bytes a, relay_bytes b);

/* ---- channels ---- */

/* The bits of relay_record.modes and relay_member.status. */
enum {
    RELAY_MODE_I = 1,
    RELAY_MODE_M = 2,
    RELAY_MODE_N = 4,
    RELAY_MODE_P = 8,
    RELAY_MODE_S = 16,
    RELAY_MODE_T = 32,
    RELAY_MODE_K = 64,   /* there is a key */
    RELAY_MODE_L = 128,  /* there is a limit */

    RELAY_VOICE = 1,
    RELAY_OPERATOR = 2
};

/* A user in a channel. */
typedef struct relay_member {
    uint8_t id[RELAY_USER_ID];
    uint8_t status;
} relay_member;

/*
 * A channel, its ban list apart. It is well formed if: the time is not 0; the name is '#' and 1 to 49 bytes other than SPACE, BELL, NUL,
 * CR, LF and comma; with mode k there is a key of 1 to 23 bytes from 33 to 126, no comma, not starting with ':', without it key_len is 0;
 * with mode l the limit is not 0, without it it is; there are 1 to 64 members, ids strictly ascending, each a digit, two of A to Z or 0
 * to 9, one of A to Z, five of A to Z or 0 to 9, each status at most 3; and all unused room is zero.
 */
typedef struct relay_record {
    uint8_t name[RELAY_NAME];
    size_t name_len;
    uint32_t time;
    uint8_t modes;
    uint8_t key[RELAY_KEY];
    size_t key_len;
    uint16_t limit;
    relay_member members[RELAY_MEMBERS];
    size_t count;
} relay_record;

/*
 * The masks of those who are kept off a channel: a byte with the number of masks, then room for 32 of them, each a byte with the mask's
 * length and 100 bytes. It is well formed if there are at most 32 masks, each of 1 to 100 bytes other than SPACE, NUL, CR and LF; they
 * ascend strictly by their folds, which are the masks in small letters as in `relay_same_name`, by the first byte that differs, unsigned,
 * a proper beginning being smaller; and all unused room is zero. The list without masks is all zero. `relay_list_mask` and `relay_mask`
 * read it.
 */
typedef struct relay_ban_list {
    uint8_t room[RELAY_LIST];
} relay_ban_list;

/* A channel with its ban list. It is well formed if both are. */
typedef struct relay_whole_record {
    relay_record record;
    relay_ban_list bans;
} relay_whole_record;

/* The merged record; the first one as given where it is refused. */
typedef struct relay_merged {
    uint8_t number;
    relay_whole_record result;
} relay_merged;

/*
 * Merges two records of one channel, the first one's spelling kept. At the earlier of the two times: that record's modes, key, limit,
 * statuses and masks, everyone of both; at equal times they are united, the greater key and the larger limit winning, and of masks with
 * equal folds the first record's. Numbers 1, 16, 22, 27.
 */
relay_merged relay_merge(relay_whole_record first, relay_whole_record second);

/*
 * Writes a record as a text to the front of `out`: time, name, modes, key and limit where there are any, and members, one SPACE between
 * them, as they stand in an SJOIN; no ':' and no CR LF. RELAY_DESCRIPTION bytes are always room enough. Numbers 1, 25.
 */
relay_written relay_describe(relay_record record, relay_room out);

/* ---- the table ---- */

/* The registered links, link n as the bit n. */
typedef struct relay_links {
    uint32_t set;
} relay_links;

/* What of a table goes by value: the channels, their ban lists apart, and the links. */
typedef struct relay_head {
    relay_record slots[RELAY_SLOTS];
    relay_links links;
} relay_head;

/*
 * All that the relay holds: the head, and the ban list of slot k from byte k * RELAY_LIST on. It is well formed if each slot is all zero
 * (free), its list too, or holds a well-formed record (count is not 0) with a well-formed list, and no two of those have equal names.
 * Every set of links is well formed. The empty table is all zero.
 *
 * The library's functions take a head by value and the lists by a plain pointer to RELAY_BANS bytes, which may lie anywhere; the inline
 * functions below take the whole by its pointer.
 */
typedef struct relay_table {
    relay_head head;
    uint8_t bans[RELAY_BANS];
} relay_table;

/* The head after, or as given where it is refused. */
typedef struct relay_registered {
    relay_head head;
    uint8_t number;
} relay_registered;

/*
 * The answer to a line: the head after, the length of the line to send, the place in the line that is at fault, the links that it goes to
 * and how many they are. `relay_process` tells what the place is.
 */
typedef struct relay_taken {
    relay_head head;
    size_t len;
    size_t place;
    uint32_t set;
    uint32_t count;
    uint8_t number;
} relay_taken;

/* The slot that holds a channel; 0 where it is refused. */
typedef struct relay_found {
    uint8_t number;
    size_t slot;
} relay_found;

/* Whether a text is banned; no where it is refused. */
typedef struct relay_banned {
    uint8_t number;
    bool yes;
} relay_banned;

/* Every slot free, no link registered; and every byte of the lists is made zero, whatever was there. */
relay_head relay_empty_head(uint8_t *bans);

/* Registers or drops a link; the channels stay, and doing so twice changes nothing more. Numbers 1, 3. */
relay_registered relay_register(relay_head head, const uint8_t *bans, uint32_t link);
relay_registered relay_unregister(relay_head head, const uint8_t *bans, uint32_t link);

/*
 * The slot that holds the channel of a name, without regard to case. Any bytes are a name here and any head will do; where two slots
 * hold the name, which no well-formed table has, the lower one. Number 19.
 */
relay_found relay_find(relay_head head, relay_bytes name);

/*
 * Whether a text is banned from the channel of a name: whether some mask of its list matches the whole text, as `relay_match` does. The
 * empty text is one too. Numbers 1, 16, 19, 23.
 */
relay_banned relay_is_banned(relay_head head, const uint8_t *bans, relay_bytes name, relay_bytes text);

/*
 * Takes a line that came in by a link:
 *     :sid SJOIN time name modes [key] [limit] list     the users join, and times decide whose modes and statuses stand; an earlier
 *                                                       time than the channel's empties its ban list
 *     :uid PART name [reason]                           the user leaves the channel
 *     :uid QUIT [reason]                                the user leaves every channel
 *     :sid BMASK time name b list                       the masks are added to the channel's ban list
 * and writes the line to send on to the front of `out`. It goes to every registered link but the one it came by. A channel whose last
 * user leaves is gone, and its list with it. A BMASK that is later than its channel is accepted and goes nowhere: nothing is changed or
 * written, and set, count and len are 0. Numbers 1 to 9, 11 to 16, 18 to 22, 26, 27, 32 to 36.
 *
 * With 32 to 36 the place is where in the line, counted from 0 at its first byte, what is at fault begins: an unknown letter, or the first
 * byte of modes that don't begin with '+' (32); the second of a letter that stands twice (33); the first of the parameters that are too
 * many before the list or, where one is missing, the line's end before its CR LF (34); the key (35); the limit (36). Key and limit are
 * judged only if there are as many parameters as the letters ask for. The place is over 0 and at most the line's length less 2. With every
 * other number, and where the line is accepted, it is 0.
 *
 * The link comes last: so no pointer is parted from its length where the registers for arguments end.
 */
relay_taken relay_process(relay_head head, uint8_t *bans, relay_bytes line, relay_room out, uint32_t link);

/* ---- the day log ---- */

/* The size of the record at the front of the log buffer, or the number of a refusal. */
typedef struct relay_logged {
    uint8_t number;
    size_t size;
} relay_logged;

/*
 * Writes a day-log record of a line as it was received: the bytes 73 and 82, the link, the length as two bytes, high one first, and the
 * line. Any bytes are taken, and any link from 0 to 31. Numbers 3, 4, 25.
 */
relay_logged relay_log(uint32_t link, relay_bytes line, relay_room log);

/*
 * What stands at a place of a day log. A record where `found` is true: the link that its line came by, and the part of the log that is
 * the line; the next record stands at line.end. The end of the log where `found` is false and the number is 0. Else a fault: its number,
 * and the place in the log of the first byte at fault, or, of 31, the log's end. All else is 0.
 */
typedef struct relay_record_read {
    relay_span line;
    size_t place;
    uint32_t link;
    uint8_t number;
    bool found;
} relay_record_read;

/*
 * Reads the record that stands at a place of a day log, which may have any length and hold any bytes; at its length and beyond is its end.
 * The first byte at fault decides: a byte of the mark that isn't 73 or 82 (28), a link above 31 (29), a length over 512 (30), whose place
 * is that of its first byte and which is told only where both are there. Where no byte that is there is at fault, but the log ends inside
 * the record: 31, and the place is the log's length. A length of 0 is a record too. Numbers 28 to 31.
 *
 * It looks at 517 bytes from there at most, RELAY_LOG_HEAD and RELAY_LINE. So a log can be read piece by piece: but for the end and 31,
 * which may only say that the piece ends, more bytes behind a piece change no answer.
 */
relay_record_read relay_read_record(relay_bytes log, size_t at);

/* ---- the layout of the structs ---- */

/*
 * The library's own view of the structs above: number 0 is how many follow; then, for each struct in the order of the list in
 * `relay_layout_matches`, the place and the size of each field, and the struct's own size; 0 past the last.
 */
size_t relay_layout(size_t k);

/* ---- inline: lent bytes ---- */

/* Bytes to read. NULL is fine with the length 0. */
static inline relay_bytes relay_bytes_of(const void *ptr, size_t len)
{
    static const uint8_t none = 0;
    relay_bytes bytes;
    bytes.ptr = ptr != NULL ? (const uint8_t *)ptr : &none;
    bytes.len = len;
    return bytes;
}

/* Room to write. NULL is fine with the length 0. */
static inline relay_room relay_room_of(void *ptr, size_t len)
{
    static uint8_t none;
    relay_room room;
    room.ptr = ptr != NULL ? (uint8_t *)ptr : &none;
    room.len = len;
    return room;
}

/* ---- inline: parts of a line ---- */

/* A part of some bytes; the span must lie in them, as those of `relay_parts` lie in its line. */
static inline relay_bytes relay_part(relay_bytes bytes, relay_span span)
{
    return relay_bytes_of(bytes.ptr + span.start, span.end - span.start);
}

/*
 * The prefix, the command, the parameter k (counted from 0) of a line. One that is missing, and any of a line that isn't read, is the
 * empty part at the line's end; `relay_parts` tells it from an empty parameter. Each call reads the line: for several parts of one line
 * call `relay_parts` once.
 */
static inline relay_bytes relay_prefix(relay_bytes line)
{
    return relay_part(line, relay_parts(line).prefix);
}

static inline relay_bytes relay_command(relay_bytes line)
{
    return relay_part(line, relay_parts(line).command);
}

static inline relay_bytes relay_param(relay_bytes line, size_t k)
{
    if (k >= RELAY_PARAMS)
        return relay_bytes_of(line.ptr + line.len, 0);
    return relay_part(line, relay_parts(line).params[k]);
}

/* ---- inline: the next line ---- */

/*
 * As `relay_feed`, for a loop: moves the feeder on, takes the used bytes off the front and says whether something was yielded, a line
 * where fed->number is 0 and else a refusal by 4. It says no when the bytes are used up; and at once, fed->number being 1, of a feeder
 * that no bytes reach.
 */
static inline bool relay_next_line(relay_feeder *feeder, relay_bytes *bytes, relay_fed *fed)
{
    *fed = relay_feed(*feeder, *bytes);
    *feeder = fed->state;
    bytes->ptr += fed->used;
    bytes->len -= fed->used;
    return fed->len != 0 || fed->number == RELAY_LINE_TOO_LONG;
}

/* ---- inline: the greater of two keys ---- */

/* The very bytes that were lent, not a copy; the first key where they are equal. */
static inline relay_bytes relay_greater_key(relay_bytes a, relay_bytes b)
{
    return relay_key_less(a, b) ? b : a;
}

/* ---- inline: the masks of a ban list ---- */

static inline size_t relay_at_most(size_t most, size_t n)
{
    return n < most ? n : most;
}

/* How many masks a list of RELAY_LIST bytes has: at most 32, whatever the bytes. */
static inline size_t relay_list_count(const uint8_t *list)
{
    return relay_at_most(RELAY_MASKS, list[0]);
}

/* The mask i of a list, counted from 0; no bytes where there is none. It lies in the list, whatever the bytes. */
static inline relay_bytes relay_list_mask(const uint8_t *list, size_t i)
{
    const uint8_t *room;
    if (i >= relay_list_count(list))
        return relay_bytes_of(NULL, 0);
    room = list + 1 + i * (RELAY_MASK + 1);
    return relay_bytes_of(room + 1, relay_at_most(RELAY_MASK, room[0]));
}

/* ---- inline: a table by its pointer ---- */

/* What `relay_process` answers beside the head: `place` is 0 but with 32 to 36. An accepted line that goes nowhere has set, count and len 0. */
typedef struct relay_answer {
    uint8_t number;
    uint32_t set;
    uint32_t count;
    size_t len;
    size_t place;
} relay_answer;

/* Makes any bytes the empty table: every slot free, no masks, no link registered. */
static inline void relay_table_clear(relay_table *table)
{
    table->head = relay_empty_head(table->bans);
}

/* As `relay_register`; answers the number. */
static inline uint8_t relay_table_register(relay_table *table, uint32_t link)
{
    relay_registered done = relay_register(table->head, table->bans, link);
    if (done.number == RELAY_ACCEPTED)
        table->head = done.head;
    return done.number;
}

/* As `relay_unregister`; answers the number. */
static inline uint8_t relay_table_unregister(relay_table *table, uint32_t link)
{
    relay_registered done = relay_unregister(table->head, table->bans, link);
    if (done.number == RELAY_ACCEPTED)
        table->head = done.head;
    return done.number;
}

/* As `relay_process`. */
static inline relay_answer relay_table_take(relay_table *table, uint32_t link, relay_bytes line, relay_room out)
{
    relay_taken taken = relay_process(table->head, table->bans, line, out, link);
    relay_answer answer;
    if (taken.number == RELAY_ACCEPTED)
        table->head = taken.head;
    answer.number = taken.number;
    answer.set = taken.set;
    answer.count = taken.count;
    answer.len = taken.len;
    answer.place = taken.place;
    return answer;
}

/* The channel of a name, in the table; NULL where it isn't there. */
static inline const relay_record *relay_table_find(const relay_table *table, relay_bytes name)
{
    relay_found found = relay_find(table->head, name);
    return found.number == RELAY_ACCEPTED ? &table->head.slots[found.slot] : NULL;
}

/* As `relay_is_banned`. */
static inline relay_banned relay_table_is_banned(const relay_table *table, relay_bytes name, relay_bytes text)
{
    return relay_is_banned(table->head, table->bans, name, text);
}

/* How many masks the channel in a slot has: at most 32, whatever the table holds; 0 where there is no such slot. */
static inline size_t relay_mask_count(const relay_table *table, size_t slot)
{
    return slot < RELAY_SLOTS ? relay_list_count(table->bans + slot * RELAY_LIST) : 0;
}

/* The mask i of the channel in a slot, counted from 0; no bytes where there is none. It lies in the table, whatever the table holds. */
static inline relay_bytes relay_mask(const relay_table *table, size_t slot, size_t i)
{
    return slot < RELAY_SLOTS ? relay_list_mask(table->bans + slot * RELAY_LIST, i) : relay_bytes_of(NULL, 0);
}

/*
 * How far a day log was replayed: `used` bytes of those given, which are whole records; and where they aren't used up, the number of what
 * stopped it and the place of that in those bytes. It is the log's own number (28 to 31) with its place, as `relay_read_record` tells it,
 * or the number by which the relay refused a record's line, with the place where the record begins, with 32 to 36 too. Number and place
 * are 0 where all was replayed.
 */
typedef struct relay_replayed {
    size_t used;
    size_t place;
    uint8_t number;
} relay_replayed;

/* Makes any bytes the table that a replay begins with: every slot free, no masks, all 32 links registered. */
static inline void relay_replay_begin(relay_table *table)
{
    relay_table_clear(table);
    table->head.links.set = 0xffffffff;
}

/*
 * Takes the line of each record, in order, on the record's link, from the table as it stands; what is to be sent is passed over. The first
 * refusal stops it, and what was taken before stays in the table. For a log that comes in pieces, with `kept` and `passed` 0 at first and
 * 516 bytes of room more than a piece has, since so many of an unfinished record may be left over:
 *
 *     do {
 *         got = more(buffer + kept);                   -- how many bytes came; 0 at the end of the log
 *         done = relay_replay_piece(&table, relay_bytes_of(buffer, kept + got));
 *         if (done.number != RELAY_ACCEPTED && (done.number != RELAY_LOG_CUT || got == 0))
 *             return stopped(done.number, passed + done.place);
 *         passed += done.used;
 *         kept = kept + got - done.used;
 *         memmove(buffer, buffer + done.used, kept);   -- the unfinished record goes before the next piece
 *     } while (got != 0);
 *
 * So 31 is a fault only where no more bytes come.
 */
static inline relay_replayed relay_replay_piece(relay_table *table, relay_bytes piece)
{
    uint8_t out[RELAY_LINE];
    relay_replayed done = { 0, 0, RELAY_ACCEPTED };
    relay_record_read record;
    while ((record = relay_read_record(piece, done.used)).found) {
        done.number = relay_table_take(table, record.link, relay_part(piece, record.line), relay_room_of(out, sizeof out)).number;
        if (done.number != RELAY_ACCEPTED) {
            done.place = done.used;
            return done;
        }
        done.used = record.line.end;
    }
    done.number = record.number;
    done.place = record.place;
    return done;
}

/*
 * Makes any bytes the table that a day log leads to, whose records are taken in order from a table with free slots and all 32 links
 * registered. For a complete log of a day that began with free slots, and whose slots and lists changed only by lines, which this library
 * took, these are the slots and the lists that the day ended with, whatever links came and went. Where something is refused, the table is
 * what stood before.
 */
static inline relay_replayed relay_replay(relay_table *table, relay_bytes log)
{
    relay_replay_begin(table);
    return relay_replay_piece(table, log);
}

/* A copy of the channel in a slot with its ban list; all zero, as of a free slot, where there is no such slot. */
static inline relay_whole_record relay_table_channel(const relay_table *table, size_t slot)
{
    relay_whole_record channel;
    memset(&channel, 0, sizeof channel);
    if (slot < RELAY_SLOTS) {
        channel.record = table->head.slots[slot];
        memcpy(channel.bans.room, table->bans + slot * RELAY_LIST, RELAY_LIST);
    }
    return channel;
}

/* As `relay_merge`, into the first record; answers the number. */
static inline uint8_t relay_record_merge(relay_whole_record *first, const relay_whole_record *second)
{
    relay_merged merged = relay_merge(*first, *second);
    if (merged.number == RELAY_ACCEPTED)
        *first = merged.result;
    return merged.number;
}

/* ---- inline: is this the header of that library? ---- */

/* The place and the size of a field. */
#define RELAY_FIELD(type, field) offsetof(type, field), sizeof(((type *)0)->field)

/*
 * Whether the library lays out every struct as this header does. Call it once before anything else and stop where it says no: header
 * and library are then of different versions.
 */
static inline bool relay_layout_matches(void)
{
    static const size_t numbers[] = {
        RELAY_FIELD(relay_span, start), RELAY_FIELD(relay_span, end), sizeof(relay_span),
        RELAY_FIELD(relay_message, has_prefix), RELAY_FIELD(relay_message, prefix), RELAY_FIELD(relay_message, command),
        RELAY_FIELD(relay_message, count), RELAY_FIELD(relay_message, params), sizeof(relay_message),
        RELAY_FIELD(relay_line_read, number), RELAY_FIELD(relay_line_read, count), sizeof(relay_line_read),
        RELAY_FIELD(relay_written, number), RELAY_FIELD(relay_written, len), sizeof(relay_written),
        RELAY_FIELD(relay_matched, number), RELAY_FIELD(relay_matched, yes), sizeof(relay_matched),
        RELAY_FIELD(relay_member, id), RELAY_FIELD(relay_member, status), sizeof(relay_member),
        RELAY_FIELD(relay_record, name), RELAY_FIELD(relay_record, name_len), RELAY_FIELD(relay_record, time),
        RELAY_FIELD(relay_record, modes), RELAY_FIELD(relay_record, key), RELAY_FIELD(relay_record, key_len),
        RELAY_FIELD(relay_record, limit), RELAY_FIELD(relay_record, members), RELAY_FIELD(relay_record, count), sizeof(relay_record),
        RELAY_FIELD(relay_ban_list, room), sizeof(relay_ban_list),
        RELAY_FIELD(relay_whole_record, record), RELAY_FIELD(relay_whole_record, bans), sizeof(relay_whole_record),
        RELAY_FIELD(relay_merged, number), RELAY_FIELD(relay_merged, result), sizeof(relay_merged),
        RELAY_FIELD(relay_links, set), sizeof(relay_links),
        RELAY_FIELD(relay_head, slots), RELAY_FIELD(relay_head, links), sizeof(relay_head),
        RELAY_FIELD(relay_registered, head), RELAY_FIELD(relay_registered, number), sizeof(relay_registered),
        RELAY_FIELD(relay_taken, head), RELAY_FIELD(relay_taken, len), RELAY_FIELD(relay_taken, place),
        RELAY_FIELD(relay_taken, set), RELAY_FIELD(relay_taken, count), RELAY_FIELD(relay_taken, number), sizeof(relay_taken),
        RELAY_FIELD(relay_banned, number), RELAY_FIELD(relay_banned, yes), sizeof(relay_banned),
        RELAY_FIELD(relay_logged, number), RELAY_FIELD(relay_logged, size), sizeof(relay_logged),
        RELAY_FIELD(relay_found, number), RELAY_FIELD(relay_found, slot), sizeof(relay_found),
        RELAY_FIELD(relay_text, bytes), RELAY_FIELD(relay_text, len), sizeof(relay_text),
        RELAY_FIELD(relay_feeder, bytes), RELAY_FIELD(relay_feeder, len), RELAY_FIELD(relay_feeder, dropping), sizeof(relay_feeder),
        RELAY_FIELD(relay_fed, state), RELAY_FIELD(relay_fed, used), RELAY_FIELD(relay_fed, line), RELAY_FIELD(relay_fed, len),
        RELAY_FIELD(relay_fed, number), sizeof(relay_fed),
        RELAY_FIELD(relay_record_read, line), RELAY_FIELD(relay_record_read, place), RELAY_FIELD(relay_record_read, link),
        RELAY_FIELD(relay_record_read, number), RELAY_FIELD(relay_record_read, found), sizeof(relay_record_read)
    };
    const size_t count = sizeof numbers / sizeof numbers[0];
    size_t k;
    if (relay_layout(0) != count)
        return false;
    for (k = 0; k < count; k++)
        if (relay_layout(k + 1) != numbers[k])
            return false;
    return true;
}

#undef RELAY_FIELD

#ifdef __cplusplus
}
#endif

#endif
