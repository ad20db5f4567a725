/*
 * A relay in a program of its own: three links, a few lines, and what comes of them.
 * `examples/embed.sh` builds it, runs it and compares what it prints with examples/embed.txt.
 */
#include "relay.h"

#include <inttypes.h>
#include <stdio.h>
#include <string.h>

/* The bytes of a C string. */
static relay_bytes text(const char *s)
{
    return relay_bytes_of(s, strlen(s));
}

static void print(relay_bytes bytes)
{
    fwrite(bytes.ptr, 1, bytes.len, stdout);
}

/* Prints the words of a refusal's number. */
static void print_words(uint8_t number)
{
    relay_text words = relay_refusal_text(number);
    print(relay_bytes_of(words.bytes, words.len));
}

/* Prints that something is refused, the number, its place in a line where it has one, and its words. */
static void print_refusal(uint8_t number, size_t place)
{
    printf("refused by %d", number);
    if (place != 0)
        printf(" at %zu", place);
    printf(", ");
    print_words(number);
}

/* Prints the links of a set, a comma between them. */
static void print_links(uint32_t set)
{
    const char *before = "";
    for (uint32_t link = 0; link < RELAY_LINKS; link++)
        if (set >> link & 1) {
            printf("%s%" PRIu32, before, link);
            before = ",";
        }
}

/* Hands a line to the relay and prints what is to be sent, and where. A real program would send it. */
static void take(relay_table *table, uint32_t link, relay_bytes line)
{
    uint8_t out[RELAY_LINE];
    relay_answer answer = relay_table_take(table, link, line, relay_room_of(out, sizeof out));
    if (answer.number != RELAY_ACCEPTED) {
        print_refusal(answer.number, answer.place);
        printf(": ");
        print(line);
        return;
    }
    if (answer.len == 0) {
        printf("goes nowhere: ");
        print(line);
        return;
    }
    printf("to %" PRIu32 " links, ", answer.count);
    print_links(answer.set);
    printf(": ");
    print(relay_bytes_of(out, answer.len));
}

static void print_channel(const relay_record *r)
{
    print(relay_bytes_of(r->name, r->name_len));
    printf(" time %" PRIu32 " modes %d key \"", r->time, r->modes);
    print(relay_bytes_of(r->key, r->key_len));
    printf("\" limit %d:", r->limit);
    for (size_t k = 0; k < r->count; k++) {
        printf(" ");
        print(relay_bytes_of(r->members[k].id, RELAY_USER_ID));
        printf("=%d", r->members[k].status);
    }
    printf("\n");
}

static void print_channels(const relay_table *table)
{
    for (size_t k = 0; k < RELAY_SLOTS; k++)
        if (table->head.slots[k].count != 0)
            print_channel(&table->head.slots[k]);
}

/* A morning on the water: the channel is there, a boat comes up with it at a later time, users leave. */
static void morning(relay_table *table)
{
    relay_table_clear(table);
    printf("links: %d", relay_table_register(table, 0));
    printf(" %d", relay_table_register(table, 3));
    printf(" %d", relay_table_register(table, 5));
    printf(" and above 31: %d\n", relay_table_register(table, RELAY_LINKS));

    take(table, 5, text(":2CD SJOIN 1000 #Race +k buoy @2CDAAAAAA\r\n"));
    take(table, 3, text(":1AB SJOIN 1200 #race +nt :@1ABAAAAAA 1ABAAAAAB\r\n"));
    print_channels(table);
    take(table, 3, text(":1ABAAAAAA part #RACE :gone home\r\n"));
    take(table, 3, text(":1ABAAAAAA PART #race\r\n"));
    take(table, 4, text(":1ABAAAAAB QUIT\r\n"));
    take(table, 3, text(":1ABAAAAAB QUIT\r\n"));
    print_channels(table);
}

/* What is wrong with the modes of a line, and where: each number once, and of 34 both kinds. */
static void modes(relay_table *table)
{
    take(table, 3, text(":1AB SJOIN 1000 #race nt 1ABAAAAAA\r\n"));
    take(table, 3, text(":1AB SJOIN 1000 #race +ntn 1ABAAAAAA\r\n"));
    take(table, 3, text(":1AB SJOIN 1000 #race +k 1ABAAAAAA\r\n"));
    take(table, 3, text(":1AB SJOIN 1000 #race +k buoy 20 1ABAAAAAA\r\n"));
    take(table, 3, text(":1AB SJOIN 1000 #race +k a,b 1ABAAAAAA\r\n"));
    take(table, 3, text(":1AB SJOIN 1000 #race +kl buoy 0 1ABAAAAAA\r\n"));
}

static void print_masks(const relay_table *table, size_t slot)
{
    printf("masks %zu:", relay_mask_count(table, slot));
    for (size_t k = 0; k < relay_mask_count(table, slot); k++) {
        printf(" ");
        print(relay_mask(table, slot, k));
    }
    printf("\n");
}

/* Asks whether a user text is banned from #race. */
static void ask(const relay_table *table, const char *user)
{
    relay_banned banned = relay_table_is_banned(table, text("#RACE"), text(user));
    printf("%s is banned: %d, number %d\n", user, banned.yes, banned.number);
}

/* A rowdy boat is kept off: masks are added, each fold once, later ones go nowhere, and bad ones are refused. */
static void bans(relay_table *table)
{
    char longest[RELAY_TEXT + 2];
    memset(longest, 'x', sizeof longest - 1);
    longest[sizeof longest - 1] = 0;
    take(table, 5, text(":2CD bmask 1000 #race b :*!*@spec[1] rowdy*\r\n"));
    take(table, 3, text(":1AB BMASK 999 #RACE b :  ROWDY*  a,:b \r\n"));
    take(table, 3, text(":1AB BMASK 1001 #race b late\r\n"));
    take(table, 3, text(":1AB BMASK 1000 #race e x\r\n"));
    take(table, 3, text(":1AB BMASK 1000 #finish b x\r\n"));
    take(table, 3, text(":1AB BMASK 1000 #race b :1 2 3 4 5 6 7 8 9 a b c d e f g h i j k l m n o p q r s t u\r\n"));
    print_masks(table, 0);
    print_masks(table, 1);
    print_masks(table, RELAY_SLOTS);
    ask(table, "joe!~joe@SPEC{1}");
    ask(table, "Rowdy!x@harbour");
    ask(table, "joe!~joe@harbour");
    printf("no text of %zu bytes: %d", strlen(longest), relay_table_is_banned(table, text("#race"), text(longest)).number);
    printf(", no such channel: %d", relay_table_is_banned(table, text("#finish"), text("joe")).number);
    printf(", no name: %d\n", relay_table_is_banned(table, text("race"), text("joe")).number);
}

/* Masks of a table that holds anything: as many, and as long, as there is room for; and such a table is refused. */
static void any_bytes(void)
{
    static relay_table any;
    size_t length = 0;
    memset(&any, 0xff, sizeof any);
    for (size_t slot = 0; slot < RELAY_SLOTS; slot++)
        for (size_t k = 0; k < relay_mask_count(&any, slot); k++)
            length += relay_mask(&any, slot, k).len;
    printf("any bytes: %zu masks in a slot, %zu bytes in all, beyond them %zu", relay_mask_count(&any, 15), length, relay_mask(&any, 15, 32).len);
    printf(", refused by %d", relay_table_register(&any, 3));
    relay_table_clear(&any);
    printf(", cleared: %d\n", relay_table_register(&any, 3));
}

/* Takes each line that is whole with the bytes that came in by a link; what is unfinished stays in the link's feeder. */
static void receive(relay_table *table, uint32_t link, relay_feeder *feeder, relay_bytes bytes)
{
    relay_fed fed;
    while (relay_next_line(feeder, &bytes, &fed)) {
        if (fed.number == RELAY_ACCEPTED) {
            take(table, link, relay_bytes_of(fed.line, fed.len));
        } else {
            print_refusal(fed.number, 0);
            printf("\n");
        }
    }
    printf("number %d, %zu bytes left, %zu kept\n", fed.number, bytes.len, feeder->len);
}

/* Bytes as a radio gives them, cut anywhere: a line without CR, one that is too long, and at last a feeder that no bytes reach. */
static void pieces(relay_table *table)
{
    relay_feeder feeder = relay_empty_feeder();
    uint8_t noise[RELAY_LINE];
    memset(noise, 'x', sizeof noise);
    receive(table, 3, &feeder, text(":1AB SJOIN 1300 #ra"));
    receive(table, 3, &feeder, text("ce + 1ABAAAAAC\r"));
    receive(table, 3, &feeder, text("\n:1ABAAAAAC QUIT\n:1ABAAAAAC "));
    receive(table, 3, &feeder, relay_bytes_of(noise, sizeof noise));
    receive(table, 3, &feeder, text("\r\n:1ABAAAAAC QUIT\r\n"));
    feeder.len = RELAY_LINE + 1;
    receive(table, 3, &feeder, text("\r\n"));
}

/* A channel found by its name, and told as a text; and where there is none, or no room. */
static void describe(const relay_table *table)
{
    uint8_t out[RELAY_DESCRIPTION];
    relay_found found = relay_find(table->head, text("#RACE"));
    relay_written written = relay_describe(table->head.slots[found.slot], relay_room_of(out, sizeof out));
    printf("#RACE is in slot %zu: ", found.slot);
    print(relay_bytes_of(out, written.len));
    printf("\n#finish is there: %d, refused by %d\n", relay_table_find(table, text("#finish")) != NULL, relay_find(table->head, text("#finish")).number);
    printf("an empty slot: %d, ", relay_describe(table->head.slots[1], relay_room_of(out, sizeof out)).number);
    print_words(RELAY_NOT_WELL_FORMED);
    printf("\na byte too little: %d\n", relay_describe(table->head.slots[found.slot], relay_room_of(out, written.len - 1)).number);
}

/* Two relays that were apart: what one of them knows of the channel is merged into what the other knows. */
static void merge(const relay_table *table)
{
    static relay_table apart;
    relay_table_clear(&apart);
    relay_table_register(&apart, 0);
    take(&apart, 0, text(":3EF SJOIN 1000 #race +kl buoys 20 :+2CDAAAAAA @3EFAAAAAA\r\n"));
    take(&apart, 0, text(":3EF BMASK 1000 #race b :*!*@Spec{1} zoo\r\n"));
    relay_whole_record both = relay_table_channel(table, 0), other = relay_table_channel(&apart, 0), none = relay_table_channel(&apart, 1);
    printf("merged: %d\n", relay_record_merge(&both, &other));
    print_channel(&both.record);
    printf("masks %zu:", relay_list_count(both.bans.room));
    for (size_t k = 0; k < relay_list_count(both.bans.room); k++) {
        printf(" ");
        print(relay_list_mask(both.bans.room, k));
    }
    printf("\nwith an empty slot: %d\n", relay_record_merge(&both, &none));
}

/* An earlier join empties the list, and the last user who leaves takes the channel and its list along. */
static void emptied(relay_table *table)
{
    take(table, 3, text(":1AB SJOIN 900 #race + 1ABAAAAAD\r\n"));
    print_masks(table, 0);
    take(table, 3, text(":1AB BMASK 900 #race b x\r\n"));
    take(table, 3, text(":1ABAAAAAD QUIT\r\n"));
    print_masks(table, 0);
    take(table, 3, text(":2CDAAAAAA QUIT\r\n"));
    print_masks(table, 0);
    print_channels(table);
}

/* Writes a line again in the one fixed form. */
static void print_again(relay_bytes line, relay_message message)
{
    uint8_t out[RELAY_LINE];
    relay_written written = relay_write(line, message, relay_room_of(out, sizeof out));
    print(relay_bytes_of(out, written.len));
}

/* The parts of a line, and the line written again. */
static void parts(void)
{
    relay_bytes line = text(":a  X b :\r\n");
    relay_message message = relay_parts(line);
    printf("prefix \"");
    print(relay_part(line, message.prefix));
    printf("\" command \"");
    print(relay_command(line));
    printf("\" parameters %zu, the second of %zu bytes: ", message.count, relay_param(line, 1).len);
    print_again(line, message);
    printf("not a line: %d, an empty one: %d\n", relay_read(text("X")).number, relay_read(text("\r\n")).number);
}

/* Behind fourteen parameters comes free text, with ':' or without. It is the fifteenth, and is written without where it can be. */
static void free_text(relay_bytes line)
{
    relay_message message = relay_parts(line);
    printf("parameters %zu, the last \"", message.count);
    print(relay_param(line, RELAY_PARAMS - 1));
    printf("\": ");
    print_again(line, message);
}

/* Whether of two equal keys the first is handed back: its very bytes, not those of the other. */
static bool hands_back_first(void)
{
    static const char first[] = "buoy", second[] = "buoy";
    relay_bytes key = relay_greater_key(text(first), text(second));
    return key.ptr == (const uint8_t *)first && key.len == strlen(first);
}

static void names_masks_keys(void)
{
    printf("names: %d %d %d\n", relay_same_name(text("#A["), text("#a{")), relay_same_name(text("#~"), text("#^")),
           relay_same_name(text("#@"), text("#`")));
    printf("masks: %d %d\n", relay_match(text("a*b*c"), text("abxbc")).yes, relay_match(text("?"), text("")).yes);
    printf("greater key: ");
    print(relay_greater_key(text("buoy"), text("buoys")));
    printf(", of equal ones the first: %d\n", hands_back_first());
}

static void day_log(void)
{
    relay_bytes line = text(":1ABAAAAAB QUIT\r\n");
    uint8_t log[100];
    relay_logged logged = relay_log(3, line, relay_room_of(log, sizeof log));
    printf("day log: %zu bytes,", logged.size);
    for (size_t k = 0; k < RELAY_LOG_HEAD; k++)
        printf(" %d", log[k]);
    printf(", then ");
    print(relay_bytes_of(log + RELAY_LOG_HEAD, logged.size - RELAY_LOG_HEAD));
    printf("without room: %d\n", relay_log(3, line, relay_room_of(NULL, 0)).number);
}

/* Puts the record of a line behind what a log has. A real program would append it to a file. */
static void append(relay_room *log, uint32_t link, relay_bytes line)
{
    size_t size = relay_log(link, line, *log).size;
    log->ptr += size;
    log->len -= size;
}

/* Prints the records of a log, each with its place, and what stands behind the last: the end, or a fault. */
static void print_log(relay_bytes log)
{
    size_t at = 0;
    relay_record_read record;
    while ((record = relay_read_record(log, at)).found) {
        printf("at %zu from %" PRIu32 ": ", at, record.link);
        print(relay_part(log, record.line));
        at = record.line.end;
    }
    printf("at %zu: number %d, place %zu\n", at, record.number, record.place);
}

/* Prints what came of a replay, and the table. */
static void print_replayed(const relay_table *table, size_t used, uint8_t number, size_t place)
{
    printf("replayed %zu bytes, number %d, place %zu\n", used, number, place);
    print_channels(table);
    print_masks(table, 0);
}

static void replay(relay_bytes log)
{
    static relay_table table;
    relay_replayed done = relay_replay(&table, log);
    print_replayed(&table, done.used, done.number, done.place);
}

/* The same where the log comes in pieces of seven bytes. */
static void replay_pieces(relay_bytes log)
{
    static relay_table table;
    uint8_t buffer[7 + RELAY_LOG_HEAD + RELAY_LINE];
    size_t kept = 0, passed = 0, got, place;
    relay_replayed done;
    bool stopped;
    relay_replay_begin(&table);
    do {
        got = log.len < 7 ? log.len : 7;
        memcpy(buffer + kept, log.ptr, got);
        log = relay_bytes_of(log.ptr + got, log.len - got);
        done = relay_replay_piece(&table, relay_bytes_of(buffer, kept + got));
        stopped = done.number != RELAY_ACCEPTED && (done.number != RELAY_LOG_CUT || got == 0);
        place = stopped ? passed + done.place : 0;
        passed += done.used;
        kept = kept + got - done.used;
        memmove(buffer, buffer + done.used, kept);
    } while (got != 0 && !stopped);
    print_replayed(&table, passed, done.number, place);
}

/* A day's log read back and replayed: whole, with a line that the relay refuses, cut, with a bad link, and empty. */
static void read_back(void)
{
    uint8_t bytes[300];
    relay_room room = relay_room_of(bytes, sizeof bytes);
    append(&room, 3, text(":1AB SJOIN 5 #a +lk 7 key :1ABAAAAAB @+1ABAAAAAA\r\n"));
    append(&room, 31, text(":1AB BMASK 5 #A b :y  x\r\n"));
    append(&room, 0, text(":1AB BMASK 6 #a b late\r\n"));
    size_t good = sizeof bytes - room.len;
    append(&room, 0, text(":1ABAAAAAC PART #a\r\n"));
    size_t all = sizeof bytes - room.len;
    print_log(relay_bytes_of(bytes, good));
    replay(relay_bytes_of(bytes, good));
    replay_pieces(relay_bytes_of(bytes, good));
    replay(relay_bytes_of(bytes, all));
    replay_pieces(relay_bytes_of(bytes, all));
    replay_pieces(relay_bytes_of(bytes, all - 1));
    bytes[good + 2] = RELAY_LINKS;
    print_log(relay_bytes_of(bytes, all));
    replay(relay_bytes_of(NULL, 0));
}

int main(void)
{
    if (!relay_layout_matches()) {
        fprintf(stderr, "relay.h and libcapi.a are of different versions\n");
        return 1;
    }
    printf("version %s\n", RELAY_VERSION);
    static relay_table table;
    morning(&table);
    modes(&table);
    pieces(&table);
    bans(&table);
    any_bytes();
    describe(&table);
    merge(&table);
    emptied(&table);
    parts();
    free_text(text("X a b c d e f g h i j k l m n wind west, 12 knots\r\n"));
    free_text(text("X a b c d e f g h i j k l m n  :wind west, 12 knots\r\n"));
    free_text(text("X a b c d e f g h i j k l m n : \r\n"));
    names_masks_keys();
    day_log();
    read_back();
    return 0;
}
