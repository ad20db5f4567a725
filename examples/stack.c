/*
 * Every function of include/relay.h on a stack of RELAY_STACK bytes, with full tables and long lines. Below the stack lies memory that
 * can't be touched, so a call that takes more ends the program. `examples/embed.sh` builds and runs it.
 */
#define _GNU_SOURCE
#include "relay.h"

#include <stdio.h>
#include <string.h>
#include <sys/mman.h>
#include <ucontext.h>

enum { GUARD = 1 << 20 };

static ucontext_t here, there;
static relay_table table;
static relay_whole_record other;
static uint8_t out[RELAY_DESCRIPTION];
static char line[1024];
static int failed;

static relay_bytes text(const char *s)
{
    return relay_bytes_of(s, strlen(s));
}

static relay_room room(void)
{
    return relay_room_of(out, sizeof out);
}

static void expect(int number, int expected, const char *what)
{
    if (number != expected) {
        printf("%s: %d\n", what, number);
        failed = 1;
    }
}

static void take(int expected)
{
    expect(relay_table_take(&table, 3, text(line), room()).number, expected, line);
}

/* An SJOIN that names half of a full channel's members. */
static void join_line(int channel, int half, int time)
{
    int n = sprintf(line, ":1AB SJOIN %d #%c%048d +kl %s 65535 :", time, 'a' + channel, 0, "kkkkkkkkkkkkkkkkkkkkkkk");
    for (int k = 0; k < 32; k++)
        n += sprintf(line + n, "%s@+1ABA%05d", k ? " " : "", half * 32 + k);
    sprintf(line + n, "\r\n");
}

static void registers(void)
{
    relay_table_clear(&table);
    expect(relay_table_register(&table, 3), 0, "register");
    expect(relay_table_register(&table, 4), 0, "register");
    expect(relay_table_unregister(&table, 4), 0, "unregister");
}

static void joins(void)
{
    for (int channel = 0; channel < RELAY_SLOTS; channel++)
        for (int half = 0; half < 2; half++) {
            join_line(channel, half, 1000);
            take(0);
        }
    other = relay_table_channel(&table, 0);
    join_line(0, 0, 900);
    take(0);
    join_line(0, 1, 1100);
    take(0);
    join_line(RELAY_SLOTS, 0, 1000);
    take(RELAY_NO_FREE_SLOT);
}

/* A BMASK that names some of a full list's masks, each of 100 bytes. */
static void masks_line(int channel, int first, int time)
{
    int n = sprintf(line, ":1AB BMASK %d #%c%048d b :", time, 'a' + channel, 0);
    for (int k = first; k < first + 4; k++)
        n += sprintf(line + n, "%s%c%099d", k > first ? " " : "", k < 26 ? 'A' + k : '0' + k - 26, 0);
    sprintf(line + n, "\r\n");
}

/* Full lists in every channel, and a mask more than there is room for. */
static void masks(void)
{
    for (int channel = 1; channel < RELAY_SLOTS; channel++)
        for (int first = 0; first < RELAY_MASKS; first += 4) {
            masks_line(channel, first, 1000);
            take(0);
        }
    masks_line(1, RELAY_MASKS, 1000);
    take(RELAY_TOO_MANY_MASKS);
    masks_line(1, RELAY_MASKS, 1001);
    take(0);
    expect((int)relay_mask_count(&table, 15), RELAY_MASKS, "masks");
    expect((int)relay_mask(&table, 15, 31).len, RELAY_MASK, "a mask");
    expect(relay_table_is_banned(&table, relay_bytes_of(table.head.slots[15].name, RELAY_NAME), text(line)).number, 0, "banned");
    join_line(1, 0, 900);
    take(0);
    expect((int)relay_mask_count(&table, 1), 0, "no masks");
}

static void leaves(void)
{
    sprintf(line, ":1ABA00000 PART #%s :gone home\r\n", "none");
    take(RELAY_NO_SUCH_CHANNEL);
    sprintf(line, ":1ABA00000 PART %.50s\r\n", (const char *)table.head.slots[15].name);
    take(0);
    sprintf(line, ":1ABA00001 QUIT :gone home\r\n");
    take(0);
    sprintf(line, "nonsense\r\n");
    take(RELAY_UNKNOWN_COMMAND);
}

static void records(void)
{
    relay_bytes name = relay_bytes_of(table.head.slots[15].name, table.head.slots[15].name_len);
    relay_whole_record first = relay_table_channel(&table, 0), full = relay_table_channel(&table, 15), same = full;
    expect(relay_table_find(&table, name) == &table.head.slots[15], 1, "find");
    expect(relay_describe(other.record, room()).number, 0, "describe");
    expect(relay_record_merge(&other, &first), 0, "merge");
    expect(relay_record_merge(&full, &same), 0, "merge with masks");
}

static void lines(void)
{
    relay_bytes bytes = text(":a X b c d e f g h i j k l m n o :p\r\n");
    relay_message message = relay_parts(bytes);
    expect(relay_read(bytes).count, RELAY_PARAMS, "read");
    expect(relay_write(bytes, message, room()).number, 0, "write");
    expect((int)(relay_prefix(bytes).len + relay_command(bytes).len + relay_param(bytes, 14).len), 3, "parts");
    expect(relay_log(3, bytes, room()).number, 0, "log");
}

/* A line as long as can be, and one that is longer. */
static void feeds(void)
{
    relay_feeder feeder = relay_empty_feeder();
    relay_bytes bytes = relay_bytes_of(line, 2 * RELAY_LINE), more = text("x");
    relay_fed fed;
    memset(line, 'x', 2 * RELAY_LINE);
    line[RELAY_LINE - 1] = '\n';
    expect(relay_next_line(&feeder, &bytes, &fed), 1, "a line");
    expect((int)fed.len, RELAY_LINE, "its length");
    expect(relay_next_line(&feeder, &bytes, &fed), 0, "an unfinished one");
    expect((int)feeder.len, RELAY_LINE, "what is kept");
    expect(relay_next_line(&feeder, &more, &fed), 1, "a longer one");
    expect(fed.number, RELAY_LINE_TOO_LONG, "its number");
}

/* A log of joins that fill every channel, read back and replayed. */
static void logs(void)
{
    static uint8_t bytes[2 * RELAY_SLOTS * (RELAY_LOG_HEAD + RELAY_LINE)];
    size_t len = 0;
    for (int channel = 0; channel < RELAY_SLOTS; channel++)
        for (int half = 0; half < 2; half++) {
            join_line(channel, half, 1000);
            len += relay_log(RELAY_LINKS - 1, text(line), relay_room_of(bytes + len, sizeof bytes - len)).size;
        }
    expect((int)relay_read_record(relay_bytes_of(bytes, len), 0).link, RELAY_LINKS - 1, "a record");
    expect(relay_replay(&table, relay_bytes_of(bytes, len)).number, 0, "replay");
    expect((int)table.head.slots[15].count, RELAY_MEMBERS, "what was replayed");
    expect(relay_replay_piece(&table, relay_bytes_of(bytes, len - 1)).number, RELAY_LOG_CUT, "a piece");
}

static void others(void)
{
    expect(relay_same_name(text("#A["), text("#a{")), 1, "same name");
    expect(relay_match(text("*a*b*c*"), text("abxbcabxbcabxbc")).yes, 1, "match");
    expect(relay_greater_key(text("a"), text("b")).ptr[0], 'b', "key");
    expect(relay_refusal_text(20).bytes[0], 'u', "words");
    expect(relay_layout_matches(), 1, "layout");
}

/* Runs a call on the small stack. */
static void on_stack(void *stack, void (*call)(void))
{
    getcontext(&there);
    there.uc_stack.ss_sp = stack;
    there.uc_stack.ss_size = RELAY_STACK;
    there.uc_link = &here;
    makecontext(&there, call, 0);
    swapcontext(&here, &there);
}

int main(void)
{
    void (*const calls[])(void) = { registers, joins, masks, records, leaves, lines, feeds, logs, others };
    char *memory = mmap(NULL, GUARD + RELAY_STACK, PROT_NONE, MAP_PRIVATE | MAP_ANONYMOUS, -1, 0);
    if (memory == MAP_FAILED || mprotect(memory + GUARD, RELAY_STACK, PROT_READ | PROT_WRITE) != 0) {
        printf("no memory\n");
        return 1;
    }
    for (size_t k = 0; k < sizeof calls / sizeof calls[0]; k++)
        on_stack(memory + GUARD, calls[k]);
    return failed;
}
