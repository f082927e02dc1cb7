/* A node in plain C, for a board's engineer to copy from; docs/BOARD.md says how to build it.
   It starts a node, builds the events of document 01's listing, hands them over and prints what the event program prints for them.
   Then it takes a dump, reads a few things there, loads it into other tables, and compares a dump of those. Every answer is checked. */
#include "nucleus.h"

#include <inttypes.h>
#include <stdio.h>
#include <string.h>

/* The room that is lent: whole structs, which the compiler aligns. */
static struct nucleus_tables node, other;
static uint8_t event[NUCLEUS_EVENT_BYTES], dump[NUCLEUS_DUMP_BYTES], again[NUCLEUS_DUMP_BYTES];

static uint8_t status = NUCLEUS_RUNNING; /* behind the last event */

static int failed(const char *what, unsigned refusal)
{
    fprintf(stderr, "board: %s (refusal %u)\n", what, refusal);
    return 1;
}

static const char *last_line(void)
{
    switch (status) {
    case NUCLEUS_HALTED: return "SYSTEM HALTED";
    case NUCLEUS_PANICKED: return "KERNEL PANIC";
    default: return "SYSTEM UP";
    }
}

/* The library must be the one that the header was written for. */
static int sizes_agree(void)
{
    struct nucleus_sizes s = nucleus_sizes();
    return s.tables == sizeof node && s.report == sizeof(struct nucleus_report) && s.dump == sizeof dump;
}

/* The event that was just built, of this length. */
static int happens(size_t length)
{
    static unsigned line;
    struct nucleus_report r = nucleus_step(&node, event, length);
    /* An event may well be refused, as the sixth and the eighth here; bad tables are no node any more. */
    if (r.refusal == NUCLEUS_BAD_TABLES)
        return failed("the tables are damaged", r.refusal);
    printf("%u %u %u %u %u %u %" PRIu32 "\n", ++line, r.refusal, r.status, r.runner, r.kind, r.sender, r.word);
    status = r.status;
    return 0;
}

static int run_listing(void)
{
    if (happens(nucleus_createson_event(event)) || happens(nucleus_receive_event(event, NUCLEUS_NOBODY))
        || happens(nucleus_send_event(event, 0, 7)) || happens(nucleus_getcputime_event(event))
        || happens(nucleus_terminate_event(event, NUCLEUS_NOBODY)) || happens(nucleus_send_event(event, 1, 9))
        || happens(nucleus_waitforclock_event(event)) || happens(nucleus_send_event(event, 0, 1)))
        return 1;
    puts(last_line());
    return 0;
}

/* The value of the next field with this tag, from *at on, or NULL. *at goes behind it. The bytes are a dump. */
static const uint8_t *next_field(const uint8_t *bytes, size_t length, size_t *at, uint8_t tag)
{
    while (*at < length) {
        const uint8_t *field = bytes + *at;
        *at += 3 + (size_t)field[1] * 256 + field[2];
        if (field[0] == tag)
            return field + 3;
    }
    return NULL;
}

/* The state of the thread of this name, or 255 if there is none. */
static uint8_t state_of(const uint8_t *bytes, size_t length, uint8_t name)
{
    size_t at = 0;
    const uint8_t *thread;
    while ((thread = next_field(bytes, length, &at, NUCLEUS_FIELD_THREAD)) != NULL)
        if (thread[0] == name)
            return thread[2];
    return NUCLEUS_NOBODY;
}

static void print_dump(const uint8_t *bytes, size_t length)
{
    size_t at = 0;
    const uint8_t *of_node = next_field(bytes, length, &at, NUCLEUS_FIELD_NODE);
    printf("dump of %zu bytes:", length);
    for (size_t i = 0; i < length; i++)
        printf(" %02X", bytes[i]);
    printf("\nin the dump: status %u, runner %u", of_node[0], of_node[2]);
    for (uint8_t name = 0; name < 2; name++)
        printf(", thread %u in state %u", name, state_of(bytes, length, name));
    putchar('\n');
}

static int dump_and_load(void)
{
    struct nucleus_dumped first = nucleus_dump(&node, dump, sizeof dump);
    if (first.refusal)
        return failed("no dump", first.refusal);
    print_dump(dump, first.length);
    struct nucleus_loaded loaded = nucleus_load(&other, dump, first.length);
    if (loaded.refusal) {
        fprintf(stderr, "board: the dump is bad at byte %zu\n", loaded.offset);
        return failed("the dump is not read", loaded.refusal);
    }
    uint8_t refusal = nucleus_check(&other);
    if (refusal)
        return failed("the loaded tables do not meet the table rules", refusal);
    struct nucleus_dumped second = nucleus_dump(&other, again, sizeof again);
    if (second.refusal)
        return failed("no dump of the loaded tables", second.refusal);
    if (second.length != first.length || memcmp(dump, again, first.length) != 0)
        return failed("the loaded tables have another dump", 0);
    puts("loaded into other tables and dumped again: the same bytes");
    return 0;
}

int main(void)
{
    if (!sizes_agree())
        return failed("header and library do not agree", 0);
    nucleus_start(&node);
    if (run_listing() || dump_and_load())
        return 1;
    if (fflush(stdout) != 0 || ferror(stdout))
        return failed("cannot write", 0);
    return 0;
}
