/* A board that gathers events while it cuts, in plain C, to copy from; docs/BOARD.md says how to build it.
   The ticks and interrupts of a cut come as events over a line, some bytes at a time, and are put behind each other. When the cut is done
   they are handed over in one call. A line does not stop between two events, so the last one may not be all there yet: its beginning is
   handed back unread, goes to the front of the buffer, and the line goes on behind it. Every answer is checked. */
#include "nucleus.h"

#include <inttypes.h>
#include <stdio.h>
#include <string.h>

/* Device numbers. */
#define LATHE 3
#define KEYS 33 /* what terminal 0 receives */
#define LOG 42  /* what terminal 5 transmits */

static uint8_t line[128]; /* all that the line brings */

/* How many of these bytes come during each cut. The first cut is done in the head of an event, the second in a value. */
static const size_t cuts[] = {26, 24, 25};

static struct nucleus_tables node;
static uint8_t gathered[64];
static size_t used; /* so many bytes of it wait to be run */

/* Few numbers are lent at first, enough for most cuts. All are enough for any, since no event is shorter than three bytes. */
static uint32_t numbers[sizeof gathered / 3 * NUCLEUS_DECISION_NUMBERS];
static const size_t few = 4 * NUCLEUS_DECISION_NUMBERS, all = sizeof numbers / sizeof numbers[0];

static int failed(const char *what, unsigned refusal)
{
    fprintf(stderr, "gather: %s (refusal %u)\n", what, refusal);
    return 1;
}

/* As the event program prints it: the number of the event, and the decision. */
static void print_decision(const uint32_t *decision)
{
    static unsigned events;
    printf("%u", ++events);
    for (int i = 0; i < NUCLEUS_DECISION_NUMBERS; i++)
        printf(" %" PRIu32, decision[i]);
    putchar('\n');
}

/* What the line brings, as the board at its other end builds it. */
static void fill_line(void)
{
    size_t n = 0;
    n += nucleus_tick_event(line + n);
    n += nucleus_tick_event(line + n);
    n += nucleus_interrupt_event(line + n, (uint64_t)1 << LATHE, 4660);
    n += nucleus_tick_event(line + n);
    n += nucleus_interrupt_event(line + n, (uint64_t)1 << KEYS, 'k'); /* nobody waits for it */
    n += nucleus_tick_event(line + n);
    n += nucleus_interrupt_event(line + n, (uint64_t)1 << LOG, 1); /* nor for this */
    for (int i = 0; i < 6; i++) /* the first ends the slice of thread 1: 0 runs, with the lathe's status; the last that of 0 */
        n += nucleus_tick_event(line + n);
}

static int one_event(const uint8_t *event, size_t length)
{
    struct nucleus_report r = nucleus_step(&node, event, length);
    const uint32_t decision[NUCLEUS_DECISION_NUMBERS] = {r.refusal, r.status, r.runner, r.kind, r.sender, r.word};
    print_decision(decision);
    return r.refusal ? failed("an event is refused", r.refusal) : 0;
}

/* All that is gathered, in one call. What is left unread goes to the front. */
static int hand_in(void)
{
    struct nucleus_bytes events = {gathered, used};
    uint8_t refusal;
    nucleus_batch(&node, &events, numbers, few, &refusal);
    if (refusal == NUCLEUS_SHORT_NUMBERS) { /* nothing was run, and events is as it was: the same call again */
        printf("refused %u with %zu numbers, so with %zu:\n", refusal, few, all);
        nucleus_batch(&node, &events, numbers, all, &refusal);
    }
    if (refusal)
        return failed("too few numbers for the decisions", refusal);

    /* The unread end lies in the same memory: what was run ends where it begins. */
    const uint32_t *decision = numbers;
    for (const uint8_t *event = gathered; event < events.bytes; event += 3 + event[1] * 256 + event[2]) {
        print_decision(decision);
        if (decision[NUCLEUS_AT_REFUSAL] != NUCLEUS_ACCEPTED)
            return failed("an event is refused", (unsigned)decision[NUCLEUS_AT_REFUSAL]);
        decision += NUCLEUS_DECISION_NUMBERS;
    }
    printf("%td bytes run, %zu left unread", events.bytes - gathered, events.length);
    for (size_t i = 0; i < events.length; i++)
        printf("%s %02X", i ? "" : ":", events.bytes[i]);
    putchar('\n');

    memmove(gathered, events.bytes, events.length);
    used = events.length;
    return 0;
}

int main(void)
{
    uint8_t event[NUCLEUS_EVENT_BYTES];
    size_t come = 0;
    fill_line();
    nucleus_start(&node);
    /* Before the first cut threads run, and each event is handed over when it comes: there are two threads then, and 0 waits for the
       lathe. */
    if (one_event(event, nucleus_createson_event(event)) || one_event(event, nucleus_waitforio_event(event, LATHE)))
        return 1;
    for (size_t i = 0; i < sizeof cuts / sizeof cuts[0]; i++) {
        if (cuts[i] > sizeof gathered - used)
            return failed("more bytes than the buffer holds", 0);
        /* On a board the line's handler does this, byte by byte, while the lathe is cut. */
        memcpy(gathered + used, line + come, cuts[i]);
        used += cuts[i], come += cuts[i];
        printf("cut %zu: %zu bytes came, %zu are gathered\n", i + 1, cuts[i], used);
        if (hand_in())
            return 1;
    }
    if (fflush(stdout) != 0 || ferror(stdout))
        return failed("cannot write", 0);
    return 0;
}
