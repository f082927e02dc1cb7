/* The incident, in plain C, with the builders of the header; docs/BOARD.md says how to build it.
   A fetch asks the store, and is ended while the store waits for its disk. A new fetch is made, and asks for something else. Then the store
   answers the one that has ended. These are the 18 events that crates/laws computes (specs/Examples.antt, `incident`). The new fetch has
   another name, so the late answer is refused, and the new fetch is handed the answer to its own question.
   The exit status is 1 if anybody is handed the late answer. */
#include "nucleus.h"

#include <inttypes.h>
#include <stdio.h>

#define DESK 0
#define STORE 1
#define FETCH 2
#define NEW_FETCH 3
#define DISK 3  /* a device */
#define KEYS 33 /* what terminal 0 receives */
#define LATE 4000

static struct nucleus_tables node;
static uint8_t event[NUCLEUS_EVENT_BYTES];
static unsigned events; /* so far */
static int was_handed;  /* the late answer, to anybody */

static const char *role_of(uint8_t thread)
{
    switch (thread) {
    case DESK: return "desk";
    case STORE: return "store";
    case FETCH:
    case NEW_FETCH: return "fetch";
    default: return "thread";
    }
}

static const char *kind_of(uint8_t kind)
{
    switch (kind) {
    case NUCLEUS_MESSAGE: return "message";
    case NUCLEUS_NOTICE: return "notice";
    case NUCLEUS_SENDER_GONE: return "end";
    default: return "result";
    }
}

static const char *stands(uint8_t status)
{
    switch (status) {
    case NUCLEUS_IDLE: return "idle";
    case NUCLEUS_HALTED: return "halted";
    case NUCLEUS_PANICKED: return "panicked";
    default: return "nobody runs";
    }
}

/* Whether it is refused, who runs now, and what is handed to it. */
static void print_report(struct nucleus_report r)
{
    if (r.refusal)
        printf("refused %u, %s; ", r.refusal, nucleus_refusal_name(r.refusal));
    if (r.runner == NUCLEUS_NOBODY)
        printf("%s", stands(r.status));
    else
        printf("%s %u runs", role_of(r.runner), r.runner);
    if (r.kind != NUCLEUS_NONE)
        printf(", is handed %s %" PRIu32, kind_of(r.kind), r.word);
    if (r.kind != NUCLEUS_NONE && r.sender != NUCLEUS_SERVICE)
        printf(" of %s %u", role_of(r.sender), r.sender);
    putchar('\n');
    if (r.refusal)
        printf("%30s(%s)\n", "", nucleus_refusal_sentence(r.refusal));
}

/* The event that was just built, and how tools/events writes it. */
static void happens(const char *written, size_t length)
{
    struct nucleus_report r = nucleus_step(&node, event, length);
    printf("%2u  %-24s  ", ++events, written);
    print_report(r);
    if (r.kind != NUCLEUS_NONE && r.word == LATE)
        was_handed = 1;
}

/* The desk makes the store and a fetch, and waits for a key. The store waits for a question. The fetch asks for revision 40 and waits for
   the answer. The store takes the question and waits for its disk. */
static void asked(void)
{
    happens("createson", nucleus_createson_event(event));
    happens("createson", nucleus_createson_event(event));
    happens("waitforio 33", nucleus_waitforio_event(event, KEYS));
    happens("receive anybody", nucleus_receive_event(event, NUCLEUS_NOBODY));
    happens("send 1 40", nucleus_send_event(event, STORE, 40));
    happens("receive 1", nucleus_receive_event(event, STORE));
    happens("waitforio 3", nucleus_waitforio_event(event, DISK));
}

/* A key is pressed: the desk ends the fetch, makes another and waits for the next key. The new fetch asks for revision 41 and waits. */
static void asked_anew(void)
{
    happens("interrupt 33 status 27", nucleus_interrupt_event(event, (uint64_t)1 << KEYS, 27));
    happens("terminate 2", nucleus_terminate_event(event, FETCH));
    happens("createson", nucleus_createson_event(event));
    happens("waitforio 33", nucleus_waitforio_event(event, KEYS));
    happens("send 1 41", nucleus_send_event(event, STORE, 41));
    happens("receive 1", nucleus_receive_event(event, STORE));
}

/* The disk is done: the store answers the fetch that asked first, takes the next question, answers that and waits. */
static void answered(void)
{
    happens("interrupt 3 status 0", nucleus_interrupt_event(event, (uint64_t)1 << DISK, 0));
    happens("send 2 4000", nucleus_send_event(event, FETCH, LATE));
    happens("receive anybody", nucleus_receive_event(event, NUCLEUS_NOBODY));
    happens("send 3 4100", nucleus_send_event(event, NEW_FETCH, 4100));
    happens("receive anybody", nucleus_receive_event(event, NUCLEUS_NOBODY));
}

int main(void)
{
    nucleus_start(&node);
    asked();
    asked_anew();
    answered();
    puts(was_handed ? "the late answer was handed over" : "the late answer was handed to nobody");
    if (fflush(stdout) != 0 || ferror(stdout)) {
        fprintf(stderr, "incident: cannot write\n");
        return 1;
    }
    return was_handed;
}
