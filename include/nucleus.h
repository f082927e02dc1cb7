/* The nucleus for a board's C code: C99, or C++, on a 64-bit machine. docs/BOARD.md says how to build and link it, and what a caller must
   keep.
   Words in quotes are document 01's, or document 02's for what a request added or changed. The sizes are those of crates/lending and
   crates/board; tests/board holds this file to them. */
#ifndef NUCLEUS_H
#define NUCLEUS_H

#include <stddef.h>
#include <stdint.h>

#if SIZE_MAX != UINT64_MAX
#error "nucleus.h is for 64-bit machines: a length in the library has 64 bits"
#endif

#ifdef __cplusplus
extern "C" {
#endif

/* ---- The version of this header and its library

   As a number: major * 10000 + minor * 100 + patch. What a change means for a board:
   major  what was there means something else, or is there no more: a name, a number, a call, a struct, the bytes of events or dumps. The
          board's code, or the dumps it has kept, may have to change.
   minor  something is new: a call, a name, a number. A board's code goes on as it is; it is compiled and linked once more.
   patch  a board sees nothing of it, but perhaps another stack or another time. It is compiled and linked once more.
   Header and library are one: whoever takes one of them takes the other too. */
#define NUCLEUS_VERSION 10000
#define NUCLEUS_VERSION_STRING "1.0.0"

/* ---- Numbers */

#define NUCLEUS_THREADS 20   /* threads at most */
#define NUCLEUS_NAMES 254    /* names of threads: 0 to 253 */
#define NUCLEUS_BLOCKS 20    /* ordinary messages in inboxes at most */
#define NUCLEUS_DEVICES 48   /* devices 0 to 47 */
#define NUCLEUS_SLICE 5      /* ticks of a full slice */
#define NUCLEUS_BEAT 20      /* ticks from one beat to the next */
#define NUCLEUS_SERVICE 254  /* the service interface, as a sender */
#define NUCLEUS_GONE 254     /* among managers: its thread has ended */
#define NUCLEUS_NOBODY 255   /* nobody, anybody or oneself, as stated */

#define NUCLEUS_DUMP_BYTES 1241    /* a buffer of so many bytes is long enough for every dump */
#define NUCLEUS_EVENT_BYTES 15     /* the longest event, an interrupt: tag 1, length 2, value 12 */
#define NUCLEUS_TABLES_WORDS 656   /* the numbers in struct nucleus_tables */
#define NUCLEUS_TABLES_BYTES 2624  /* what it takes */
#define NUCLEUS_REPORT_BYTES 12    /* what struct nucleus_report takes */
#define NUCLEUS_DECISION_NUMBERS 6 /* the numbers of one decision in a batch */

/* An event is one field: a tag byte, a two-byte length, then the value; "numbers are big-endian". Each tag with its value. */
enum nucleus_tag {
    NUCLEUS_SEND = 16,     /* name 1, word 4 */
    NUCLEUS_RECEIVE = 17,  /* name 1, or 255 for anybody */
    NUCLEUS_REQUEST = 18,  /* service 1, argument 1 */
    NUCLEUS_TRAP = 19,     /* kind 1, cause 4 */
    NUCLEUS_TICK = 20,     /* empty */
    NUCLEUS_INTERRUPT = 21 /* pending devices 8, bit n for device n; status 4 */
};

/* Services of a request, each with its argument and its result. */
enum nucleus_service {
    NUCLEUS_CREATEBROTHER = 1,   /* 0; the new thread's name */
    NUCLEUS_CREATESON = 2,       /* 0; the new thread's name */
    NUCLEUS_TERMINATE = 3,       /* a name, or 255 for oneself; no result */
    NUCLEUS_PROGRAM_MANAGER = 4, /* a name; 0 */
    NUCLEUS_TLB_MANAGER = 5,     /* a name; 0 */
    NUCLEUS_SYSBP_MANAGER = 6,   /* a name; 0 */
    NUCLEUS_GETCPUTIME = 7,      /* 0; the own tick count */
    NUCLEUS_WAITFORCLOCK = 8,    /* 0; the beat's number, when it comes */
    NUCLEUS_WAITFORIO = 9        /* a device; its status word, when there is one */
};

/* Kinds of trap. */
enum nucleus_trap { NUCLEUS_PROGRAM = 0, NUCLEUS_TLB = 1, NUCLEUS_SYSBP = 2 };

/* Refusals. nucleus_refusal_sentence says when each is given. A refusal changes no byte of the tables or of any buffer. 13 is given no
   more. */
enum nucleus_refusal {
    NUCLEUS_ACCEPTED = 0,
    NUCLEUS_NODE_STOPPED = 1,
    NUCLEUS_MALFORMED = 2,
    NUCLEUS_NO_RUNNER = 3,
    NUCLEUS_NO_SUCH_THREAD = 4,
    NUCLEUS_NO_BLOCK = 5,
    NUCLEUS_NO_THREAD_BLOCK = 6,
    NUCLEUS_BROTHER_OF_0 = 7,
    NUCLEUS_DEVICE_TAKEN = 8,
    NUCLEUS_BAD_DECISION = 9,
    NUCLEUS_OWN_MANAGER = 10,
    NUCLEUS_BAD_TABLES = 11,
    NUCLEUS_SHORT_BUFFER = 12,
    NUCLEUS_SHORT_NUMBERS = 14,
    NUCLEUS_DUMP_CUT = 15,
    NUCLEUS_DUMP_ORDER = 16,
    NUCLEUS_DUMP_RANGE = 17,
    NUCLEUS_DUMP_NAME = 18,
    NUCLEUS_DUMP_RULE = 19
};

/* The name of a refusal, for a log: that of the enum without NUCLEUS_. A number that is no refusal has the name UNKNOWN. */
static inline const char *nucleus_refusal_name(unsigned refusal)
{
    switch (refusal) {
    case NUCLEUS_ACCEPTED: return "ACCEPTED";
    case NUCLEUS_NODE_STOPPED: return "NODE_STOPPED";
    case NUCLEUS_MALFORMED: return "MALFORMED";
    case NUCLEUS_NO_RUNNER: return "NO_RUNNER";
    case NUCLEUS_NO_SUCH_THREAD: return "NO_SUCH_THREAD";
    case NUCLEUS_NO_BLOCK: return "NO_BLOCK";
    case NUCLEUS_NO_THREAD_BLOCK: return "NO_THREAD_BLOCK";
    case NUCLEUS_BROTHER_OF_0: return "BROTHER_OF_0";
    case NUCLEUS_DEVICE_TAKEN: return "DEVICE_TAKEN";
    case NUCLEUS_BAD_DECISION: return "BAD_DECISION";
    case NUCLEUS_OWN_MANAGER: return "OWN_MANAGER";
    case NUCLEUS_BAD_TABLES: return "BAD_TABLES";
    case NUCLEUS_SHORT_BUFFER: return "SHORT_BUFFER";
    case NUCLEUS_SHORT_NUMBERS: return "SHORT_NUMBERS";
    case NUCLEUS_DUMP_CUT: return "DUMP_CUT";
    case NUCLEUS_DUMP_ORDER: return "DUMP_ORDER";
    case NUCLEUS_DUMP_RANGE: return "DUMP_RANGE";
    case NUCLEUS_DUMP_NAME: return "DUMP_NAME";
    case NUCLEUS_DUMP_RULE: return "DUMP_RULE";
    default: return "UNKNOWN";
    }
}

/* What a refusal says, in a sentence. 1 to 11 are given to events, 2 also to a pick, 11 also to a check and a dump, 12 to a dump, 14 to a
   batch, 15 to 19 to a load. */
static inline const char *nucleus_refusal_sentence(unsigned refusal)
{
    switch (refusal) {
    case NUCLEUS_ACCEPTED: return "nothing is refused";
    case NUCLEUS_NODE_STOPPED: return "the node has halted or panicked";
    case NUCLEUS_MALFORMED: return "not exactly one whole event, or a service, argument, trap kind, device or pending devices out of range";
    case NUCLEUS_NO_RUNNER: return "only a running thread can cause this event, and nobody runs";
    case NUCLEUS_NO_SUCH_THREAD: return "the name to send to, receive from, end or take as manager is no live thread's";
    case NUCLEUS_NO_BLOCK: return "the message would have to wait in an inbox, and all 20 message blocks are taken";
    case NUCLEUS_NO_THREAD_BLOCK: return "all 20 thread blocks are taken";
    case NUCLEUS_BROTHER_OF_0: return "thread 0 has no parent, so it gets no brother";
    case NUCLEUS_DEVICE_TAKEN: return "another thread waits for that device already";
    case NUCLEUS_BAD_DECISION: return "a manager's decision on a trapped thread is neither 0 nor 1";
    case NUCLEUS_OWN_MANAGER: return "a thread cannot be its own manager";
    case NUCLEUS_BAD_TABLES: return "what is lent as tables is none, or breaks a table rule";
    case NUCLEUS_SHORT_BUFFER: return "the buffer is too short for the dump";
    case NUCLEUS_SHORT_NUMBERS: return "too few numbers are lent for the batch: each complete event takes six";
    case NUCLEUS_DUMP_CUT: return "the dump is cut, a field has a wrong length, or a field 1, 3 or 4 is missing";
    case NUCLEUS_DUMP_ORDER: return "a field's tag is unknown or lower than the one before it, or 1, 3 or 4 stands there twice";
    case NUCLEUS_DUMP_RANGE: return "a number in a field is out of range, or does not go with runner, state or kind";
    case NUCLEUS_DUMP_NAME: return "a field has the name of no live thread where a live one has to stand";
    case NUCLEUS_DUMP_RULE: return "another rule for dumps is broken: order, status, queues, parents and so on";
    default: return "no refusal has this number";
    }
}

/* Status of the node. */
enum nucleus_status { NUCLEUS_RUNNING = 0, NUCLEUS_IDLE = 1, NUCLEUS_HALTED = 2, NUCLEUS_PANICKED = 3 };

/* State of a thread. */
enum nucleus_state {
    NUCLEUS_IS_RUNNING = 0,
    NUCLEUS_IS_READY = 1,
    NUCLEUS_IS_RECEIVING = 2, /* "from one name or anybody" */
    NUCLEUS_IS_AT_CLOCK = 3,  /* "waiting for the clock" */
    NUCLEUS_IS_AT_DEVICE = 4, /* "waiting for a device" */
    NUCLEUS_IS_TRAPPED = 5
};

/* Kind of an answer. In an inbox there are messages and notices only. */
enum nucleus_kind {
    NUCLEUS_NONE = 0,        /* sender 255, word 0 */
    NUCLEUS_MESSAGE = 1,     /* its sender and its word */
    NUCLEUS_NOTICE = 2,      /* of a trap: the trapped thread and the cause */
    NUCLEUS_SENDER_GONE = 3, /* who has ended, and word 0 */
    NUCLEUS_RESULT = 4       /* of a service: sender 254, and the result */
};

/* Fields of a dump, in this order: tag, length and value as in an event. A dump is how a board reads a single thing of its tables. */
enum nucleus_field {
    NUCLEUS_FIELD_NODE = 1,    /* status 1, "name given last" 1, runner 1 or 255, "slice left" 1, "ticks since the beat" 1, beats 4 */
    NUCLEUS_FIELD_THREAD = 2,  /* "per thread by rising name": name 1, parent 1 or 255, state 1, detail 1, managers for program, TLB and
                                  SYS/Bp traps 1 each ("255 none, 254 gone"), tick count 4, answer "waiting": kind 1, sender 1, word 4.
                                  The detail: receiving: "wanted name or 255"; at a device: which; trapped: the kind; else 0 */
    NUCLEUS_FIELD_READY = 3,   /* "ready names, front first", 1 each */
    NUCLEUS_FIELD_CLOCK = 4,   /* "clock waiters, in order", 1 each */
    NUCLEUS_FIELD_MESSAGE = 5, /* "per message by rising receiver, oldest first": receiver 1, sender 1, kind 1, word 4 */
    NUCLEUS_FIELD_HELD = 6     /* "per held status by rising device": device 1, word 4 */
};

/* ---- The tables that a board lends

   Room for all that the nucleus keeps. Only the nucleus writes it, and what a single word says is no part of this header: it may change
   with the library, and some words say nothing. What a board may rely on: every bit pattern is allowed, and one that stands for no
   tables that meet the table rules is answered with 11; a refused call changes no bit; no word is an address, so tables may be copied
   and moved between calls. Whoever wants to know something of the tables takes a dump. */
struct nucleus_tables {
    uint32_t words[NUCLEUS_TABLES_WORDS];
};

/* ---- What the calls answer */

/* A decision. The answer (kind, sender, word) is now handed to the runner. */
struct nucleus_report {
    uint8_t refusal;
    uint8_t status; /* of the node; 255 with refusal 11 */
    uint8_t runner; /* or 255 */
    uint8_t kind;
    uint8_t sender;
    uint32_t word;
};

/* A decision in a batch is six numbers: where each member of a report stands among them. */
enum nucleus_place {
    NUCLEUS_AT_REFUSAL = 0,
    NUCLEUS_AT_STATUS = 1,
    NUCLEUS_AT_RUNNER = 2,
    NUCLEUS_AT_KIND = 3,
    NUCLEUS_AT_SENDER = 4,
    NUCLEUS_AT_WORD = 5
};

/* Bytes that are lent: where they begin, and how many there are. */
struct nucleus_bytes {
    const uint8_t *bytes;
    size_t length;
};

struct nucleus_dumped {
    uint8_t refusal; /* 0, 11 or 12 */
    size_t length;   /* of the dump; "a refused dump has length 0" */
};

struct nucleus_loaded {
    uint8_t refusal; /* 0, 15 to 19 */
    size_t offset;   /* "of the first byte of the field at fault, or the length of the input where a field is missing or cut"; with 0 and
                        19 it is 0 */
};

struct nucleus_picked {
    uint8_t refusal; /* 0 or 2 */
    uint8_t device;  /* "a refused pick" has 255 */
};

struct nucleus_sizes {
    uint32_t tables; /* bytes of struct nucleus_tables */
    uint32_t report; /* bytes of struct nucleus_report */
    uint32_t dump;   /* bytes that suffice for every dump */
};

/* Whoever packs structs, or has others than the library, is told here. */
typedef char nucleus_tables_fit[sizeof(struct nucleus_tables) == NUCLEUS_TABLES_BYTES ? 1 : -1];
typedef char nucleus_report_fits[sizeof(struct nucleus_report) == NUCLEUS_REPORT_BYTES ? 1 : -1];
typedef char nucleus_lengths_fit[sizeof(size_t) == 8 && sizeof(struct nucleus_dumped) == 16 ? 1 : -1];
typedef char nucleus_offsets_fit[sizeof(size_t) == 8 && sizeof(struct nucleus_loaded) == 16 ? 1 : -1];
typedef char nucleus_bytes_fit[sizeof(const uint8_t *) == 8 && sizeof(struct nucleus_bytes) == 16 ? 1 : -1];

/* ---- Events, built

   Each writes one event to the front of a caller's array and returns its length. Bytes behind that length stay as they were. The array has
   NUCLEUS_EVENT_BYTES, also for a shorter event: gcc warns of fewer. Every value that fits its type is let through: the nucleus answers it.
   One that does not fit is cut by C, before the builder has it: a name of 300 would be 44. -Wconversion tells of such.

       uint8_t event[NUCLEUS_EVENT_BYTES];
       size_t length = nucleus_send_event(event, 1, 7);
       struct nucleus_report report = nucleus_step(&tables, event, length);   */

/* For the builders: tag and length, which gives the length of the whole event; and a word, big-endian. */
static inline size_t nucleus_put_head(uint8_t *event, uint8_t tag, uint8_t value_length)
{
    event[0] = tag;
    event[1] = 0;
    event[2] = value_length;
    return 3 + (size_t)value_length;
}

static inline void nucleus_put_word(uint8_t *at, uint32_t word)
{
    at[0] = (uint8_t)(word >> 24);
    at[1] = (uint8_t)(word >> 16);
    at[2] = (uint8_t)(word >> 8);
    at[3] = (uint8_t)word;
}

static inline size_t nucleus_send_event(uint8_t event[NUCLEUS_EVENT_BYTES], uint8_t name, uint32_t word)
{
    event[3] = name;
    nucleus_put_word(event + 4, word);
    return nucleus_put_head(event, NUCLEUS_SEND, 5);
}

/* Name 255 is anybody. */
static inline size_t nucleus_receive_event(uint8_t event[NUCLEUS_EVENT_BYTES], uint8_t name)
{
    event[3] = name;
    return nucleus_put_head(event, NUCLEUS_RECEIVE, 1);
}

/* By number; below is one for each service. */
static inline size_t nucleus_request_event(uint8_t event[NUCLEUS_EVENT_BYTES], uint8_t service, uint8_t argument)
{
    event[3] = service;
    event[4] = argument;
    return nucleus_put_head(event, NUCLEUS_REQUEST, 2);
}

static inline size_t nucleus_createbrother_event(uint8_t event[NUCLEUS_EVENT_BYTES])
{
    return nucleus_request_event(event, NUCLEUS_CREATEBROTHER, 0);
}

static inline size_t nucleus_createson_event(uint8_t event[NUCLEUS_EVENT_BYTES])
{
    return nucleus_request_event(event, NUCLEUS_CREATESON, 0);
}

/* Name 255 is oneself. */
static inline size_t nucleus_terminate_event(uint8_t event[NUCLEUS_EVENT_BYTES], uint8_t name)
{
    return nucleus_request_event(event, NUCLEUS_TERMINATE, name);
}

/* The kind is that of a trap (enum nucleus_trap). There is no service for a kind over 2: then service 0 is asked for, which the nucleus
   refuses with 2. */
static inline size_t nucleus_manager_event(uint8_t event[NUCLEUS_EVENT_BYTES], uint8_t kind, uint8_t name)
{
    static const uint8_t services[] = {NUCLEUS_PROGRAM_MANAGER, NUCLEUS_TLB_MANAGER, NUCLEUS_SYSBP_MANAGER};
    return nucleus_request_event(event, kind < sizeof services ? services[kind] : 0, name);
}

static inline size_t nucleus_getcputime_event(uint8_t event[NUCLEUS_EVENT_BYTES])
{
    return nucleus_request_event(event, NUCLEUS_GETCPUTIME, 0);
}

static inline size_t nucleus_waitforclock_event(uint8_t event[NUCLEUS_EVENT_BYTES])
{
    return nucleus_request_event(event, NUCLEUS_WAITFORCLOCK, 0);
}

static inline size_t nucleus_waitforio_event(uint8_t event[NUCLEUS_EVENT_BYTES], uint8_t device)
{
    return nucleus_request_event(event, NUCLEUS_WAITFORIO, device);
}

static inline size_t nucleus_trap_event(uint8_t event[NUCLEUS_EVENT_BYTES], uint8_t kind, uint32_t cause)
{
    event[3] = kind;
    nucleus_put_word(event + 4, cause);
    return nucleus_put_head(event, NUCLEUS_TRAP, 5);
}

static inline size_t nucleus_tick_event(uint8_t event[NUCLEUS_EVENT_BYTES])
{
    return nucleus_put_head(event, NUCLEUS_TICK, 0);
}

/* Bit n of pending is device n. The status is that of the device that nucleus_pick gives for them. */
static inline size_t nucleus_interrupt_event(uint8_t event[NUCLEUS_EVENT_BYTES], uint64_t pending, uint32_t status)
{
    nucleus_put_word(event + 3, (uint32_t)(pending >> 32));
    nucleus_put_word(event + 7, (uint32_t)pending);
    nucleus_put_word(event + 11, status);
    return nucleus_put_head(event, NUCLEUS_INTERRUPT, 12);
}

/* ---- The calls

   No pointer is null, also where a length is 0. Nothing that is lent to a call overlaps: tables, an event or its bytes, a buffer, a dump's
   bytes, and in a batch also the struct that names the bytes, the numbers and the refusal. No other call on any of it is under way. */

/* Puts the tables of a start there: thread 0 runs. "Starting is never refused", and the room may hold anything before. */
void nucleus_start(struct nucleus_tables *tables);

/* The next event: "one event to the next tables and a decision". Refusals 11, 1 to 10. */
struct nucleus_report nucleus_step(struct nucleus_tables *tables, const uint8_t *event, size_t length);

/* A batch: runs the complete fields of *events in order, each as nucleus_step would. A field is complete if its three-byte head and its
   declared length are there, malformed or not.

   Decision n, from 0, is the six numbers from numbers[NUCLEUS_DECISION_NUMBERS * n] on (enum nucleus_place), for refused events too.
   "Numbers behind the last decision stay." room is how many numbers are there. Twice the length of the bytes is always enough, since no
   field is shorter than three.

   Then *events is "the unread end of the caller's bytes": the same memory, never a copy. Its pointer has moved on to the first byte that
   was not run, and its length is what is left from there: a last field that is cut short, or nothing. With nothing left the length is 0 and
   the pointer is one behind the last byte. Empty bytes, or only a cut field: both stay as they were, and no number is written. No byte of
   the events themselves is ever written.

   *refusal is 0 or 14; what it held before does not matter. 14 comes "before all others", 11 too, with room for fewer decisions than there
   are complete fields: then "nothing is run" and "nothing else written", and *events stays as it was. Refusals 1 to 11 stand in the
   decisions. Tables that do not meet the table rules are answered in each: 11 255 255 0 255 0. */
void nucleus_batch(struct nucleus_tables *tables, struct nucleus_bytes *events, uint32_t *numbers, size_t room, uint8_t *refusal);

/* 0 if the tables meet the table rules, else 11. */
uint8_t nucleus_check(const struct nucleus_tables *tables);

/* Writes the dump to the front of the buffer; "bytes behind the dump stay". Refusals 11 and 12. */
struct nucleus_dumped nucleus_dump(const struct nucleus_tables *tables, uint8_t *buffer, size_t length);

/* Puts the tables of a dump there: refusal 0 and offset 0. The room may hold anything before. Bytes that are no dump are refused, and the
   offset says where they are bad. "Where several rules fail, the first in the list below counts, and within it the earliest field":

   15  at a field 1, 2, 5 or 6 whose length is not 9, 17, 7 or 5. Or at the length of the bytes: the last field's value is not all there,
       one or two bytes are left that are no whole head, or no field 1, 3 or 4 stands there. Fields 3 and 4 may have any length.
   16  at a field whose tag is not 1 to 6, or is lower than that of the field right before it, or at a second 1, 3 or 4.
   17  at a field with a number that is never right there: a status over 3, a name or a device that cannot be, a state over 5, a slice that
       does not go with the runner, a detail with the state, an answer's sender or word with its kind.
   18  at a field with a name that no field 2 has: of the runner, a parent, who is wanted, a manager that is set, who is ready or at the
       clock, who sends or receives a message. Also at a trapped thread whose manager for that trap is none or gone. The name given last
       and the senders of answers may have ended.
   19  offset 0: all this is right, and another rule is broken: the status, queues against states, rising names, a cycle of parents .. */
struct nucleus_loaded nucleus_load(struct nucleus_tables *tables, const uint8_t *bytes, size_t length);

/* Bit n of pending is device n. The pick takes "the lowest pending number from 0 to 31, then the lowest transmitter" (32, 34 .. 46), "then
   the lowest receiver" (33, 35 .. 47), so that a held key does not delay a log. Refusal 2 with none pending, or one over 47. */
struct nucleus_picked nucleus_pick(uint64_t pending);

/* The library's own sizes, to hold this file to. In C++ a call may be named as a struct is, but with -Wshadow g++ warns of it. */
#if defined __cplusplus && defined __GNUC__
#pragma GCC diagnostic push
#pragma GCC diagnostic ignored "-Wshadow"
#endif
struct nucleus_sizes nucleus_sizes(void);
#if defined __cplusplus && defined __GNUC__
#pragma GCC diagnostic pop
#endif

#ifdef __cplusplus
}
#endif

#endif
