/* Holds include/nucleus.h to the library, by what the calls do: built and run by tests/board. The last line is 'N passed, M failed'.

   Tables are made as a model of this file, which knows document 01 alone, written as a dump and loaded. Every call is made with guard
   bytes around all that is lent to it, and on a stack of its own, which shows how much of it was written. A line for each call says how
   many bytes of stack it took at the deepest: 'stack CALL BYTES'. tests/board judges them. C++ compiles this file too. */
#define _POSIX_C_SOURCE 200809L
#include "nucleus.h"

#include <pthread.h>
#include <stdio.h>
#include <string.h>

#define GUARD 0xA5

/* ---- what is lent, with guard bytes around it */

static struct {
    uint8_t before[64];
    struct nucleus_tables tables;
    uint8_t behind[64];
} room, room_was;

static struct {
    uint8_t before[61]; /* so that the bytes are not aligned */
    uint8_t bytes[NUCLEUS_DUMP_BYTES + 100];
    uint8_t behind[64];
} buffer, buffer_was;

/* Of a batch: what names its bytes, which are those of the buffer, and what it writes. The numbers are aligned to four bytes only. */
#define NUMBERS (2 * sizeof buffer.bytes) /* no batch gives more: three bytes at least for each six */
static struct {
    uint64_t before[8];
    struct nucleus_bytes events;
    uint64_t behind[8];
} named, named_was;

static struct {
    uint32_t before[15];
    uint32_t row[NUMBERS];
    uint32_t behind[16];
} numbers, numbers_was;

static struct {
    uint8_t before[61];
    uint8_t refusal;
    uint8_t behind[64];
} lent, lent_was;

static struct nucleus_tables *const t = &room.tables;
static unsigned passed, failed;
static unsigned refusals_met; /* bit n for refusal n */

static void expect(int good, const char *what, unsigned long number)
{
    good ? passed++ : failed++;
    if (!good)
        printf("FAILED  %s (%lu)\n", what, number);
}

static void equal(unsigned long found, unsigned long wanted, const char *what, unsigned long number)
{
    expect(found == wanted, what, number);
    if (found != wanted)
        printf("        found %lu, wanted %lu\n", found, wanted);
}

static void before_call(void)
{
    memcpy(&room_was, &room, sizeof room);
    memcpy(&buffer_was, &buffer, sizeof buffer);
    memcpy(&named_was, &named, sizeof named);
    memcpy(&numbers_was, &numbers, sizeof numbers);
    memcpy(&lent_was, &lent, sizeof lent);
}

static int differs(const void *a, const void *b, size_t n)
{
    return memcmp(a, b, n) != 0;
}

/* Behind a call: the guards stand, the tables too where the call may not write them, and the buffer but for what was written. */
static void after_call(const char *call, unsigned refusal, int tables_stand, size_t written)
{
    unsigned long broken = 0; /* a bit for each thing that does not stand */
    if (refusal > NUCLEUS_DUMP_RULE || written > sizeof buffer.bytes) {
        expect(0, call, refusal);
        return;
    }
    refusals_met |= 1u << refusal;
    broken |= differs(room.before, room_was.before, sizeof room.before) ? 1 : 0;
    broken |= differs(room.behind, room_was.behind, sizeof room.behind) ? 2 : 0;
    broken |= tables_stand && differs(t, &room_was.tables, sizeof *t) ? 4 : 0;
    broken |= differs(buffer.before, buffer_was.before, sizeof buffer.before) ? 8 : 0;
    broken |= differs(buffer.behind, buffer_was.behind, sizeof buffer.behind) ? 16 : 0;
    broken |= differs(buffer.bytes + written, buffer_was.bytes + written, sizeof buffer.bytes - written) ? 32 : 0;
    expect(broken == 0, call, broken);
}

/* Behind a batch too: the guards of what only a batch is lent stand, and the numbers but for those that it may have given. */
static void after_batch(size_t given)
{
    unsigned long broken = 0;
    broken |= differs(named.before, named_was.before, sizeof named.before) ? 1 : 0;
    broken |= differs(named.behind, named_was.behind, sizeof named.behind) ? 2 : 0;
    broken |= differs(numbers.before, numbers_was.before, sizeof numbers.before) ? 4 : 0;
    broken |= differs(numbers.behind, numbers_was.behind, sizeof numbers.behind) ? 8 : 0;
    broken |= differs(numbers.row + given, numbers_was.row + given, sizeof numbers.row - given * sizeof numbers.row[0]) ? 16 : 0;
    broken |= differs(lent.before, lent_was.before, sizeof lent.before) ? 32 : 0;
    broken |= differs(lent.behind, lent_was.behind, sizeof lent.behind) ? 64 : 0;
    expect(broken == 0, "what is lent to a batch", broken);
}

/* ---- each call, on a stack of its own */

enum call { NO_CALL, START, STEP, BATCH, CHECK, DUMP, LOAD, PICK, SIZES, CALLS };
static const char *const call_names[] = {"no call", "nucleus_start", "nucleus_step", "nucleus_batch", "nucleus_check", "nucleus_dump",
                                         "nucleus_load", "nucleus_pick", "nucleus_sizes"};
static size_t deepest[CALLS]; /* bytes, from the top of the stack */
static uint8_t stack[1 << 17];

/* A call is made so far down the stack. A thread writes some KB of it by itself when it starts and ends: nearer to the top this would
   hide what a call writes. */
#define DOWN 32768

static struct {
    uintptr_t down; /* that place; since it is kept, the compiler leaves the way to it as long as it is */
    size_t length;  /* of the event, of the buffer, of the dump, or how many numbers are lent */
    size_t reached; /* bytes, from the top of the stack */
    uint64_t pending;
    struct nucleus_report report;
    struct nucleus_dumped dumped;
    struct nucleus_loaded loaded;
    struct nucleus_picked picked;
    struct nucleus_sizes sizes;
    uint8_t refusal;
} now;

static void nothing(void)
{
}

/* The compiler cannot know what it calls, and leave that out. */
static void (*volatile no_call)(void) = nothing;

static void *make_call(void *which)
{
    volatile uint8_t above[DOWN];
    above[0] = 0;
    now.down = (uintptr_t)above;
    switch (*(enum call *)which) {
    case START: nucleus_start(t); break;
    case STEP: now.report = nucleus_step(t, buffer.bytes, now.length); break;
    case BATCH: nucleus_batch(t, &named.events, numbers.row, now.length, &lent.refusal); break;
    case CHECK: now.refusal = nucleus_check(t); break;
    case DUMP: now.dumped = nucleus_dump(t, buffer.bytes, now.length); break;
    case LOAD: now.loaded = nucleus_load(t, buffer.bytes, now.length); break;
    case PICK: now.picked = nucleus_pick(now.pending); break;
    case SIZES: now.sizes = nucleus_sizes(); break;
    default: no_call(); break;
    }
    return NULL;
}

static void call(enum call which, size_t length)
{
    pthread_attr_t with_stack;
    pthread_t thread;
    size_t untouched = 0;
    now.length = length;
    memset(stack, GUARD, sizeof stack);
    if (pthread_attr_init(&with_stack) || pthread_attr_setstack(&with_stack, stack, sizeof stack)
        || pthread_create(&thread, &with_stack, make_call, &which) || pthread_join(thread, NULL))
        expect(0, "no thread with a stack of its own", which);
    pthread_attr_destroy(&with_stack);
    while (untouched < sizeof stack && stack[untouched] == GUARD)
        untouched++;
    now.reached = sizeof stack - untouched;
    if (deepest[which] < now.reached)
        deepest[which] = now.reached;
}

static void start(void)
{
    before_call();
    call(START, 0);
    after_call("start", 0, 0, 0);
}

static struct nucleus_report step(const uint8_t *event, size_t length)
{
    memcpy(buffer.bytes, event, length);
    before_call();
    call(STEP, length);
    after_call("step", now.report.refusal, now.report.refusal != 0, 0);
    return now.report;
}

/* A batch of which so many fields are complete and so many bytes are left behind them. It is lent so many numbers, with this in each byte.
   Fewer than it needs: it is refused, and leaves all its bytes. The tables stand if it has accepted no event. */
static void batch(const uint8_t *bytes, size_t length, size_t fields, size_t left, size_t lend, int filling)
{
    size_t given = fields * NUCLEUS_DECISION_NUMBERS, accepted = 0;
    uint8_t wanted = lend < given ? NUCLEUS_SHORT_NUMBERS : 0;
    memcpy(buffer.bytes, bytes, length);
    memset(numbers.row, filling, sizeof numbers.row);
    named.events.bytes = buffer.bytes, named.events.length = length;
    lent.refusal = GUARD;
    before_call();
    call(BATCH, lend);
    if (wanted)
        given = 0, left = length;
    for (size_t i = 0; i < given; i += NUCLEUS_DECISION_NUMBERS)
        accepted += numbers.row[i + NUCLEUS_AT_REFUSAL] == 0;
    after_call("batch", lent.refusal, accepted == 0, 0);
    after_batch(given);
    equal(lent.refusal, wanted, "refusal of a batch", lend);
    expect(named.events.bytes == buffer.bytes + (length - left), "where the unread end of a batch begins", length);
    equal(named.events.length, left, "how long the unread end of a batch is", length);
}

static uint8_t check(void)
{
    before_call();
    call(CHECK, 0);
    after_call("check", now.refusal, 1, 0);
    return now.refusal;
}

static struct nucleus_dumped dump(size_t length)
{
    before_call();
    call(DUMP, length);
    after_call("dump", now.dumped.refusal, 1, now.dumped.length);
    return now.dumped;
}

/* It must be answered so; refused, the tables stand. */
static void load(const uint8_t *bytes, size_t length, uint8_t refusal, size_t offset, const char *what)
{
    memcpy(buffer.bytes, bytes, length);
    before_call();
    call(LOAD, length);
    after_call("load", now.loaded.refusal, now.loaded.refusal != 0, 0);
    equal(now.loaded.refusal, refusal, what, length);
    equal(now.loaded.offset, offset, what, length);
}

static struct nucleus_picked pick(uint64_t pending)
{
    now.pending = pending;
    before_call();
    call(PICK, 0);
    after_call("pick", now.picked.refusal, 1, 0);
    return now.picked;
}

static struct nucleus_sizes sizes(void)
{
    before_call();
    call(SIZES, 0);
    after_call("sizes", 0, 1, 0);
    return now.sizes;
}

/* ---- tables as this file knows them */

#define MESSAGES (NUCLEUS_BLOCKS + NUCLEUS_THREADS) /* with a notice of each thread */

struct names {
    size_t n;
    uint8_t row[NUCLEUS_THREADS];
};

struct thread {
    uint8_t name, parent, state, detail, program, tlb, sysbp, kind, sender;
    uint32_t ticks, word;
};

struct message {
    uint8_t to, from, kind;
    uint32_t word;
};

struct held {
    uint8_t device;
    uint32_t word;
};

static struct {
    uint8_t last, runner, slice, since;
    uint32_t beats;
    size_t count, letters, words;
    struct thread threads[NUCLEUS_THREADS];
    struct names ready, clock;
    struct message messages[MESSAGES];
    struct held held[NUCLEUS_DEVICES];
} model;

/* ---- a writer of dumps, from document 01 */

static uint8_t made[NUCLEUS_DUMP_BYTES];
static size_t made_length;

static void byte(uint8_t b)
{
    made[made_length++] = b;
}

static void word(uint32_t w)
{
    for (int shift = 24; shift >= 0; shift -= 8)
        byte((uint8_t)(w >> shift));
}

static void head(uint8_t tag, size_t value)
{
    byte(tag);
    byte((uint8_t)(value >> 8));
    byte((uint8_t)value);
}

static void thread_field(const struct thread *h)
{
    head(NUCLEUS_FIELD_THREAD, 17);
    byte(h->name), byte(h->parent), byte(h->state), byte(h->detail);
    byte(h->program), byte(h->tlb), byte(h->sysbp), word(h->ticks);
    byte(h->kind), byte(h->sender), word(h->word);
}

static void names_field(uint8_t tag, const struct names *names)
{
    head(tag, names->n);
    for (size_t i = 0; i < names->n; i++)
        byte(names->row[i]);
}

static void write_model(uint8_t status)
{
    made_length = 0;
    head(NUCLEUS_FIELD_NODE, 9);
    byte(status), byte(model.last), byte(model.runner), byte(model.slice), byte(model.since), word(model.beats);
    for (size_t i = 0; i < model.count; i++)
        thread_field(&model.threads[i]);
    names_field(NUCLEUS_FIELD_READY, &model.ready);
    names_field(NUCLEUS_FIELD_CLOCK, &model.clock);
    for (size_t i = 0; i < model.letters; i++) {
        const struct message *m = &model.messages[i];
        head(NUCLEUS_FIELD_MESSAGE, 7);
        byte(m->to), byte(m->from), byte(m->kind), word(m->word);
    }
    for (size_t i = 0; i < model.words; i++) {
        head(NUCLEUS_FIELD_HELD, 5);
        byte(model.held[i].device), word(model.held[i].word);
    }
}

/* ---- two tables: one with every state and kind, and one as full as can be */

static uint8_t name_of(size_t i)
{
    return i % 20 ? (uint8_t)(i % 20 * 11 + 5) : 0;
}

static void add_message(size_t to, size_t from, uint8_t kind)
{
    struct message *m = &model.messages[model.letters];
    m->to = name_of(to), m->from = name_of(from), m->kind = kind;
    m->word = 0x81020304u + (uint32_t)model.letters++ * 0x01010101u;
}

static void add_held(uint8_t device)
{
    struct held *h = &model.held[model.words++];
    h->device = device, h->word = 0x91929394u + device * 0x01010101u;
}

/* Twenty threads with three managers each, in the state and with the detail and answer of these rows. */
static void make_threads(uint8_t rows[20][4])
{
    memset(&model, 0, sizeof model);
    model.last = 253, model.since = 17, model.beats = 0xC1C2C3C4u, model.count = 20;
    for (size_t i = 0; i < 20; i++) {
        struct thread *h = &model.threads[i];
        h->name = name_of(i), h->parent = i ? name_of((i - 1) / 2) : NUCLEUS_NOBODY;
        h->state = rows[i][0], h->detail = rows[i][1], h->kind = rows[i][2], h->sender = rows[i][3];
        h->program = name_of(i + 1), h->tlb = name_of(i + 2), h->sysbp = name_of(i + 3);
        h->ticks = 0xA1A2A3A4u + (uint32_t)i * 0x01010101u;
        h->word = h->kind == 0 || h->kind == 3 ? 0 : 0xB1B2B3B4u + (uint32_t)i * 0x01010101u;
    }
}

/* Threads in every state, with every kind of answer. */
static uint8_t mixed[20][4] = {
    {NUCLEUS_IS_RECEIVING, 214, 0, 255},
    {NUCLEUS_IS_READY, 0, NUCLEUS_NONE, NUCLEUS_NOBODY},
    {NUCLEUS_IS_READY, 0, NUCLEUS_MESSAGE, 99},
    {NUCLEUS_IS_RUNNING, 0, 0, 255},
    {NUCLEUS_IS_READY, 0, NUCLEUS_NOTICE, 77},
    {NUCLEUS_IS_READY, 0, NUCLEUS_SENDER_GONE, 88},
    {NUCLEUS_IS_READY, 0, NUCLEUS_RESULT, NUCLEUS_SERVICE},
    {NUCLEUS_IS_RECEIVING, NUCLEUS_NOBODY, 0, 255},
    {NUCLEUS_IS_RECEIVING, 27, 0, 255},
    {NUCLEUS_IS_AT_CLOCK, 0, 0, 255},
    {NUCLEUS_IS_AT_CLOCK, 0, 0, 255},
    {NUCLEUS_IS_AT_CLOCK, 0, 0, 255},
    {NUCLEUS_IS_AT_DEVICE, NUCLEUS_DEVICES - 1, 0, 255},
    {NUCLEUS_IS_AT_DEVICE, 0, 0, 255},
    {NUCLEUS_IS_AT_DEVICE, 21, 0, 255},
    {NUCLEUS_IS_TRAPPED, NUCLEUS_PROGRAM, 0, 255},
    {NUCLEUS_IS_TRAPPED, NUCLEUS_TLB, 0, 255},
    {NUCLEUS_IS_TRAPPED, NUCLEUS_SYSBP, 0, 255},
    {NUCLEUS_IS_TRAPPED, NUCLEUS_PROGRAM, 0, 255},
    {NUCLEUS_IS_TRAPPED, NUCLEUS_TLB, 0, 255},
};

static void make_mixed(void)
{
    static const uint8_t ready[] = {4, 1, 6, 2, 5}, clock[] = {11, 9, 10};
    make_threads(mixed);
    model.runner = name_of(3), model.slice = 3;
    model.threads[1].program = NUCLEUS_NOBODY, model.threads[2].tlb = NUCLEUS_GONE, model.threads[3].sysbp = NUCLEUS_NOBODY;
    for (size_t i = 0; i < 5; i++)
        model.ready.row[model.ready.n++] = name_of(ready[i]);
    for (size_t i = 0; i < 3; i++)
        model.clock.row[model.clock.n++] = name_of(clock[i]);
    for (size_t i = 0; i < 20; i++) {
        if (i != 7)
            add_message(i, i * 7 + 3, NUCLEUS_MESSAGE);
        /* a trapped thread's notice is with the manager of its kind */
        for (size_t k = 15; k < 20; k++)
            if (name_of(k + 1 + model.threads[k].detail) == name_of(i))
                add_message(i, k, NUCLEUS_NOTICE);
    }
    for (uint8_t d = 1; d < 47; d++)
        if (d != 21)
            add_held(d);
}

/* All are trapped and no notice is read: 40 messages and 48 words. */
static void make_full(void)
{
    static uint8_t rows[20][4];
    for (size_t i = 0; i < 20; i++)
        rows[i][0] = NUCLEUS_IS_TRAPPED, rows[i][3] = NUCLEUS_NOBODY;
    make_threads(rows);
    model.runner = NUCLEUS_NOBODY, model.slice = 0;
    for (size_t i = 0; i < 20; i++) {
        add_message(i, i + 19, NUCLEUS_NOTICE);
        add_message(i, i + 4, NUCLEUS_MESSAGE);
    }
    for (uint8_t d = 0; d < 48; d++)
        add_held(d);
}

/* ---- the tests */

static void its_sizes(void)
{
    struct nucleus_sizes s = sizes();
    equal(s.tables, sizeof(struct nucleus_tables), "bytes of tables", 0);
    equal(s.tables, NUCLEUS_TABLES_BYTES, "bytes of tables", 1);
    equal(sizeof t->words / sizeof t->words[0], NUCLEUS_TABLES_WORDS, "words of tables", 0);
    equal(s.report, sizeof(struct nucleus_report), "bytes of a report", 0);
    equal(s.dump, NUCLEUS_DUMP_BYTES, "bytes of a dump", 0);
}

/* The lent tables are the model's: they meet the table rules, and have its dump. The buffer just suffices, or is a byte short. */
static void same_as_model(const char *what, uint8_t status)
{
    write_model(status);
    equal(check(), 0, what, 0);
    memset(buffer.bytes, 0x33, sizeof buffer.bytes);
    struct nucleus_dumped d = dump(made_length);
    equal(d.refusal, 0, what, 1);
    equal(d.length, made_length, what, 2);
    expect(!memcmp(buffer.bytes, made, made_length), what, 3);
    d = dump(made_length - 1);
    equal(d.refusal, NUCLEUS_SHORT_BUFFER, what, 4);
    equal(d.length, 0, what, 5);
}

/* What a room may hold before: bytes all the same, and words that are all different. */
static const int fillings[] = {0x00, 0xFF, 0x5A, 0x14, -1};
#define FILLINGS (sizeof fillings / sizeof fillings[0])

static void fill(int filling)
{
    memset(t, filling, sizeof *t);
    for (uint32_t i = 0; filling < 0 && i < NUCLEUS_TABLES_WORDS; i++)
        t->words[i] = (i + 1) * 0x9E3779B9u;
}

/* A start looks at nothing that stood there. */
static void starts(void)
{
    memset(&model, 0, sizeof model);
    model.slice = NUCLEUS_SLICE, model.count = 1;
    model.threads[0].parent = NUCLEUS_NOBODY, model.threads[0].sender = NUCLEUS_NOBODY;
    model.threads[0].program = model.threads[0].tlb = model.threads[0].sysbp = NUCLEUS_NOBODY;
    for (size_t i = 0; i < FILLINGS; i++) {
        fill(fillings[i]);
        start();
        same_as_model("a start", NUCLEUS_RUNNING);
    }
    equal(made_length, 38, "P10's dump", 0);
}

static void put_model(const char *what, uint8_t status)
{
    write_model(status);
    load(made, made_length, NUCLEUS_ACCEPTED, 0, what);
}

/* The model is loaded into any room, and dumped as it was written. */
static void there_and_back(const char *what, uint8_t status)
{
    for (size_t i = 0; i < FILLINGS; i++) {
        fill(fillings[i]);
        put_model(what, status);
        same_as_model(what, status);
    }
}

/* The dump just written, cut or changed. Cut behind a whole field 5 or 6 it can be one (docs/DECISIONS.md), not so within a field. */
static void no_dumps(void)
{
    for (size_t n = 0; n < 12; n++)
        load(made, n, NUCLEUS_DUMP_CUT, n, "a dump cut in field 1");
    load(made, made_length - 1, NUCLEUS_DUMP_CUT, made_length - 1, "a dump cut short");
    made[3] ^= 1; /* tables hold no status: this is found last of all */
    load(made, made_length, NUCLEUS_DUMP_RULE, 0, "another status");
    made[3] ^= 1;
    made[4] = 254;
    load(made, made_length, NUCLEUS_DUMP_RANGE, 0, "a name given last that cannot be");
    made[4] = 253;
    made[made_length - 5] = 48; /* the last held word's device */
    load(made, made_length, NUCLEUS_DUMP_RANGE, made_length - 8, "a device that cannot be");
}

static void reports(const char *what, struct nucleus_report r, const unsigned long wanted[6])
{
    equal(r.refusal, wanted[0], what, 0);
    equal(r.status, wanted[1], what, 1);
    equal(r.runner, wanted[2], what, 2);
    equal(r.kind, wanted[3], what, 3);
    equal(r.sender, wanted[4], what, 4);
    equal(r.word, wanted[5], what, 5);
}

static size_t from_hex(const char *hex, uint8_t *bytes)
{
    static const char digits[] = "0123456789ABCDEF";
    size_t n = 0;
    for (; *hex; hex++)
        if (*hex != ' ') {
            bytes[n / 2] = (uint8_t)(bytes[n / 2] * 16 + (strchr(digits, *hex) - digits));
            n++;
        }
    return n / 2;
}

/* P10's dump in parts: field 1, field 2, fields 3 and 4. And one more thread, which is ready, with an answer of a sender that has ended. */
#define NODE "010009 00 00 00 05 00 00000000 "
#define THREAD "020011 00 FF 00 00 FFFFFF 00000000 00 FF 00000000 "
#define QUEUES "030000 040000 "
#define SECOND "020011 01 00 01 00 FFFFFF 00000000 01 63 00000007 "
#define LETTER "050007 00 00 01 00000007 "

static const struct {
    const char *hex;
    uint8_t refusal;
    size_t offset;
} small_dumps[] = {
    {NODE THREAD QUEUES, 0, 0},
    {"010009 00 FD 00 05 00 00000000" THREAD QUEUES, 0, 0}, /* the name given last need not be live, nor an answer's sender */
    {NODE THREAD SECOND "030001 01 040000", 0, 0},
    {NODE THREAD QUEUES LETTER LETTER "060005 2F 00000000", 0, 0},

    {"", 15, 0}, /* cut short: the length of the input */
    {NODE THREAD "030000 0400", 15, 37},
    {NODE THREAD QUEUES "05", 15, 39},
    {NODE THREAD QUEUES "050007 00 00 01 000000", 15, 47},
    {NODE THREAD QUEUES "050009 00 00 01 000000", 15, 47}, /* a wrong length too, but its value is not there */
    {NODE THREAD QUEUES "070001", 15, 41},
    {"01000A 00 00 00 05 00 00000000 00" THREAD QUEUES, 15, 0}, /* wrong length */
    {NODE "020010 00 FF 00 00 FFFFFF 00000000 00 FF 000000" QUEUES, 15, 12},
    {NODE THREAD QUEUES "050000", 15, 38},
    {NODE THREAD QUEUES LETTER "060004 00 000000 060005", 15, 48},
    {THREAD QUEUES, 15, 26}, /* no field 1, 3 or 4 */
    {NODE THREAD "040000", 15, 35},
    {NODE THREAD "030000", 15, 35},
    {"070000" NODE THREAD "030001 FF", 15, 39}, /* before what else is wrong */

    {NODE THREAD QUEUES "070000", 16, 38}, /* unknown tag, of any length */
    {NODE "000003 000000" THREAD QUEUES, 16, 12},
    {"080002 4080" NODE THREAD QUEUES, 16, 0},
    {NODE THREAD "040000 030000", 16, 35}, /* out of order: the one that comes too late */
    {THREAD NODE QUEUES, 16, 20},
    {NODE THREAD QUEUES "060005 00 00000000" LETTER, 16, 46},
    {NODE NODE THREAD QUEUES, 16, 12}, /* a second 1, 3 or 4 */
    {NODE THREAD "030000" QUEUES, 16, 35},
    {NODE THREAD QUEUES "040000", 16, 38},
    {"010009 04 00 00 05 00 00000000" THREAD QUEUES "040000", 16, 38}, /* before a value */

    {"010009 04 00 00 05 00 00000000" THREAD QUEUES, 17, 0}, /* status, last, runner, slice, ticks since the beat */
    {"010009 00 FE 00 05 00 00000000" THREAD QUEUES, 17, 0},
    {"010009 00 00 FE 05 00 00000000" THREAD QUEUES, 17, 0},
    {"010009 00 00 00 00 00 00000000" THREAD QUEUES, 17, 0},
    {"010009 00 00 FF 05 00 00000000" THREAD QUEUES, 17, 0},
    {"010009 00 00 00 05 14 00000000" THREAD QUEUES, 17, 0},
    {NODE "020011 FE FF 00 00 FFFFFF 00000000 00 FF 00000000" QUEUES, 17, 12}, /* name, parent, state, detail, answer */
    {NODE "020011 00 FE 00 00 FFFFFF 00000000 00 FF 00000000" QUEUES, 17, 12},
    {NODE "020011 00 FF 06 00 FFFFFF 00000000 00 FF 00000000" QUEUES, 17, 12},
    {NODE "020011 00 FF 00 01 FFFFFF 00000000 00 FF 00000000" QUEUES, 17, 12},
    {NODE "020011 00 FF 02 FE FFFFFF 00000000 00 FF 00000000" QUEUES, 17, 12},
    {NODE "020011 00 FF 04 30 FFFFFF 00000000 00 FF 00000000" QUEUES, 17, 12},
    {NODE "020011 00 FF 05 03 FFFFFF 00000000 00 FF 00000000" QUEUES, 17, 12},
    {NODE "020011 00 FF 00 00 FFFFFF 00000000 00 00 00000000" QUEUES, 17, 12},
    {NODE "020011 00 FF 00 00 FFFFFF 00000000 01 FE 00000000" QUEUES, 17, 12},
    {NODE "020011 00 FF 00 00 FFFFFF 00000000 03 00 00000001" QUEUES, 17, 12},
    {NODE "020011 00 FF 00 00 FFFFFF 00000000 04 00 00000000" QUEUES, 17, 12},
    {NODE "020011 00 FF 00 00 FFFFFF 00000000 05 00 00000000" QUEUES, 17, 12},
    {NODE THREAD "030001 FE 040000", 17, 32}, /* ready, clock, message, held word */
    {NODE THREAD "030000 040001 FF", 17, 35},
    {NODE THREAD QUEUES LETTER "050007 00 00 03 00000007", 17, 48},
    {NODE THREAD QUEUES "050007 FF 00 01 00000007", 17, 38},
    {NODE THREAD QUEUES LETTER "060005 30 00000000", 17, 48},
    {"010009 00 00 07 05 00 00000000" THREAD "030001 09 040001 FF", 17, 36}, /* before a name that is not live */

    {"010009 00 00 01 05 00 00000000" THREAD QUEUES, 18, 0}, /* runner, parent, wanted, managers */
    {NODE "020011 00 01 00 00 FFFFFF 00000000 00 FF 00000000" QUEUES, 18, 12},
    {NODE "020011 00 FF 02 07 FFFFFF 00000000 00 FF 00000000" QUEUES, 18, 12},
    {NODE "020011 00 FF 00 00 07FFFF 00000000 00 FF 00000000" QUEUES, 18, 12},
    {NODE "020011 00 FF 00 00 FFFEFD 00000000 00 FF 00000000" QUEUES, 18, 12},
    {NODE THREAD "020011 01 00 05 00 FF0000 00000000 00 FF 00000000" QUEUES, 18, 32}, /* trapped, and its own entry is none, or gone */
    {NODE THREAD "020011 01 00 05 01 00FE00 00000000 00 FF 00000000" QUEUES, 18, 32},
    {NODE THREAD "030001 03 040000", 18, 32}, /* ready, clock, receiver, sender */
    {NODE THREAD "030000 040001 FD", 18, 35},
    {NODE THREAD QUEUES LETTER "050007 01 00 01 00000007", 18, 48},
    {NODE THREAD QUEUES "050007 00 01 02 00000007", 18, 38},
    {NODE THREAD "030001 03 040001 FD", 18, 32}, /* the earliest field of several */
    {"010009 01 00 00 05 00 00000000" THREAD "030001 01 040000", 18, 32}, /* before another rule */

    {"010009 01 00 00 05 00 00000000" THREAD QUEUES, 19, 0}, /* status */
    {NODE THREAD "030001 00 040000", 19, 0}, /* the queues and the states do not agree */
    {NODE THREAD SECOND QUEUES, 19, 0},
    {NODE THREAD SECOND "030002 0101 040000", 19, 0},
    {NODE THREAD SECOND SECOND "030001 01 040000", 19, 0}, /* a name twice, names not rising */
    {NODE SECOND THREAD "030001 01 040000", 19, 0},
    {NODE "020011 00 00 00 00 FFFFFF 00000000 00 FF 00000000" QUEUES, 19, 0}, /* 0 with a parent, another thread without one, own manager */
    {NODE THREAD "020011 01 FF 01 00 FFFFFF 00000000 00 FF 00000000 030001 01 040000", 19, 0},
    {NODE "020011 00 FF 00 00 00FFFF 00000000 00 FF 00000000" QUEUES, 19, 0},
    {NODE "020011 00 FF 00 00 FFFFFF 00000000 04 FE 00000000" QUEUES, 19, 0}, /* an answer that nobody who is ready has */
    {NODE THREAD QUEUES "050007 00 00 02 00000007", 19, 0}, /* a notice of one who is not trapped */
    {NODE THREAD QUEUES "060005 05 00000000 060005 05 00000000", 19, 0},
};

/* Small ones into any room. */
static void each_small_dump(void)
{
    for (size_t i = 0; i < sizeof small_dumps / sizeof small_dumps[0]; i++) {
        static uint8_t bytes[128];
        size_t n = from_hex(small_dumps[i].hex, bytes);
        fill(fillings[i % FILLINGS]);
        load(bytes, n, small_dumps[i].refusal, small_dumps[i].offset, small_dumps[i].hex);
        if (!small_dumps[i].refusal)
            equal(check(), 0, small_dumps[i].hex, i);
    }
}

/* More than any dump has: threads, ordinary messages, names in a queue. Each by itself would be right. */
static void too_many(void)
{
    make_full();
    write_model(NUCLEUS_PANICKED);
    size_t rest = 12 + 20 * 20; /* field 1, and 20 threads */
    static uint8_t bytes[sizeof buffer.bytes];
    memcpy(bytes, made, rest);
    memcpy(bytes + rest, made + rest - 20, 20);
    memcpy(bytes + rest + 20, made + rest, made_length - rest);
    bytes[rest + 3] = 253;
    load(bytes, made_length + 20, NUCLEUS_DUMP_RULE, 0, "21 threads");
    rest += 6; /* and the queues */
    memcpy(bytes, made, rest + 20);
    memcpy(bytes + rest + 20, made + rest + 10, made_length - rest - 10);
    load(bytes, made_length + 10, NUCLEUS_DUMP_RULE, 0, "21 ordinary messages");
    memset(bytes, 0, sizeof bytes);
    size_t n = from_hex(NODE THREAD, bytes);
    n += from_hex("030100", bytes + n) + 256;
    n += from_hex("040000", bytes + n);
    load(bytes, n, NUCLEUS_DUMP_RULE, 0, "a queue of 256 names");
    load(bytes, n - 1, NUCLEUS_DUMP_CUT, n - 1, "a queue of 256 names, and a cut field");
}

/* The length of the field that is complete at the front of these bytes, or 0. */
static size_t field(const uint8_t *bytes, size_t length)
{
    size_t whole = length < 3 ? 0 : 3 + ((size_t)bytes[1] << 8 | bytes[2]);
    return whole > length ? 0 : whole;
}

/* A batch on the tables as they stand, and on the same tables a call for each of its fields: equal decisions, and equal dumps behind
   them. The words are not compared, since what they say is the library's own business. */
static void as_single_calls(const char *what, const uint8_t *bytes, size_t length, int filling)
{
    static struct nucleus_tables before;
    static uint8_t dump_of_batch[sizeof buffer.bytes];
    static uint32_t given[NUMBERS];
    size_t fields = 0, at = 0, n;
    before = *t;
    for (; (n = field(bytes + at, length - at)) != 0; at += n)
        fields++;
    batch(bytes, length, fields, length - at, fields * NUCLEUS_DECISION_NUMBERS, filling);
    memcpy(given, numbers.row, sizeof given);
    struct nucleus_dumped d = dump(sizeof buffer.bytes);
    memcpy(dump_of_batch, buffer.bytes, sizeof dump_of_batch);
    *t = before;
    at = 0;
    for (size_t i = 0; i < fields; i++, at += n) {
        unsigned long wanted[6];
        n = field(bytes + at, length - at);
        for (size_t k = 0; k < 6; k++)
            wanted[k] = given[i * NUCLEUS_DECISION_NUMBERS + k];
        reports(what, step(bytes + at, n), wanted);
    }
    struct nucleus_dumped e = dump(sizeof buffer.bytes);
    equal(d.refusal, e.refusal, what, 9);
    equal(d.length, e.length, what, 10);
    expect(!differs(dump_of_batch, buffer.bytes, e.length), what, 11);
}

/* How the bytes of a batch may end, on the tables as they stand: as many numbers as it needs, more, one too few, and none at all. */
static void each_end(const char *what)
{
    static const struct {
        const char *hex;
        size_t fields, left;
    } ends[] = {
        {"", 0, 0},
        {"14", 0, 1}, /* only a cut field */
        {"14 00", 0, 2},
        {"15 000C", 0, 3},
        {"15 000C 0000000000000001 000000", 0, 14},
        {"14 FFFF 14 0000", 0, 6},
        {"14 0000", 1, 0}, /* one that is complete, and one that is cut */
        {"14 0000 15", 1, 1},
        {"14 0000 15 00", 1, 2},
        {"14 0000 15 000C 00", 1, 4},
        {"14 0001 14 0000", 1, 2}, /* malformed, and what is behind its length */
        {"63 0000 12 0003 020000 14 0000 00 0000", 4, 0},
        {"14 0000 15 000C 0000000000000001 D1D2D3D4 10 0005 00 00000001", 3, 0},
    };
    uint8_t bytes[32] = {0};
    for (size_t i = 0; i < sizeof ends / sizeof ends[0]; i++) {
        size_t n = from_hex(ends[i].hex, bytes), fields = ends[i].fields, needed = fields * NUCLEUS_DECISION_NUMBERS;
        if (fields) {
            batch(bytes, n, fields, ends[i].left, 0, 0xFF);
            batch(bytes, n, fields, ends[i].left, needed - 1, 0x00);
        }
        batch(bytes, n, fields, ends[i].left, needed, 0x5A);
        batch(bytes, n, fields, ends[i].left, needed + 1, 0x00);
        batch(bytes, n, fields, ends[i].left, NUMBERS, 0xFF);
        as_single_calls(what, bytes, n, 0xFF);
    }
}

/* A length takes both bytes of the head: a malformed field over 1,026 bytes, and a tick behind it. */
static void a_long_field(void)
{
    static uint8_t bytes[3 + 0x0402 + 3] = {NUCLEUS_SEND, 4, 2};
    bytes[3 + 0x0402] = NUCLEUS_TICK;
    start();
    batch(bytes, sizeof bytes, 2, 0, 12, 0xFF);
    batch(bytes, sizeof bytes - 1, 1, 2, 6, 0xFF);
    batch(bytes, sizeof bytes - 4, 0, sizeof bytes - 4, 0, 0xFF);
    as_single_calls("a long field", bytes, sizeof bytes, 0x00);
}

/* How far down the stack a batch of so many ticks goes, from a start. */
static size_t down_with_ticks(size_t ticks)
{
    static uint8_t bytes[3 * 400];
    for (size_t i = 0; i < 3 * ticks; i += 3)
        bytes[i] = NUCLEUS_TICK;
    start();
    batch(bytes, 3 * ticks, ticks, 0, NUMBERS, 0x00);
    return now.reached;
}

/* Twenty ticks do all that ticks do here. Four hundred must not go deeper: a board's stack has one limit for batches of any length. */
static void any_length(void)
{
    size_t few = down_with_ticks(20), many = down_with_ticks(400);
    expect(many < few + 256, "the stack of a batch grows with its length", many);
}

/* A room that was never started is refused by every call that looks at tables, and nothing is touched. tests/lent tries many more. */
static void no_tables(int filling)
{
    static const uint8_t tick[] = {NUCLEUS_TICK, 0, 0}, two[] = {NUCLEUS_TICK, 0, 0, 99, 0, 1, 0, NUCLEUS_TICK};
    static const unsigned long wanted[6] = {NUCLEUS_BAD_TABLES, 255, NUCLEUS_NOBODY, 0, NUCLEUS_NOBODY, 0};
    fill(filling);
    equal(check(), NUCLEUS_BAD_TABLES, "no tables", 0);
    reports("no tables", step(tick, sizeof tick), wanted);
    struct nucleus_dumped d = dump(sizeof buffer.bytes);
    equal(d.refusal, NUCLEUS_BAD_TABLES, "no tables", 1);
    equal(d.length, 0, "no tables", 2);
    batch(two, sizeof two, 2, 1, 11, 0x00); /* 14 comes before 11 */
    batch(two, sizeof two, 2, 1, 12, 0x00);
    for (size_t i = 0; i < 12; i++)
        equal(numbers.row[i], wanted[i % 6], "a batch without tables", i);
    each_end("a batch without tables");
}

/* Tables may be copied: the copy goes on as they would have. */
static void a_copy(void)
{
    static struct nucleus_tables copy;
    static const uint8_t create[] = {NUCLEUS_REQUEST, 0, 2, NUCLEUS_CREATESON, 0};
    static const unsigned long wanted[6] = {0, 0, 0, 4, 254, 1};
    start();
    copy = *t;
    reports("before the copy", step(create, sizeof create), wanted);
    *t = copy;
    reports("the copy", step(create, sizeof create), wanted);
}

/* Events, as document 01 writes them, how often, and the report for the last of them. No event: a start. */
static const struct {
    const char *hex;
    unsigned times;
    unsigned long report[6];
} events[] = {
    {NULL, 0, {0}}, /* P1 */
    {"12 0002 02 00", 1, {0, 0, 0, 4, 254, 1}},
    {"11 0001 FF", 1, {0, 0, 1, 0, 255, 0}},
    {"10 0005 00 00000007", 1, {0, 0, 1, 0, 255, 0}},
    {"12 0002 07 00", 1, {0, 0, 1, 4, 254, 0}},
    {"12 0002 03 FF", 1, {0, 0, 0, 1, 1, 7}},
    {"10 0005 01 00000009", 1, {4, 0, 0, 0, 255, 0}},
    {"12 0002 08 00", 1, {0, 1, 255, 0, 255, 0}},
    {"10 0005 00 00000001", 1, {3, 1, 255, 0, 255, 0}},
    {NULL, 0, {0}}, /* P2, and then 1 */
    {"11 0001 FF", 1, {0, 3, 255, 0, 255, 0}},
    {"14 0000", 1, {1, 3, 255, 0, 255, 0}},
    {NULL, 0, {0}}, /* P3 */
    {"10 0005 00 F1F2F3F4", 20, {0, 0, 0, 0, 255, 0}},
    {"10 0005 00 00000001", 1, {5, 0, 0, 0, 255, 0}},
    {"11 0001 00", 1, {0, 0, 0, 1, 0, 0xF1F2F3F4}},
    {"10 0005 00 00000001", 1, {0, 0, 0, 0, 255, 0}},
    {NULL, 0, {0}}, /* 7 and P4, P5 */
    {"12 0002 01 00", 1, {7, 0, 0, 0, 255, 0}},
    {"12 0002 02 00", 19, {0, 0, 0, 4, 254, 19}},
    {"12 0002 02 00", 1, {6, 0, 0, 0, 255, 0}},
    {"14 0000", 94, {0, 0, 18, 0, 255, 0}},
    {"14 0000", 1, {0, 0, 19, 0, 255, 0}},
    {NULL, 0, {0}}, /* P6 */
    {"12 0002 08 00", 1, {0, 1, 255, 0, 255, 0}},
    {"14 0000", 19, {0, 1, 255, 0, 255, 0}},
    {"14 0000", 1, {0, 0, 0, 4, 254, 1}},
    {NULL, 0, {0}}, /* 10, P7, P8; then 0 ends 1 */
    {"12 0002 04 00", 1, {10, 0, 0, 0, 255, 0}},
    {"12 0002 02 00", 1, {0, 0, 0, 4, 254, 1}},
    {"11 0001 FF", 1, {0, 0, 1, 0, 255, 0}},
    {"12 0002 04 00", 1, {0, 0, 1, 4, 254, 0}},
    {"13 0005 00 E1E2E3E4", 1, {0, 0, 0, 2, 1, 0xE1E2E3E4}},
    {"10 0005 01 00000005", 1, {9, 0, 0, 0, 255, 0}},
    {"10 0005 01 00000001", 1, {0, 0, 0, 0, 255, 0}},
    {"12 0002 03 01", 1, {4, 0, 0, 0, 255, 0}},
    {NULL, 0, {0}}, /* 8; two wait for devices, and the lower one is served */
    {"12 0002 02 00", 1, {0, 0, 0, 4, 254, 1}},
    {"12 0002 09 05", 1, {0, 0, 1, 0, 255, 0}},
    {"12 0002 09 05", 1, {8, 0, 1, 0, 255, 0}},
    {"12 0002 09 2F", 1, {0, 1, 255, 0, 255, 0}},
    {"15 000C 0000800000000020 D1D2D3D4", 1, {0, 0, 0, 4, 254, 0xD1D2D3D4}},
    {NULL, 0, {0}}, /* 2; and a receiver whose sender ends */
    {"", 1, {2, 0, 0, 0, 255, 0}},
    {"14", 1, {2, 0, 0, 0, 255, 0}},
    {"14 0000 14 0000", 1, {2, 0, 0, 0, 255, 0}},
    {"15 000C 0001000000000001 00000000", 1, {2, 0, 0, 0, 255, 0}},
    {"12 0002 02 00", 1, {0, 0, 0, 4, 254, 1}},
    {"11 0001 01", 1, {0, 0, 1, 0, 255, 0}},
    {"13 0005 02 00000001", 1, {0, 0, 0, 3, 1, 0}},
    {"12 0002 03 FF", 1, {0, 2, 255, 0, 255, 0}},
    {"", 1, {1, 2, 255, 0, 255, 0}},
};

/* The report for the last of them. */
static struct nucleus_report steps(const char *hex, unsigned times)
{
    uint8_t bytes[32] = {0};
    size_t n = from_hex(hex, bytes);
    struct nucleus_report r = {0, 0, 0, 0, 0, 0};
    for (unsigned k = 0; k < times; k++)
        r = step(bytes, n);
    return r;
}

static void each_event(void)
{
    for (size_t i = 0; i < sizeof events / sizeof events[0]; i++) {
        if (!events[i].hex) {
            start();
            continue;
        }
        reports(events[i].hex, steps(events[i].hex, events[i].times), events[i].report);
        equal(check(), 0, events[i].hex, 6);
    }
}

/* The same events in batches, one for all from a start to the next. What is not exactly one complete field cannot stand in a batch: it was
   refused, so it is left out and the others are answered as before. */
static void events_in_batches(void)
{
    static uint8_t bytes[sizeof buffer.bytes];
    static size_t last_of[sizeof events / sizeof events[0]]; /* the decision for the last of its times, or none: 0 */
    size_t first = 0, length = 0, fields = 0;
    for (size_t i = 0; i <= sizeof events / sizeof events[0]; i++) {
        if (i == sizeof events / sizeof events[0] || !events[i].hex) {
            start();
            batch(bytes, length, fields, 0, fields * NUCLEUS_DECISION_NUMBERS, 0xFF);
            for (size_t k = first; k < i; k++)
                for (size_t j = 0; last_of[k] && j < 6; j++)
                    equal(numbers.row[last_of[k] * 6 - 6 + j], events[k].report[j], events[k].hex, 20 + j);
            equal(check(), 0, "events in batches", first);
            first = i + 1, length = 0, fields = 0;
            continue;
        }
        uint8_t one[32] = {0};
        size_t n = from_hex(events[i].hex, one);
        if (field(one, n) != n || n == 0)
            continue;
        for (unsigned k = 0; k < events[i].times; k++, length += n)
            memcpy(bytes + length, one, n);
        fields += events[i].times, last_of[i] = fields;
    }
}

/* The full tables are checked before the event is refused. */
static void a_stopped_node(void)
{
    equal(steps("14 0000", 1).refusal, NUCLEUS_NODE_STOPPED, "full tables", 7);
    each_end("full tables");
}

/* Every kind of event on the mixed tables, where most rows are full: for the stack. Of what they do, only the refusal is looked at. Then
   each kind as a batch, and all behind each other in one batch, where the later ones meet what the earlier ones have left. */
static void each_kind(void)
{
    static const struct {
        const char *hex;
        unsigned times;
        unsigned long refusal;
    } kinds[] = {
        {"10 0005 52 00000001", 1, 0}, /* to one that waits for anybody, to oneself with the last block, and once more */
        {"10 0005 26 00000001", 1, 0},
        {"10 0005 26 00000001", 2, 5},
        {"11 0001 FF", 1, 0}, /* a message is there; one from thread 0 is not */
        {"11 0001 00", 1, 0},
        {"12 0002 01 00", 1, 6},
        {"12 0002 02 00", 1, 6},
        {"12 0002 03 FF", 1, 0},
        {"12 0002 03 00", 1, 0},
        {"12 0002 04 00", 1, 0},
        {"12 0002 05 00", 1, 0},
        {"12 0002 06 00", 1, 0},
        {"12 0002 07 00", 1, 0},
        {"12 0002 08 00", 1, 0},
        {"12 0002 09 05", 1, 0}, /* a word is held; another thread waits */
        {"12 0002 09 15", 1, 8},
        {"13 0005 00 00000001", 1, 0},
        {"13 0005 01 00000001", 1, 0},
        {"13 0005 02 00000001", 1, 0}, /* nobody manages it */
        {"14 0000", 3, 0},             /* the slice is used up, and the beat comes */
        {"15 000C 0000000000000001 00000001", 1, 0}, /* a thread waits for it, and nobody does */
        {"15 000C 0000000000000002 00000001", 1, 0},
    };
    static uint8_t all[sizeof buffer.bytes];
    size_t length = 0;
    for (size_t i = 0; i < sizeof kinds / sizeof kinds[0]; i++) {
        put_model("each kind", NUCLEUS_RUNNING);
        equal(steps(kinds[i].hex, kinds[i].times).refusal, kinds[i].refusal, kinds[i].hex, 7);
        equal(check(), 0, kinds[i].hex, 8);
        size_t from = length;
        for (unsigned k = 0; k < kinds[i].times; k++)
            length += from_hex(kinds[i].hex, all + length);
        put_model("each kind", NUCLEUS_RUNNING);
        as_single_calls(kinds[i].hex, all + from, length - from, 0x5A);
    }
    put_model("each kind", NUCLEUS_RUNNING);
    as_single_calls("every kind", all, length, 0x00);
    put_model("each kind", NUCLEUS_RUNNING);
    each_end("mixed tables");
}

/* A tick changes what it must change in the mixed tables, and nothing else: then the model is changed so too. */
static void a_tick(void)
{
    static const uint8_t tick[] = {NUCLEUS_TICK, 0, 0};
    static const unsigned long wanted[6] = {0, 0, 38, 0, 255, 0};
    put_model("a tick", NUCLEUS_RUNNING);
    reports("a tick", step(tick, sizeof tick), wanted);
    model.slice--, model.since++, model.threads[3].ticks++;
    same_as_model("a tick", NUCLEUS_RUNNING);
}

/* The deepest ending: 20 threads in one line of parents against the order of names, and the first of them ends. */
static void the_end_of_all(void)
{
    static uint8_t rows[20][4];
    static const uint8_t end[] = {NUCLEUS_REQUEST, 0, 2, NUCLEUS_TERMINATE, NUCLEUS_NOBODY};
    static const unsigned long wanted[6] = {0, NUCLEUS_HALTED, NUCLEUS_NOBODY, 0, NUCLEUS_NOBODY, 0};
    for (size_t i = 0; i < 20; i++)
        rows[i][0] = i ? NUCLEUS_IS_READY : NUCLEUS_IS_RUNNING, rows[i][3] = NUCLEUS_NOBODY;
    make_threads(rows);
    model.runner = 0, model.slice = NUCLEUS_SLICE;
    for (size_t i = 1; i < 20; i++) {
        model.threads[i].parent = name_of(i + 1);
        model.ready.row[model.ready.n++] = name_of(i);
    }
    put_model("the end of all", NUCLEUS_RUNNING);
    static struct nucleus_tables before;
    before = *t;
    reports("the end of all", step(end, sizeof end), wanted);
    model.runner = NUCLEUS_NOBODY, model.slice = 0, model.count = 0, model.ready.n = 0;
    same_as_model("the end of all", NUCLEUS_HALTED);

    /* the same in the midst of a batch, behind a malformed field and before a tick that comes too late */
    static const uint8_t midst[] = {NUCLEUS_TICK, 0, 1, 0, NUCLEUS_REQUEST, 0, 2, NUCLEUS_TERMINATE, NUCLEUS_NOBODY, NUCLEUS_TICK, 0, 0};
    static const unsigned long decisions[18] = {2, 0, 0, 0, 255, 0, 0, 2, 255, 0, 255, 0, 1, 2, 255, 0, 255, 0};
    *t = before;
    batch(midst, sizeof midst, 3, 0, 18, 0xFF);
    for (size_t i = 0; i < 18; i++)
        equal(numbers.row[i], decisions[i], "the end of all in a batch", i);
    same_as_model("the end of all in a batch", NUCLEUS_HALTED);
}

static void picks(void)
{
    static const struct {
        uint64_t pending;
        unsigned long refusal, device;
    } picks[] = {{0, 2, 255}, {1, 0, 0}, {(uint64_t)1 << 47, 0, 47}, {(uint64_t)1 << 48, 2, 255}, {~(uint64_t)0, 2, 255},
                 {(uint64_t)1 << 40 | 1 << 9 | 1 << 5, 0, 5}, {(uint64_t)1 << 63 | 1, 2, 255},
                 {(uint64_t)1 << 42 | (uint64_t)1 << 33, 0, 42}, {(uint64_t)1 << 46 | (uint64_t)1 << 44 | (uint64_t)1 << 33, 0, 44},
                 {(uint64_t)1 << 47 | (uint64_t)1 << 35, 0, 35}, {(uint64_t)3 << 32 | (uint64_t)1 << 31, 0, 31},
                 {(uint64_t)3 << 32, 0, 32}};
    for (size_t i = 0; i < sizeof picks / sizeof picks[0]; i++) {
        struct nucleus_picked p = pick(picks[i].pending);
        equal(p.refusal, picks[i].refusal, "refusal of a pick", i);
        equal(p.device, picks[i].device, "device of a pick", i);
    }
}

/* ---- the header's numbers, by what the library does */

/* How often this event is accepted, before it is refused with this number. */
static unsigned long times_until(uint8_t refusal, const uint8_t *event, size_t length)
{
    unsigned long n = 0;
    while (n < 999 && step(event, length).refusal == 0)
        n++;
    equal(now.report.refusal, refusal, "what refuses an event in the end", n);
    return n;
}

/* Each name is given to a thread that is ended at once. 0 is alive, so there is one name more than those before 1 is given again. */
static unsigned long names_in_a_round(void)
{
    uint8_t event[NUCLEUS_EVENT_BYTES];
    unsigned long n = 0;
    do {
        uint8_t name = (uint8_t)step(event, nucleus_createson_event(event)).word;
        if (n && name == 1)
            break;
        equal(step(event, nucleus_terminate_event(event, name)).refusal, 0, "the end of a thread", name);
    } while (++n < 999);
    return n + 1;
}

/* Thread 0 waits for the clock, and so many ticks let it run. */
static unsigned long ticks_to_a_beat(void)
{
    uint8_t event[NUCLEUS_EVENT_BYTES];
    unsigned long n = 0;
    equal(step(event, nucleus_waitforclock_event(event)).status, NUCLEUS_IDLE, "a node whose only thread waits for the clock", 0);
    do
        n++;
    while (step(event, nucleus_tick_event(event)).runner == NUCLEUS_NOBODY && n < 999);
    equal(now.report.kind, NUCLEUS_RESULT, "a beat is a result", 0);
    equal(now.report.sender, NUCLEUS_SERVICE, "a beat comes from the service interface", 0);
    return n;
}

static void its_numbers(void)
{
    uint8_t event[NUCLEUS_EVENT_BYTES];
    start();
    equal(1 + times_until(NUCLEUS_NO_THREAD_BLOCK, event, nucleus_createson_event(event)), NUCLEUS_THREADS, "threads at most", 0);
    start();
    equal(times_until(NUCLEUS_NO_BLOCK, event, nucleus_send_event(event, 0, 7)), NUCLEUS_BLOCKS, "messages at most", 0);
    start();
    equal(names_in_a_round(), NUCLEUS_NAMES, "names", 0);
    start();
    equal(ticks_to_a_beat(), NUCLEUS_BEAT, "ticks of a beat", 0);
    equal(step(event, nucleus_waitforio_event(event, NUCLEUS_DEVICES)).refusal, NUCLEUS_MALFORMED, "behind the last device", 0);
    equal(step(event, nucleus_waitforio_event(event, NUCLEUS_DEVICES - 1)).refusal, NUCLEUS_ACCEPTED, "the last device", 0);
    equal(nucleus_interrupt_event(event, 1, 0), NUCLEUS_EVENT_BYTES, "bytes of the longest event", 0);
}

/* ---- what the header does by itself */

/* An event is built in a row in which every byte is the same before. */
static struct {
    uint8_t before[16];
    uint8_t event[NUCLEUS_EVENT_BYTES];
    uint8_t behind[16];
} row, wanted_row;

/* The row holds these bytes as an event, that is its length, and no other byte of the row was written. Then it is as it was before. */
static void is_built(const char *hex, size_t length, int filling)
{
    memset(&wanted_row, filling, sizeof wanted_row);
    equal(length, from_hex(hex, wanted_row.event), hex, 30);
    expect(!differs(&row, &wanted_row, sizeof row), hex, 31);
    memset(&row, filling, sizeof row);
}

/* Each builder against bytes that are written out by hand. Values that the nucleus refuses are let through. */
static void calls_are_built(uint8_t *event, int filling)
{
    is_built("10 0005 01 00000007", nucleus_send_event(event, 1, 7), filling);
    is_built("10 0005 FD A1B2C3D4", nucleus_send_event(event, 253, 0xA1B2C3D4), filling);
    is_built("10 0005 FF FFFFFFFF", nucleus_send_event(event, 255, 0xFFFFFFFF), filling);
    is_built("11 0001 03", nucleus_receive_event(event, 3), filling);
    is_built("11 0001 FF", nucleus_receive_event(event, NUCLEUS_NOBODY), filling);
    is_built("13 0005 00 0000000A", nucleus_trap_event(event, NUCLEUS_PROGRAM, 10), filling);
    is_built("13 0005 01 00000000", nucleus_trap_event(event, NUCLEUS_TLB, 0), filling);
    is_built("13 0005 02 E1E2E3E4", nucleus_trap_event(event, NUCLEUS_SYSBP, 0xE1E2E3E4), filling);
    is_built("13 0005 FF 01020304", nucleus_trap_event(event, 255, 0x01020304), filling);
    is_built("14 0000", nucleus_tick_event(event), filling);
    is_built("15 000C 0102030405060708 A1B2C3D4", nucleus_interrupt_event(event, 0x0102030405060708, 0xA1B2C3D4), filling);
    is_built("15 000C 0000000200000000 0000001B", nucleus_interrupt_event(event, (uint64_t)1 << 33, 27), filling);
    is_built("15 000C 8000000000000001 FFFFFFFF", nucleus_interrupt_event(event, (uint64_t)1 << 63 | 1, 0xFFFFFFFF), filling);
    is_built("15 000C 0000000000000000 00000000", nucleus_interrupt_event(event, 0, 0), filling);
}

static void requests_are_built(uint8_t *event, int filling)
{
    is_built("12 0002 02 01", nucleus_request_event(event, 2, 1), filling);
    is_built("12 0002 00 FE", nucleus_request_event(event, 0, 254), filling);
    is_built("12 0002 FF 00", nucleus_request_event(event, 255, 0), filling);
    is_built("12 0002 01 00", nucleus_createbrother_event(event), filling);
    is_built("12 0002 02 00", nucleus_createson_event(event), filling);
    is_built("12 0002 03 09", nucleus_terminate_event(event, 9), filling);
    is_built("12 0002 03 FF", nucleus_terminate_event(event, NUCLEUS_NOBODY), filling);
    is_built("12 0002 04 07", nucleus_manager_event(event, NUCLEUS_PROGRAM, 7), filling);
    is_built("12 0002 05 08", nucleus_manager_event(event, NUCLEUS_TLB, 8), filling);
    is_built("12 0002 06 FD", nucleus_manager_event(event, NUCLEUS_SYSBP, 253), filling);
    is_built("12 0002 00 05", nucleus_manager_event(event, 3, 5), filling); /* no service, and not the one behind the managers */
    is_built("12 0002 00 05", nucleus_manager_event(event, 255, 5), filling);
    is_built("12 0002 07 00", nucleus_getcputime_event(event), filling);
    is_built("12 0002 08 00", nucleus_waitforclock_event(event), filling);
    is_built("12 0002 09 21", nucleus_waitforio_event(event, 33), filling);
    is_built("12 0002 09 FF", nucleus_waitforio_event(event, 255), filling);
}

static void builders(void)
{
    for (int filling = 0; filling < 256; filling += 51) {
        memset(&row, filling, sizeof row);
        calls_are_built(row.event, filling);
        requests_are_built(row.event, filling);
    }
    start();
    equal(step(row.event, nucleus_manager_event(row.event, 3, 0)).refusal, NUCLEUS_MALFORMED, "a manager for kind 3", 0);
}

/* A number with its name, that of the enum or UNKNOWN, in the order of numbers. */
#define NAMED(name) {NUCLEUS_##name, #name}
#define UNKNOWN "UNKNOWN"
static const struct {
    unsigned number;
    const char *name;
} refusals[] = {
    NAMED(ACCEPTED), NAMED(NODE_STOPPED), NAMED(MALFORMED), NAMED(NO_RUNNER), NAMED(NO_SUCH_THREAD), NAMED(NO_BLOCK),
    NAMED(NO_THREAD_BLOCK), NAMED(BROTHER_OF_0), NAMED(DEVICE_TAKEN), NAMED(BAD_DECISION), NAMED(OWN_MANAGER), NAMED(BAD_TABLES),
    NAMED(SHORT_BUFFER), {13, UNKNOWN}, NAMED(SHORT_NUMBERS), NAMED(DUMP_CUT), NAMED(DUMP_ORDER), NAMED(DUMP_RANGE),
    NAMED(DUMP_NAME), NAMED(DUMP_RULE), {20, UNKNOWN}, {255, UNKNOWN}, {256, UNKNOWN}, {~0u, UNKNOWN},
};

/* How many of 0 to 19 have this sentence. */
static unsigned with_sentence(const char *sentence)
{
    unsigned n = 0;
    for (unsigned i = 0; i < 20; i++)
        n += !strcmp(nucleus_refusal_sentence(i), sentence);
    return n;
}

/* Each number of 0 to 19 has a name and a sentence that no other one has, 13 those that all other numbers have. They are printed, for
   tests/board: 'refusal NUMBER NAME SENTENCE'. */
static void names_and_sentences(void)
{
    const char *none = nucleus_refusal_sentence(13);
    for (size_t i = 0; i < sizeof refusals / sizeof refusals[0]; i++) {
        unsigned number = refusals[i].number;
        const char *name = nucleus_refusal_name(number), *sentence = nucleus_refusal_sentence(number);
        int known = strcmp(refusals[i].name, UNKNOWN) != 0;
        expect(number == i || (number >= 20 && !known), "each number of 0 to 19 is tried", number);
        expect(!strcmp(name, refusals[i].name), "the name of a refusal", number);
        expect(sentence[0] && known == (strcmp(sentence, none) != 0), "a refusal has a sentence, and other numbers have none", number);
        equal(with_sentence(sentence), 1, "refusals with the sentence of this one", number);
        printf("refusal %u %s %s\n", number, name, sentence);
    }
}

#if NUCLEUS_VERSION < 10000
#error "the version is a number for #if"
#endif

static void the_version(void)
{
    char shown[32];
    snprintf(shown, sizeof shown, "%d.%d.%d", NUCLEUS_VERSION / 10000, NUCLEUS_VERSION / 100 % 100, NUCLEUS_VERSION % 100);
    expect(!strcmp(shown, NUCLEUS_VERSION_STRING), "the version as a number and as a string", NUCLEUS_VERSION);
}

/* What a call takes lies below its caller's frame. An empty call shows where that ends: it writes a return address at most, which is
   counted as taken. It ends next below the place of the calls; else the thread by itself has reached down to it, and nothing is known. */
static void stacks(void)
{
    call(NO_CALL, 0);
    size_t down = (uintptr_t)(stack + sizeof stack) - now.down, reached = deepest[NO_CALL];
    expect(down > DOWN && reached >= down && reached <= down + 256, "the thread by itself reaches down to the calls", reached);
    for (int which = START; which < CALLS; which++)
        printf("stack %s %zu\n", call_names[which], deepest[which] - reached + sizeof(void *));
}

int main(void)
{
    memset(&room, GUARD, sizeof room);
    memset(&buffer, GUARD, sizeof buffer);
    memset(&named, GUARD, sizeof named);
    memset(&numbers, GUARD, sizeof numbers);
    memset(&lent, GUARD, sizeof lent);
    its_sizes();
    for (size_t i = 0; i < FILLINGS; i++)
        no_tables(fillings[i]);
    starts();
    a_copy();
    make_full();
    there_and_back("full tables", NUCLEUS_PANICKED);
    no_dumps();
    a_stopped_node();
    each_small_dump();
    too_many();
    make_mixed();
    there_and_back("mixed tables", NUCLEUS_RUNNING);
    no_dumps();
    each_kind();
    a_tick();
    each_event();
    events_in_batches();
    start();
    each_end("a start");
    a_long_field();
    any_length();
    the_end_of_all();
    picks();
    its_numbers();
    builders();
    names_and_sentences();
    the_version();
    equal(refusals_met, 0xFDFFF, "refusals met, as bits: 0 to 12, 14 to 19", 0);
    stacks();
    printf("%u passed, %u failed\n", passed, failed);
    return failed != 0;
}
