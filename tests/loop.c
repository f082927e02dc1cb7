/* A made-up board for the loop of docs/BOARD.md: built and run by tests/board. It notes what the loop does, a word each:
   new:THREAD, answer:THREAD,KIND,SENDER,WORD, told:THREAD,REFUSAL, resumed:THREAD, waits, stopped:STATUS.
   During a cut nobody is resumed. The last line is 'N passed, M failed'. */
#include "nucleus.h"

#include <stdarg.h>
#include <stdio.h>
#include <string.h>

void on_power(void);
void on_tick(void);
void on_device(void);
void on_call(const uint8_t *event, size_t length);
void on_cut(void);
void on_cut_done(void);
void gather(const uint8_t *event, size_t length);

static char noted[4096];
static uint64_t pending;
static unsigned passed, failed;

static void note(const char *form, ...)
{
    size_t n = strlen(noted);
    va_list values;
    va_start(values, form);
    vsnprintf(noted + n, sizeof noted - n, form, values);
    va_end(values);
}

/* ---- the board */

uint64_t pending_devices(void) { return pending; }

uint32_t acknowledge(uint8_t device)
{
    pending &= ~((uint64_t)1 << device);
    return 0xC1C2C300u + device;
}

void new_state(uint8_t thread) { note("new:%u ", thread); }

void hand_over(uint8_t thread, uint8_t kind, uint8_t sender, uint32_t word)
{
    note("answer:%u,%u,%u,%lX ", thread, kind, sender, (unsigned long)word);
}

void tell(uint8_t thread, uint8_t refusal) { note("told:%u,%u ", thread, refusal); }

void resume(uint8_t thread) { note("resumed:%u ", thread); }

void wait_for_interrupt(void) { note("waits "); }

void stop(struct nucleus_report why) { note("stopped:%u ", why.status); }

/* ---- what happens on it */

static void judge(int good, const char *wanted)
{
    good ? passed++ : failed++;
    if (!good)
        printf("FAILED  the loop did '%s', and not '%s'\n", noted, wanted);
}

static void noted_is(const char *wanted)
{
    judge(!strcmp(noted, wanted), wanted);
    noted[0] = 0;
}

static uint8_t event[NUCLEUS_EVENT_BYTES];

/* The running thread causes the event that was just built. */
static void call(size_t length, const char *wanted)
{
    on_call(event, length);
    noted_is(wanted);
}

/* ---- gathered events */

/* What comes from outside, a letter each: a tick, or the interrupt of a device 0 to 9. */
static void comes(const char *script)
{
    for (; *script; script++)
        if (*script == 't') {
            on_tick();
        } else {
            pending |= (uint64_t)1 << (*script - '0');
            on_device();
        }
}

/* Three threads wait: 0 for device 5, 1 for the clock, 2 for device 3. */
static void three_wait(void)
{
    on_power(), noted_is("new:0 resumed:0 ");
    call(nucleus_createson_event(event), "new:1 answer:0,4,254,1 resumed:0 ");
    call(nucleus_createson_event(event), "new:2 answer:0,4,254,2 resumed:0 ");
    call(nucleus_waitforio_event(event, 5), "resumed:1 ");
    call(nucleus_waitforclock_event(event), "resumed:2 ");
    call(nucleus_waitforio_event(event, 3), "waits ");
}

/* Takes what was noted, but who is resumed, or that nobody is, only the last time. */
static void take_but_once(char *kept)
{
    const char *last = "";
    kept[0] = 0;
    for (const char *word = strtok(noted, " "); word; word = strtok(NULL, " "))
        if (!strncmp(word, "resumed:", 8) || !strcmp(word, "waits"))
            last = word;
        else
            strcat(strcat(kept, word), " ");
    strcat(strcat(kept, last), " ");
    noted[0] = 0;
}

/* Gathered during a cut, these events do what they do one by one, but for the threads that run between them. And so the tables behind
   them are the same: what comes later, one by one, does the same. */
static void same_as_single(const char *script)
{
    static const char later[] = "tttttt5ttttttttt3tttttttttt";
    static char single[sizeof noted], behind[sizeof noted];
    three_wait();
    comes(script), take_but_once(single);
    comes(later), strcpy(behind, noted), noted[0] = 0;
    three_wait();
    on_cut(), comes(script), judge(!strstr(noted, "resumed") && !strstr(noted, "waits"), "nobody resumed during a cut");
    on_cut_done(), noted_is(single);
    comes(later), noted_is(behind);
}

#define TEN "tttttttttt"

static void gathered_calls(void)
{
    /* thread 0 is handed its answer, though 1 runs again when the cut is done; and a cut in which nothing comes */
    on_power(), noted_is("new:0 resumed:0 ");
    call(nucleus_createson_event(event), "new:1 answer:0,4,254,1 resumed:0 ");
    call(nucleus_waitforio_event(event, 5), "resumed:1 ");
    on_cut(), comes("t5ttttttttt"), noted_is("");
    on_cut_done(), noted_is("answer:0,4,254,C1C2C305 resumed:1 ");
    on_cut(), on_cut_done(), noted_is("resumed:1 ");

    /* calls of the runner, as from a file: each new thread gets its state, and a refusal is told to who ran then */
    on_cut();
    gather(event, nucleus_createson_event(event));
    gather(event, nucleus_send_event(event, 99, 1));
    gather(event, nucleus_createbrother_event(event));
    gather(event, nucleus_receive_event(event, NUCLEUS_NOBODY));
    gather(event, nucleus_send_event(event, 99, 1));
    noted_is("");
    on_cut_done(), noted_is("new:2 answer:1,4,254,2 told:1,4 new:3 answer:1,4,254,3 told:0,4 resumed:0 ");

    /* nobody remains: the ticks behind that change nothing */
    on_cut(), gather(event, nucleus_terminate_event(event, NUCLEUS_NOBODY)), comes("tt"), noted_is("");
    on_cut_done(), noted_is("stopped:2 ");

    same_as_single("t");
    same_as_single("5");
    same_as_single("tt5" TEN "3" TEN TEN "35" TEN);
    same_as_single(TEN TEN TEN TEN "335" TEN TEN TEN TEN "5" TEN TEN TEN TEN TEN "3" TEN); /* more than the buffer holds */
}

int main(void)
{
    on_tick(), noted_is("stopped:255 "); /* no node was started: refused 11 */
    on_power(), noted_is("new:0 resumed:0 ");
    call(nucleus_createson_event(event), "new:1 answer:0,4,254,1 resumed:0 ");
    call(nucleus_receive_event(event, NUCLEUS_NOBODY), "resumed:1 ");
    call(nucleus_send_event(event, 0, 7), "resumed:1 ");
    call(nucleus_terminate_event(event, NUCLEUS_NOBODY), "answer:0,1,1,7 resumed:0 ");
    call(nucleus_send_event(event, 9, 4), "told:0,4 resumed:0 ");
    call(nucleus_createbrother_event(event), "told:0,7 resumed:0 ");
    call(nucleus_waitforio_event(event, 5), "waits ");
    call(nucleus_send_event(event, 0, 7), "waits "); /* refused 3: nobody is there to be told */
    on_tick(), noted_is("waits ");
    pending = (uint64_t)1 << 5 | (uint64_t)1 << 33;
    on_device(), noted_is("answer:0,4,254,C1C2C305 resumed:0 ");
    on_device(), noted_is("resumed:0 ");
    on_device(), noted_is("");
    pending = (uint64_t)1 << 48;
    on_device(), noted_is("");
    call(nucleus_waitforio_event(event, 33), "answer:0,4,254,C1C2C321 resumed:0 ");
    call(nucleus_waitforio_event(event, 33), "waits ");
    pending = (uint64_t)1 << 33 | (uint64_t)1 << 42; /* the log on terminal 5 goes before the key on terminal 0 */
    on_device(), noted_is("waits ");
    on_device(), noted_is("answer:0,4,254,C1C2C321 resumed:0 ");
    call(nucleus_waitforio_event(event, 42), "answer:0,4,254,C1C2C32A resumed:0 ");
    on_tick(), noted_is("resumed:0 ");
    call(nucleus_receive_event(event, NUCLEUS_NOBODY), "stopped:3 ");
    on_tick(), noted_is("stopped:3 ");
    on_power(), noted_is("new:0 resumed:0 ");
    call(nucleus_trap_event(event, NUCLEUS_PROGRAM, 1), "stopped:2 ");
    gathered_calls();
    printf("%u passed, %u failed\n", passed, failed);
    return failed != 0;
}
