/* Measures the stack that each call takes, for the table at the end of royukezan.h. Each call is made on a stack of its own that was painted
 * before, from a function that does nothing else; counted is what is written there, down to the deepest byte. So the copies that the plain
 * form or the caller makes for arguments and results are in it.
 * Writes a line for each call: the bytes of the plain form and, where there is one, of the form by value, rounded up to whole hundreds. */
#define _XOPEN_SOURCE 600
#include <stdio.h>
#include <string.h>
#include <ucontext.h>

#include "royukezan.h"

#define PAINT 0xa5

static union {
    unsigned char bytes[1 << 17];
    royukezan_sweep aligned;
} stack;
static ucontext_t outside, inside;
static void (*measured)(void);

static royukezan_sweep sweep, finished;
static royukezan_watch watch, evening;
static royukezan_power_record power;
static const royukezan_power_parameters parameters = {85, 30, 0, 60, 10, 10, 3};
/* The lists of channel 310 and of channel 42. */
static const uint16_t list[ROYUKEZAN_LIST_LIMIT] = {990, 871, 644, 42, 118, 205};
static const uint16_t eastern[ROYUKEZAN_LIST_LIMIT] = {990, 871, 644, 310, 118, 205};
static uint8_t outcomes[ROYUKEZAN_CHANNELS];

/* What the calls answer is kept, so that no call is left out. */
static volatile uint32_t kept;
static royukezan_sweep_outcome kept_sweep;
static royukezan_watch_outcome kept_watch;

static void nothing(void)
{
}

#define CALL(name, statement) \
    static void name(void) \
    { \
        statement; \
    }

CALL(level_to_hundredths, kept = royukezan_level_to_hundredths(-94.2f).refusal)
CALL(quality_to_hundredths, kept = royukezan_quality_to_hundredths(9.1f).refusal)
CALL(burst_to_hundredths, kept = royukezan_burst_to_hundredths(-94.2f, 9.1f).refusal)
CALL(level_to_float, kept = royukezan_level_to_float(-9420).refusal)
CALL(quality_to_float, kept = royukezan_quality_to_float(910).refusal)
CALL(level_read_back, kept = royukezan_level_read_back(-9420).refusal)
CALL(quality_read_back, kept = royukezan_quality_read_back(910).refusal)
CALL(sweep_fresh, kept_sweep.sweep = royukezan_sweep_fresh())
CALL(sweep_file_heard, kept = royukezan_sweep_file_heard(&sweep, 310, -94.2f, 9.1f))
CALL(sweep_file_heard_v, kept_sweep = royukezan_sweep_file_heard_by_value(sweep, 310, -94.2f, 9.1f))
CALL(sweep_file_missed, kept = royukezan_sweep_file_missed(&sweep, 310))
CALL(sweep_file_missed_v, kept_sweep = royukezan_sweep_file_missed_by_value(sweep, 310))
CALL(sweep_next, kept = royukezan_sweep_next(&finished).refusal)
CALL(sweep_next_v, kept = royukezan_sweep_next_by_value(finished).refusal)
CALL(sweep_counts, kept = royukezan_sweep_counts(&finished).refusal)
CALL(sweep_counts_v, kept = royukezan_sweep_counts_by_value(finished).refusal)
CALL(sweep_check, kept = royukezan_sweep_check(&finished))
CALL(sweep_check_v, kept = royukezan_sweep_check_by_value(finished))
CALL(choose, kept = royukezan_choose(&finished, 6000, outcomes, sizeof outcomes).refusal)
CALL(choose_v, kept = royukezan_choose_by_value(finished, 6000, outcomes, sizeof outcomes).refusal)
CALL(watch_fresh, kept_watch.watch = royukezan_watch_fresh())
CALL(watch_start, kept = royukezan_watch_start(&watch, 310, ROYUKEZAN_DEPTH_HIGHEST))
CALL(watch_start_v, kept_watch = royukezan_watch_start_by_value(watch, 310, ROYUKEZAN_DEPTH_HIGHEST))
CALL(watch_new_beam, kept = royukezan_watch_new_beam(&watch, 42, eastern, ROYUKEZAN_LIST_LIMIT).refusal)
CALL(watch_new_beam_v, kept_watch = royukezan_watch_new_beam_by_value(watch, 42, eastern, ROYUKEZAN_LIST_LIMIT))
CALL(watch_file_heard, kept = royukezan_watch_file_heard(&watch, 42, -94.2f, 9.1f))
CALL(watch_file_heard_v, kept_watch = royukezan_watch_file_heard_by_value(watch, 42, -94.2f, 9.1f))
CALL(watch_file_missed, kept = royukezan_watch_file_missed(&watch, 42))
CALL(watch_file_missed_v, kept_watch = royukezan_watch_file_missed_by_value(watch, 42))
CALL(watch_ask, kept = royukezan_watch_ask(&watch, 42).refusal)
CALL(watch_ask_v, kept = royukezan_watch_ask_by_value(watch, 42).refusal)
CALL(watch_verdict, kept = royukezan_watch_verdict(&watch, 300).refusal)
CALL(watch_verdict_v, kept = royukezan_watch_verdict_by_value(watch, 300).refusal)
CALL(watch_check, kept = royukezan_watch_check(&watch))
CALL(watch_check_v, kept = royukezan_watch_check_by_value(watch))
CALL(power_start, kept = royukezan_power_start(&power, parameters))
CALL(power_start_v, kept = royukezan_power_start_by_value(parameters).refusal)
CALL(power_check, kept = royukezan_power_check(&power))
CALL(power_check_v, kept = royukezan_power_check_by_value(power))
CALL(power_step_decoded, kept = royukezan_power_step_decoded(&power, parameters, 20, 20, 850).refusal)
CALL(power_step_decoded_v, kept = royukezan_power_step_decoded_by_value(power, parameters, 20, 20, 850).answer.refusal)
CALL(power_step_failed, kept = royukezan_power_step_failed(&power, parameters, 850).refusal)
CALL(power_step_failed_v, kept = royukezan_power_step_failed_by_value(power, parameters, 850).answer.refusal)

#define BOTH(name) {#name, name, name##_v}

static const struct {
    const char *name;
    void (*plain)(void);
    void (*by_value)(void); /* null where there is one form only */
} calls[] = {
    {"level_to_hundredths", level_to_hundredths, NULL},
    {"quality_to_hundredths", quality_to_hundredths, NULL},
    {"burst_to_hundredths", burst_to_hundredths, NULL},
    {"level_to_float", level_to_float, NULL},
    {"quality_to_float", quality_to_float, NULL},
    {"level_read_back", level_read_back, NULL},
    {"quality_read_back", quality_read_back, NULL},
    {"sweep_fresh", sweep_fresh, NULL},
    BOTH(sweep_file_heard),
    BOTH(sweep_file_missed),
    BOTH(sweep_next),
    BOTH(sweep_counts),
    BOTH(sweep_check),
    BOTH(choose),
    {"watch_fresh", watch_fresh, NULL},
    BOTH(watch_start),
    BOTH(watch_new_beam),
    BOTH(watch_file_heard),
    BOTH(watch_file_missed),
    BOTH(watch_ask),
    BOTH(watch_verdict),
    BOTH(watch_check),
    BOTH(power_start),
    BOTH(power_check),
    BOTH(power_step_decoded),
    BOTH(power_step_failed),
};

static void begin(void)
{
    measured();
}

/* The records that each call is made on. */
static void reset(void)
{
    memset(&sweep, 0, sizeof sweep);
    watch = evening;
    royukezan_power_start(&power, parameters);
}

/* How many bytes of the painted stack are written when this is called on it. */
static size_t written(void (*call)(void))
{
    reset();
    call(); /* once before, so that the loader has looked up what it calls */
    reset();
    memset(stack.bytes, PAINT, sizeof stack.bytes);
    measured = call;
    getcontext(&inside);
    inside.uc_stack.ss_sp = stack.bytes;
    inside.uc_stack.ss_size = sizeof stack.bytes;
    inside.uc_link = &outside;
    makecontext(&inside, begin, 0);
    swapcontext(&outside, &inside);
    size_t untouched = 0;
    while (stack.bytes[untouched] == PAINT)
        untouched++;
    return sizeof stack.bytes - untouched;
}

/* A finished sweep that heard every channel, with none suitable, and a watch of the highest depth with two full channels. */
static void prepare(void)
{
    for (uint16_t channel = ROYUKEZAN_SWEEP_FIRST; channel <= ROYUKEZAN_SWEEP_LAST; channel++)
        royukezan_sweep_file_heard(&finished, channel, -94.2f, 9.1f);
    memset(outcomes, ROYUKEZAN_OUTCOME_BARRED, sizeof outcomes);
    royukezan_watch_start(&evening, 310, ROYUKEZAN_DEPTH_HIGHEST);
    royukezan_watch_new_beam(&evening, 310, list, ROYUKEZAN_LIST_LIMIT);
    for (int i = 0; i < ROYUKEZAN_DEPTH_HIGHEST; i++) {
        royukezan_watch_file_heard(&evening, 310, -98.5f, 7.2f);
        royukezan_watch_file_heard(&evening, 42, -94.2f, 9.1f);
    }
}

/* Writes a figure, rounded up. */
static void say(size_t bytes)
{
    printf(" %6zu", (bytes + 99) / 100 * 100);
}

int main(void)
{
    prepare();
    size_t before = written(nothing);
    for (size_t i = 0; i < sizeof calls / sizeof calls[0]; i++) {
        printf("royukezan_%-21s", calls[i].name);
        say(written(calls[i].plain) - before);
        if (calls[i].by_value != NULL)
            say(written(calls[i].by_value) - before);
        putchar('\n');
    }
    return 0;
}
