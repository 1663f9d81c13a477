/* The link control library of GMR-1 terminals for C and C++ hosts: readings, the band sweep, the choice of a beam, the neighbour watch and the
 * power steps. The library's README.md explains the words of the field, and document 01, the paper of rules whose refusal numbers stand below.
 *
 * Link libroyukezan.a, which `tools/build royukezan` proves and writes into target/staticlib/, for x86-64 with the System V calling
 * convention (Linux). `host/install PREFIX` puts the header, the archive and a file for pkg-config under a prefix.
 *
 *
 * Two forms of a call
 *
 * The archive takes a record by value and hands one back: the names end in _by_value, and what these functions do is proved. Under the
 * plain name stands what a host usually calls, a `static inline` function that takes a pointer to the host's own record:
 *
 *     royukezan_watch w = royukezan_watch_fresh();
 *     if (royukezan_watch_start(&w, 310, 15) != ROYUKEZAN_ACCEPTED)
 *         return;
 *
 * Accepted, the record is changed there; refused, nothing is written. A call that only reads takes a pointer to const. These few lines are C
 * and no part of what is proved. royukezan_power_step_decoded and .._failed are functions of the archive under their plain names; refused,
 * they store the same numbers again.
 *
 * Answers. A call that neither gives a value nor tells a place answers the refusal number alone, 0 for accepted. Every other answer is a
 * struct: first the refusal number, then the values, 0 when refused. The place of a faulty channel in a list, counted from 0, stands right
 * after the refusal number (royukezan_beam_answer, royukezan_watch_outcome); ROYUKEZAN_NO_PLACE there means that none is told, and an accepted
 * call has it too. Every value of every argument is taken, and every call ends. The functions allocate nothing and keep nothing between calls.
 *
 * Units. A level or quality as a float is in dBm or dB; in an int32_t, or in the int16_t of a track, it is in whole hundredths of a dB, and so
 * are a margin, a hysteresis and an SQI. PAN and PAR are codes, by 0.4 dB.
 *
 * A channel is a uint16_t, and C cuts a larger number to 16 bits without a word: 65,846 arrives as 310 and is taken for it. Test wider numbers
 * before the call; gcc -Wconversion shows the places.
 *
 *
 * What the host owes, since no proof reaches it
 *
 * - A pointer to a record is not null, is aligned for its type and points to a whole record, which may be written unless it is const.
 *   royukezan_power_step_decoded and .._failed write it when refused, too.
 * - A list or a string of outcomes points to as many elements as its length says, which stay as they are while the call runs. With a length of
 *   0 the plain forms take any pointer, NULL too; the _by_value forms want one that is not null and is aligned.
 * - While a call on a record runs, nobody else writes that record, and where the call may write it nobody else reads it. Calls on different
 *   records may run side by side, in threads or interrupts.
 * - The floating-point environment is the default one: rounding to nearest, exceptions masked, and neither flush-to-zero nor
 *   denormals-are-zero. Linking with gcc -ffast-math can turn the last two on; the smallest float above 0 is then accepted as a level.
 * - The header is the archive's own. Layouts are asserted below at compile time; the archive cannot be asked.
 * - Records are compared by their fields and not by memcmp: what the padding bytes of a result hold is not fixed.
 * - The C library's memcpy, memmove and memset are there, or a freestanding host's own. The archive needs nothing else.
 * - There is stack enough: up to 19 KB for a filing in a sweep. The table at the end has each call.
 */
#ifndef ROYUKEZAN_H
#define ROYUKEZAN_H

#include <float.h>
#include <stddef.h>
#include <stdint.h>

#ifdef __cplusplus
extern "C" {
#endif

#define ROYUKEZAN_CHANNELS 1088    /* channel numbers run from 0 to 1,087 */
#define ROYUKEZAN_SWEEP_FIRST 2    /* the sweep visits channels 2 .. */
#define ROYUKEZAN_SWEEP_LAST 1086  /* .. to 1,086 */
#define ROYUKEZAN_LIST_LIMIT 6     /* the most neighbours in a list */
#define ROYUKEZAN_DEPTH_LOWEST 5   /* the depth of a watch, how many of a channel's levels count, is 5 .. */
#define ROYUKEZAN_DEPTH_HIGHEST 31 /* .. to 31 */
#define ROYUKEZAN_LEVELS 32        /* the places that a track has for levels, at least the highest depth */

/* What stands for the place where an answer tells none. No place has this value. */
#define ROYUKEZAN_NO_PLACE 4294967295u

/* The refusal numbers, each given exactly when what stands beside it holds. Several at once: 9, 8, 7, 2, 11, then 12 to 14, 6, 3, 4, 1.
 * Which of 12 to 14 is given, the first faulty channel of the list decides, and its place is told; the other refusals tell none. */
enum royukezan_refusal {
    ROYUKEZAN_ACCEPTED = 0,
    ROYUKEZAN_READING_OUT_OF_RANGE = 1,   /* a level or quality, as a float or in hundredths, is outside its range */
    ROYUKEZAN_CHANNEL_OUT_OF_RANGE = 2,   /* a swept channel outside 2 to 1,086; a start channel or the serving channel of a new beam
                                             above 1,087 */
    ROYUKEZAN_CHANNEL_VISITED = 3,        /* a channel already visited in this sweep */
    ROYUKEZAN_SWEEP_UNFINISHED = 4,       /* a choice over an unfinished sweep */
    ROYUKEZAN_NOT_WATCHED = 6,            /* a filed or asked channel not watched; new beam or verdict on an idle watch */
    ROYUKEZAN_PARAMETER_OUT_OF_RANGE = 7, /* a margin, hysteresis or power parameter out of range; PANmin above PANmax; a code above 63;
                                             a depth outside 5 to 31 */
    ROYUKEZAN_OUTCOMES_FAULTY = 8,        /* outcome string not 1,088 long, or a byte above 5 */
    ROYUKEZAN_RECORD_NOT_WELL_FORMED = 9, /* a record not well formed */
    ROYUKEZAN_LIST_TOO_LONG = 11,         /* a list of over 6 channels */
    ROYUKEZAN_LISTED_OUT_OF_RANGE = 12,   /* a channel of a list above 1,087 */
    ROYUKEZAN_LISTED_AGAIN = 13,          /* a channel of a list that repeats an earlier one */
    ROYUKEZAN_LISTED_SERVING = 14         /* the serving channel of a new beam in its list */
};

/* The cases of an answer. A refused one has 0. */
enum royukezan_next { ROYUKEZAN_NEXT_CHANNEL = 1, ROYUKEZAN_NEXT_DONE = 2 };
enum royukezan_choice { ROYUKEZAN_CHOICE_CAMP = 1, ROYUKEZAN_CHOICE_READ = 2, ROYUKEZAN_CHOICE_NO_BEAM = 3 };
enum royukezan_verdict { ROYUKEZAN_VERDICT_WAIT = 1, ROYUKEZAN_VERDICT_STAY = 2, ROYUKEZAN_VERDICT_MOVE = 3 };

/* The outcome bytes of a choice: what reading a channel's broadcast gave. */
enum royukezan_outcome {
    ROYUKEZAN_OUTCOME_NOT_READ = 0,
    ROYUKEZAN_OUTCOME_SUITABLE = 1,
    ROYUKEZAN_OUTCOME_BARRED = 2,
    ROYUKEZAN_OUTCOME_ACCESS_CLASS_NOT_ALLOWED = 3,
    ROYUKEZAN_OUTCOME_OTHER_NETWORK = 4,
    ROYUKEZAN_OUTCOME_UNREADABLE = 5
};


/* ---- Records. The host keeps them between calls and need not look into them. One of all zeros is well formed; a sweep or a watch of all zeros
 * is a fresh one, so that a static record needs no royukezan_.._fresh. */

/* A band sweep. Well formed: heard only where visited, no bit outside 2 to 1,086, level 0 where not heard, each level in -15,000 to 0. */
typedef struct royukezan_sweep {
    int32_t levels[ROYUKEZAN_CHANNELS]; /* hundredths */
    uint64_t visited[17];               /* a bit for each channel: channel c is bit c % 64 of word c / 64 */
    uint64_t heard[17];
} royukezan_sweep;

/* A channel under watch, with its levels. */
typedef struct royukezan_track {
    uint16_t channel;
    size_t count;                     /* how many levels it has, at most the depth */
    int16_t levels[ROYUKEZAN_LEVELS]; /* hundredths, oldest first; 0 from the count on */
} royukezan_track;

/* A watch. Well formed: exactly when some sequence of calls, from a fresh watch, leaves that record. So an idle one is the fresh one, all
 * zero. */
typedef struct royukezan_watch {
    size_t watched;                                   /* how many tracks are in use; 0: the watch is idle */
    royukezan_track tracks[1 + ROYUKEZAN_LIST_LIMIT]; /* the serving channel, then the neighbours in the list's order */
    size_t depth;                                     /* given at the start, 5 to 31; 0: the watch is idle */
} royukezan_watch;

/* The power parameters, as codes. They are given at the start and again at every step; the record does not hold them. */
typedef struct royukezan_power_parameters {
    uint32_t sqt;     /* 0 to 126, by 0.1 dB; 127 is null and refused */
    uint32_t paninit; /* 0 to 60, by 0.4 dB, as the next two */
    uint32_t panmin;  /* not above panmax */
    uint32_t panmax;
    uint32_t gainup;  /* 0 to 31, by 0.1 */
    uint32_t gaindn;  /* 0 to 10, by 0.1 */
    uint32_t mestep;  /* 0 to 15, by 0.2 dB */
} royukezan_power_parameters;

/* The power record. Well formed: codes 0 to 60, increase a multiple of 200 in 0 to 24,000. */
typedef struct royukezan_power_record {
    uint32_t panlast;
    uint32_t parsave;
    uint32_t panbasic;
    uint32_t increase; /* thousandths of a dB */
} royukezan_power_record;


/* ---- Answers. */

/* A level or a quality in hundredths. */
typedef struct royukezan_hundredths_answer {
    uint32_t refusal;
    int32_t hundredths;
} royukezan_hundredths_answer;

/* A level in dBm or a quality in dB. */
typedef struct royukezan_float_answer {
    uint32_t refusal;
    float value;
} royukezan_float_answer;

/* A heard burst in hundredths. */
typedef struct royukezan_burst_answer {
    uint32_t refusal;
    int32_t level;
    int32_t quality;
} royukezan_burst_answer;

/* The next channel of a sweep. */
typedef struct royukezan_next_answer {
    uint32_t refusal;
    uint16_t next;    /* ROYUKEZAN_NEXT_.. */
    uint16_t channel; /* 0 when done */
} royukezan_next_answer;

/* How many channels of a sweep were visited and heard. */
typedef struct royukezan_counts_answer {
    uint32_t refusal;
    uint32_t visited;
    uint32_t heard;
} royukezan_counts_answer;

/* The choice of a beam. */
typedef struct royukezan_choice_answer {
    uint32_t refusal;
    uint16_t choice;  /* ROYUKEZAN_CHOICE_.. */
    uint16_t channel; /* where to camp, or what to read next; 0 for no beam */
    uint32_t tried;   /* the channel's place in the search order, from 1; for no beam, how many channels lie within the margin */
} royukezan_choice_answer;

/* A new beam: accepted, or what is wrong with it and, in its list, where. */
typedef struct royukezan_beam_answer {
    uint32_t refusal;
    uint32_t place; /* of the first faulty channel of the list, counted from 0, with refusals 12 to 14; else ROYUKEZAN_NO_PLACE */
} royukezan_beam_answer;

/* The levels of a watched channel. */
typedef struct royukezan_levels_answer {
    uint32_t refusal;
    uint32_t count; /* 0 to the depth */
    int32_t mean;   /* hundredths, rounded down; 0 for a count of 0 */
} royukezan_levels_answer;

/* Stay or move. */
typedef struct royukezan_verdict_answer {
    uint32_t refusal;
    uint16_t verdict; /* ROYUKEZAN_VERDICT_.. */
    uint16_t channel; /* where to move to; 0 for the other verdicts */
} royukezan_verdict_answer;

/* The codes to send: PAR 0 to 60, PAN from PANmin to PANmax. */
typedef struct royukezan_sent_answer {
    uint32_t refusal;
    uint32_t par;
    uint32_t pan;
} royukezan_sent_answer;

/* What the _by_value calls hand back that may change a record. Refused, the record is the one that was given; of a power start, one of all
 * zeros. */
typedef struct royukezan_sweep_outcome {
    uint32_t refusal;
    royukezan_sweep sweep;
} royukezan_sweep_outcome;

typedef struct royukezan_watch_outcome {
    uint32_t refusal;
    uint32_t place; /* of a new beam, as in royukezan_beam_answer; of any other call ROYUKEZAN_NO_PLACE */
    royukezan_watch watch;
} royukezan_watch_outcome;

typedef struct royukezan_power_outcome {
    uint32_t refusal;
    royukezan_power_record power;
} royukezan_power_outcome;

typedef struct royukezan_sent_outcome {
    royukezan_sent_answer answer;
    royukezan_power_record power;
} royukezan_sent_outcome;


/* ---- The layout that the archive was built with. A line that does not compile names a type that differs here. */
#define ROYUKEZAN_ASSERT(name, condition) typedef char royukezan_asserts_##name[(condition) ? 1 : -1]
#define ROYUKEZAN_SIZE(type, size) ROYUKEZAN_ASSERT(size_of_##type, sizeof(royukezan_##type) == (size))
#define ROYUKEZAN_OFFSET(type, field, offset) ROYUKEZAN_ASSERT(offset_in_##type##_of_##field, offsetof(royukezan_##type, field) == (offset))

ROYUKEZAN_ASSERT(float_of_ieee_754, sizeof(float) == 4 && FLT_RADIX == 2 && FLT_MANT_DIG == 24 && FLT_MAX_EXP == 128);
ROYUKEZAN_ASSERT(size_t_of_64_bits, sizeof(size_t) == 8);

ROYUKEZAN_SIZE(sweep, 4624);
ROYUKEZAN_OFFSET(sweep, levels, 0);
ROYUKEZAN_OFFSET(sweep, visited, 4352);
ROYUKEZAN_OFFSET(sweep, heard, 4488);
ROYUKEZAN_SIZE(track, 80);
ROYUKEZAN_OFFSET(track, channel, 0);
ROYUKEZAN_OFFSET(track, count, 8);
ROYUKEZAN_OFFSET(track, levels, 16);
ROYUKEZAN_SIZE(watch, 576);
ROYUKEZAN_OFFSET(watch, watched, 0);
ROYUKEZAN_OFFSET(watch, tracks, 8);
ROYUKEZAN_OFFSET(watch, depth, 568);
ROYUKEZAN_SIZE(power_parameters, 28);
ROYUKEZAN_OFFSET(power_parameters, sqt, 0);
ROYUKEZAN_OFFSET(power_parameters, paninit, 4);
ROYUKEZAN_OFFSET(power_parameters, panmin, 8);
ROYUKEZAN_OFFSET(power_parameters, panmax, 12);
ROYUKEZAN_OFFSET(power_parameters, gainup, 16);
ROYUKEZAN_OFFSET(power_parameters, gaindn, 20);
ROYUKEZAN_OFFSET(power_parameters, mestep, 24);
ROYUKEZAN_SIZE(power_record, 16);
ROYUKEZAN_OFFSET(power_record, panlast, 0);
ROYUKEZAN_OFFSET(power_record, parsave, 4);
ROYUKEZAN_OFFSET(power_record, panbasic, 8);
ROYUKEZAN_OFFSET(power_record, increase, 12);
ROYUKEZAN_SIZE(hundredths_answer, 8);
ROYUKEZAN_OFFSET(hundredths_answer, refusal, 0);
ROYUKEZAN_OFFSET(hundredths_answer, hundredths, 4);
ROYUKEZAN_SIZE(float_answer, 8);
ROYUKEZAN_OFFSET(float_answer, refusal, 0);
ROYUKEZAN_OFFSET(float_answer, value, 4);
ROYUKEZAN_SIZE(burst_answer, 12);
ROYUKEZAN_OFFSET(burst_answer, refusal, 0);
ROYUKEZAN_OFFSET(burst_answer, level, 4);
ROYUKEZAN_OFFSET(burst_answer, quality, 8);
ROYUKEZAN_SIZE(next_answer, 8);
ROYUKEZAN_OFFSET(next_answer, refusal, 0);
ROYUKEZAN_OFFSET(next_answer, next, 4);
ROYUKEZAN_OFFSET(next_answer, channel, 6);
ROYUKEZAN_SIZE(counts_answer, 12);
ROYUKEZAN_OFFSET(counts_answer, refusal, 0);
ROYUKEZAN_OFFSET(counts_answer, visited, 4);
ROYUKEZAN_OFFSET(counts_answer, heard, 8);
ROYUKEZAN_SIZE(choice_answer, 12);
ROYUKEZAN_OFFSET(choice_answer, refusal, 0);
ROYUKEZAN_OFFSET(choice_answer, choice, 4);
ROYUKEZAN_OFFSET(choice_answer, channel, 6);
ROYUKEZAN_OFFSET(choice_answer, tried, 8);
ROYUKEZAN_SIZE(beam_answer, 8);
ROYUKEZAN_OFFSET(beam_answer, refusal, 0);
ROYUKEZAN_OFFSET(beam_answer, place, 4);
ROYUKEZAN_SIZE(levels_answer, 12);
ROYUKEZAN_OFFSET(levels_answer, refusal, 0);
ROYUKEZAN_OFFSET(levels_answer, count, 4);
ROYUKEZAN_OFFSET(levels_answer, mean, 8);
ROYUKEZAN_SIZE(verdict_answer, 8);
ROYUKEZAN_OFFSET(verdict_answer, refusal, 0);
ROYUKEZAN_OFFSET(verdict_answer, verdict, 4);
ROYUKEZAN_OFFSET(verdict_answer, channel, 6);
ROYUKEZAN_SIZE(sent_answer, 12);
ROYUKEZAN_OFFSET(sent_answer, refusal, 0);
ROYUKEZAN_OFFSET(sent_answer, par, 4);
ROYUKEZAN_OFFSET(sent_answer, pan, 8);
ROYUKEZAN_SIZE(sweep_outcome, 4632);
ROYUKEZAN_OFFSET(sweep_outcome, refusal, 0);
ROYUKEZAN_OFFSET(sweep_outcome, sweep, 8);
ROYUKEZAN_SIZE(watch_outcome, 584);
ROYUKEZAN_OFFSET(watch_outcome, refusal, 0);
ROYUKEZAN_OFFSET(watch_outcome, place, 4);
ROYUKEZAN_OFFSET(watch_outcome, watch, 8);
ROYUKEZAN_SIZE(power_outcome, 20);
ROYUKEZAN_OFFSET(power_outcome, refusal, 0);
ROYUKEZAN_OFFSET(power_outcome, power, 4);
ROYUKEZAN_SIZE(sent_outcome, 28);
ROYUKEZAN_OFFSET(sent_outcome, answer, 0);
ROYUKEZAN_OFFSET(sent_outcome, power, 12);

#undef ROYUKEZAN_OFFSET
#undef ROYUKEZAN_SIZE
#undef ROYUKEZAN_ASSERT


/* ---- Readings. Any float is taken, a NaN too. No record; nothing is written. */

/* A level of -150 to 0 dBm in hundredths: the nearest whole number, an exact half to the lower. Refusal 1. */
royukezan_hundredths_answer royukezan_level_to_hundredths(float x);

/* The same for a quality of -30 to +40 dB. Refusal 1. */
royukezan_hundredths_answer royukezan_quality_to_hundredths(float x);

/* A heard burst: level in dBm and quality in dB, both in hundredths. Refusal 1. */
royukezan_burst_answer royukezan_burst_to_hundredths(float level, float quality);

/* A level of -15,000 to 0 hundredths in dBm: h divided by 100, rounded once. Read again, it gives h. Refusal 1. */
royukezan_float_answer royukezan_level_to_float(int32_t h);

/* The same for a quality of -3,000 to 4,000 hundredths, in dB. Refusal 1. */
royukezan_float_answer royukezan_quality_to_float(int32_t h);

/* A level in hundredths, shown as a float and read again: h. Refusal 1. */
royukezan_hundredths_answer royukezan_level_read_back(int32_t h);

/* The same for a quality. Refusal 1. */
royukezan_hundredths_answer royukezan_quality_read_back(int32_t h);


/* ---- The functions of the archive over records by value. What each does and refuses stands at its plain form below. */

royukezan_sweep_outcome royukezan_sweep_file_heard_by_value(royukezan_sweep s, uint16_t channel, float level, float quality);
royukezan_sweep_outcome royukezan_sweep_file_missed_by_value(royukezan_sweep s, uint16_t channel);
royukezan_next_answer royukezan_sweep_next_by_value(royukezan_sweep s);
royukezan_counts_answer royukezan_sweep_counts_by_value(royukezan_sweep s);
uint32_t royukezan_sweep_check_by_value(royukezan_sweep s);
royukezan_choice_answer royukezan_choose_by_value(royukezan_sweep s, int32_t margin, const uint8_t *outcomes, size_t length);

royukezan_watch_outcome royukezan_watch_start_by_value(royukezan_watch w, uint16_t serving, size_t depth);
royukezan_watch_outcome royukezan_watch_new_beam_by_value(royukezan_watch w, uint16_t serving, const uint16_t *list, size_t length);
royukezan_watch_outcome royukezan_watch_file_heard_by_value(royukezan_watch w, uint16_t channel, float level, float quality);
royukezan_watch_outcome royukezan_watch_file_missed_by_value(royukezan_watch w, uint16_t channel);
royukezan_levels_answer royukezan_watch_ask_by_value(royukezan_watch w, uint16_t channel);
royukezan_verdict_answer royukezan_watch_verdict_by_value(royukezan_watch w, int32_t hysteresis);
uint32_t royukezan_watch_check_by_value(royukezan_watch w);

royukezan_power_outcome royukezan_power_start_by_value(royukezan_power_parameters p); /* refused: a record of all zeros */
uint32_t royukezan_power_check_by_value(royukezan_power_record r);
royukezan_sent_outcome royukezan_power_step_decoded_by_value(
    royukezan_power_record r, royukezan_power_parameters p, uint32_t pan, uint32_t par, int32_t sqi);
royukezan_sent_outcome royukezan_power_step_failed_by_value(royukezan_power_record r, royukezan_power_parameters p, int32_t sqi);


/* ---- The band sweep. */

/* A sweep with nothing visited. */
royukezan_sweep royukezan_sweep_fresh(void);

/* Files a heard burst, level in dBm and quality in dB, for a channel of 2 to 1,086 that was not visited: it is visited and heard now, and its
 * level is kept. The quality is tested alone. Writes *s when accepted. Refusals 9, 2, 3, 1. */
static inline uint32_t royukezan_sweep_file_heard(royukezan_sweep *s, uint16_t channel, float level, float quality)
{
    royukezan_sweep_outcome o = royukezan_sweep_file_heard_by_value(*s, channel, level, quality);
    if (o.refusal == ROYUKEZAN_ACCEPTED)
        *s = o.sweep;
    return o.refusal;
}

/* Files a missed burst: the channel is visited now. Writes *s when accepted. Refusals 9, 2, 3. */
static inline uint32_t royukezan_sweep_file_missed(royukezan_sweep *s, uint16_t channel)
{
    royukezan_sweep_outcome o = royukezan_sweep_file_missed_by_value(*s, channel);
    if (o.refusal == ROYUKEZAN_ACCEPTED)
        *s = o.sweep;
    return o.refusal;
}

/* The lowest channel of 2 to 1,086 that was not visited, or done. Writes nothing. Refusal 9. */
static inline royukezan_next_answer royukezan_sweep_next(const royukezan_sweep *s)
{
    return royukezan_sweep_next_by_value(*s);
}

/* How many channels were visited and heard, at any time. Writes nothing. Refusal 9. */
static inline royukezan_counts_answer royukezan_sweep_counts(const royukezan_sweep *s)
{
    return royukezan_sweep_counts_by_value(*s);
}

/* Whether the sweep is well formed: 0, or refusal 9. Writes nothing. */
static inline uint32_t royukezan_sweep_check(const royukezan_sweep *s)
{
    return royukezan_sweep_check_by_value(*s);
}


/* ---- The choice. */

/* The choice over a finished sweep: the first heard channel by falling level, equal levels by rising channel number, that lies at most the
 * margin, 0 to 6,000 hundredths, below the strongest and is suitable (camp there) or not read yet (read it next); no beam where there is none.
 * `outcomes` are 1,088 bytes ROYUKEZAN_OUTCOME_.., one for each channel number. Writes nothing. Refusals 9, 8, 7, 4. */
static inline royukezan_choice_answer royukezan_choose(const royukezan_sweep *s, int32_t margin, const uint8_t *outcomes, size_t length)
{
    const uint8_t none = 0;
    return royukezan_choose_by_value(*s, margin, length == 0 ? &none : outcomes, length);
}


/* ---- The watch. */

/* An idle watch. */
royukezan_watch royukezan_watch_fresh(void);

/* Starts: the channel, 0 to 1,087, serves alone, without levels; an earlier watch and its levels are forgotten. The depth, 5 to 31, is how many
 * of a channel's levels count, the newest; it stays until the next accepted start. Writes *w when accepted. Refusals 9, 7, 2. */
static inline uint32_t royukezan_watch_start(royukezan_watch *w, uint16_t serving, size_t depth)
{
    royukezan_watch_outcome o = royukezan_watch_start_by_value(*w, serving, depth);
    if (o.refusal == ROYUKEZAN_ACCEPTED)
        *w = o.watch;
    return o.refusal;
}

/* A new beam: the channel, 0 to 1,087, serves now, and its neighbours are the 0 to 6 other channels of the list. It may be the channel that
 * serves already, a neighbour or a stranger. A channel watched before and after keeps its levels, in whichever role and at whichever place; a
 * dropped one loses them; a new one has none. The depth stays. Writes *w when accepted. Refusals 9, 2, 11, then 12 to 14 with the place of the
 * first faulty channel, 6. */
static inline royukezan_beam_answer royukezan_watch_new_beam(royukezan_watch *w, uint16_t serving, const uint16_t *list, size_t length)
{
    const uint16_t none = 0;
    royukezan_watch_outcome o = royukezan_watch_new_beam_by_value(*w, serving, length == 0 ? &none : list, length);
    royukezan_beam_answer a = {o.refusal, o.place};
    if (o.refusal == ROYUKEZAN_ACCEPTED)
        *w = o.watch;
    return a;
}

/* Files a heard burst, level in dBm and quality in dB, under a watched channel: the level is its newest, and beyond the depth the oldest
 * goes. The quality is tested alone. Writes *w when accepted. Refusals 9, 6, 1. */
static inline uint32_t royukezan_watch_file_heard(royukezan_watch *w, uint16_t channel, float level, float quality)
{
    royukezan_watch_outcome o = royukezan_watch_file_heard_by_value(*w, channel, level, quality);
    if (o.refusal == ROYUKEZAN_ACCEPTED)
        *w = o.watch;
    return o.refusal;
}

/* Files a missed burst: accepted for a watched channel, and nothing changes. Writes *w when accepted, with the same values. Refusals 9, 6. */
static inline uint32_t royukezan_watch_file_missed(royukezan_watch *w, uint16_t channel)
{
    royukezan_watch_outcome o = royukezan_watch_file_missed_by_value(*w, channel);
    if (o.refusal == ROYUKEZAN_ACCEPTED)
        *w = o.watch;
    return o.refusal;
}

/* The count of a watched channel's levels and their mean in hundredths. Writes nothing. Refusals 9, 6. */
static inline royukezan_levels_answer royukezan_watch_ask(const royukezan_watch *w, uint16_t channel)
{
    return royukezan_watch_ask_by_value(*w, channel);
}

/* Wait while the serving channel has fewer levels than the depth; else move to the best neighbour that counts, or stay where none does. One
 * counts if it has as many levels as the depth and their sum exceeds the serving channel's by more than the depth times the hysteresis, 0 to
 * 6,000 hundredths; the best has the greatest sum, and the lowest channel number among equals. Writes nothing. Refusals 9, 7, 6. */
static inline royukezan_verdict_answer royukezan_watch_verdict(const royukezan_watch *w, int32_t hysteresis)
{
    return royukezan_watch_verdict_by_value(*w, hysteresis);
}

/* Whether the watch is well formed: 0, or refusal 9. Writes nothing. */
static inline uint32_t royukezan_watch_check(const royukezan_watch *w)
{
    return royukezan_watch_check_by_value(*w);
}


/* ---- The power steps. */

/* Starts the record at r, whatever it held: the three codes are PANinit, the increase 0. Writes *r when accepted. Refusal 7. */
static inline uint32_t royukezan_power_start(royukezan_power_record *r, royukezan_power_parameters p)
{
    royukezan_power_outcome o = royukezan_power_start_by_value(p);
    if (o.refusal == ROYUKEZAN_ACCEPTED)
        *r = o.power;
    return o.refusal;
}

/* Whether the power record is well formed: 0, or refusal 9. Writes nothing. */
static inline uint32_t royukezan_power_check(const royukezan_power_record *r)
{
    return royukezan_power_check_by_value(*r);
}

/* A step after a message with these PAN and PAR codes, 0 to 63 (61 to 63 are not numeric), at a measured quality sqi of -3,000 to 4,000
 * hundredths. Advances *r; refused, stores the same numbers there again. Refusals 9, 7, 1. */
royukezan_sent_answer royukezan_power_step_decoded(
    royukezan_power_record *r, royukezan_power_parameters p, uint32_t pan, uint32_t par, int32_t sqi);

/* A step after a message that was not decoded; sqi is tested here too. *r as above. Refusals 9, 7, 1. */
royukezan_sent_answer royukezan_power_step_failed(royukezan_power_record *r, royukezan_power_parameters p, int32_t sqi);


/* ---- The stack that each call takes, in bytes: of the plain form and, where there is one, of the form by value. A sweep is copied at each
 * call, some of the copies by the caller, and they are in the figures.
 *
 *     royukezan_level_to_hundredths      100
 *     royukezan_quality_to_hundredths    100
 *     royukezan_burst_to_hundredths      100
 *     royukezan_level_to_float           100
 *     royukezan_quality_to_float         100
 *     royukezan_level_read_back          100
 *     royukezan_quality_read_back        100
 *     royukezan_sweep_fresh             4700
 *     royukezan_sweep_file_heard       18700  18600
 *     royukezan_sweep_file_missed      18700  18600
 *     royukezan_sweep_next              4700   4700
 *     royukezan_sweep_counts            4700   4700
 *     royukezan_sweep_check             4700   4700
 *     royukezan_choose                 13800  13800
 *     royukezan_watch_fresh              600
 *     royukezan_watch_start             1900   1900
 *     royukezan_watch_new_beam          2700   2700
 *     royukezan_watch_file_heard        2600   2500
 *     royukezan_watch_file_missed       2600   2500
 *     royukezan_watch_ask               1300   1300
 *     royukezan_watch_verdict           1200   1200
 *     royukezan_watch_check              700    700
 *     royukezan_power_start              200    100
 *     royukezan_power_check              100    100
 *     royukezan_power_step_decoded       200    300
 *     royukezan_power_step_failed        200    300
 *
 * Measured by host/stack.c (x86-64, gcc 12 with -O2) and rounded up to whole hundreds. Not in it: some 3 KB of a dynamic loader that looks up
 * memcpy, memmove or memset when it is first called; link with -z now, or statically, and it does that before. */

#ifdef __cplusplus
}
#endif

#endif
