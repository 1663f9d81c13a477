/* A C program over the archive: it reads a session file from standard input, makes each call through royukezan.h, and writes the lines that
 * `replay` writes. docs/session-format.md has the format. Before that it tries what no session reaches (beyond.c). */
#include <inttypes.h>
#include <math.h>
#include <stdio.h>
#include <stdlib.h>
#include <string.h>

#include "beyond.h"
#include "royukezan.h"

#define LONGEST_LINE 200
#define MOST_WORDS 10 /* of a new beam: its name, the serving channel and 8 of its list */
#define RECORDED_DEPTH 15 /* of a start that names none: recorded sessions have such lines */

/* What a session keeps from line to line. All zeros, it is a session that begins. */
typedef struct {
    royukezan_sweep sweep;
    uint8_t outcomes[ROYUKEZAN_CHANNELS];
    royukezan_watch watch;
    royukezan_power_record power;
    royukezan_power_parameters parameters;
} session;

/* The numbers of a line, in their order. */
typedef struct {
    int64_t wholes[MOST_WORDS];
    size_t whole_count;
    float floats[MOST_WORDS];
    size_t float_count;
} numbers;


/* ---- What the answers are written as. */

/* With the place, where one is told. */
static int refused_at(uint32_t refusal, uint32_t place)
{
    if (refusal == ROYUKEZAN_ACCEPTED)
        return 0;
    printf("refused %" PRIu32, refusal);
    if (place != ROYUKEZAN_NO_PLACE)
        printf(" at %" PRIu32, place);
    putchar('\n');
    return 1;
}

static int refused(uint32_t refusal)
{
    return refused_at(refusal, ROYUKEZAN_NO_PLACE);
}

static void say_accepted(uint32_t refusal)
{
    if (!refused(refusal))
        puts("accepted");
}

static void say_beam(royukezan_beam_answer a)
{
    if (!refused_at(a.refusal, a.place))
        puts("accepted");
}

static void say_hundredths(royukezan_hundredths_answer a)
{
    if (!refused(a.refusal))
        printf("hundredths %" PRId32 "\n", a.hundredths);
}

static void say_float(royukezan_float_answer a)
{
    uint32_t bits;
    memcpy(&bits, &a.value, sizeof bits);
    if (!refused(a.refusal))
        printf("float 0x%08" PRIx32 "\n", bits);
}

static void say_sent(royukezan_sent_answer a)
{
    if (!refused(a.refusal))
        printf("par %" PRIu32 " pan %" PRIu32 "\n", a.par, a.pan);
}


/* ---- The calls, one for each form of a line. */

static void level(session *s, const numbers *n)
{
    (void)s;
    say_hundredths(royukezan_level_to_hundredths(n->floats[0]));
}

static void quality(session *s, const numbers *n)
{
    (void)s;
    say_hundredths(royukezan_quality_to_hundredths(n->floats[0]));
}

static void show_level(session *s, const numbers *n)
{
    (void)s;
    say_float(royukezan_level_to_float((int32_t)n->wholes[0]));
}

static void show_quality(session *s, const numbers *n)
{
    (void)s;
    say_float(royukezan_quality_to_float((int32_t)n->wholes[0]));
}

static void sweep_fresh(session *s, const numbers *n)
{
    (void)n;
    s->sweep = royukezan_sweep_fresh();
    say_accepted(ROYUKEZAN_ACCEPTED);
}

static void sweep_file_heard(session *s, const numbers *n)
{
    say_accepted(royukezan_sweep_file_heard(&s->sweep, (uint16_t)n->wholes[0], n->floats[0], n->floats[1]));
}

static void sweep_file_missed(session *s, const numbers *n)
{
    say_accepted(royukezan_sweep_file_missed(&s->sweep, (uint16_t)n->wholes[0]));
}

static void sweep_rest_missed(session *s, const numbers *n)
{
    royukezan_next_answer a = royukezan_sweep_next(&s->sweep);
    uint32_t refusal = a.refusal;
    (void)n;
    while (refusal == ROYUKEZAN_ACCEPTED && a.next == ROYUKEZAN_NEXT_CHANNEL) {
        refusal = royukezan_sweep_file_missed(&s->sweep, a.channel);
        a = royukezan_sweep_next(&s->sweep);
    }
    say_accepted(refusal);
}

static void sweep_next(session *s, const numbers *n)
{
    royukezan_next_answer a = royukezan_sweep_next(&s->sweep);
    (void)n;
    if (refused(a.refusal))
        return;
    if (a.next == ROYUKEZAN_NEXT_CHANNEL)
        printf("next %u\n", a.channel);
    else
        puts("done");
}

static void sweep_counts(session *s, const numbers *n)
{
    royukezan_counts_answer a = royukezan_sweep_counts(&s->sweep);
    (void)n;
    if (!refused(a.refusal))
        printf("visited %" PRIu32 " heard %" PRIu32 "\n", a.visited, a.heard);
}

static void outcome(session *s, const numbers *n)
{
    s->outcomes[n->wholes[0]] = (uint8_t)n->wholes[1];
    say_accepted(ROYUKEZAN_ACCEPTED);
}

static void choose(session *s, const numbers *n)
{
    royukezan_choice_answer a = royukezan_choose(&s->sweep, (int32_t)n->wholes[0], s->outcomes, sizeof s->outcomes);
    if (refused(a.refusal))
        return;
    if (a.choice == ROYUKEZAN_CHOICE_NO_BEAM)
        printf("no beam tried %" PRIu32 "\n", a.tried);
    else
        printf("%s %u tried %" PRIu32 "\n", a.choice == ROYUKEZAN_CHOICE_CAMP ? "camp" : "read", a.channel, a.tried);
}

/* With a depth or without. */
static void start(session *s, const numbers *n)
{
    size_t depth = n->whole_count > 1 ? (size_t)n->wholes[1] : RECORDED_DEPTH;
    say_accepted(royukezan_watch_start(&s->watch, (uint16_t)n->wholes[0], depth));
}

/* The serving channel, then its list. */
static void new_beam(session *s, const numbers *n)
{
    uint16_t list[MOST_WORDS];
    size_t length = n->whole_count - 1;
    for (size_t i = 0; i < length; i++)
        list[i] = (uint16_t)n->wholes[1 + i];
    say_beam(royukezan_watch_new_beam(&s->watch, (uint16_t)n->wholes[0], list, length));
}

static void file_heard(session *s, const numbers *n)
{
    say_accepted(royukezan_watch_file_heard(&s->watch, (uint16_t)n->wholes[0], n->floats[0], n->floats[1]));
}

static void file_missed(session *s, const numbers *n)
{
    say_accepted(royukezan_watch_file_missed(&s->watch, (uint16_t)n->wholes[0]));
}

static void ask(session *s, const numbers *n)
{
    royukezan_levels_answer a = royukezan_watch_ask(&s->watch, (uint16_t)n->wholes[0]);
    if (!refused(a.refusal))
        printf("count %" PRIu32 " mean %" PRId32 "\n", a.count, a.mean);
}

static void verdict(session *s, const numbers *n)
{
    royukezan_verdict_answer a = royukezan_watch_verdict(&s->watch, (int32_t)n->wholes[0]);
    if (refused(a.refusal))
        return;
    if (a.verdict == ROYUKEZAN_VERDICT_MOVE)
        printf("move %u\n", a.channel);
    else
        puts(a.verdict == ROYUKEZAN_VERDICT_STAY ? "stay" : "wait");
}

static void params(session *s, const numbers *n)
{
    s->parameters = (royukezan_power_parameters){
        .sqt = (uint32_t)n->wholes[0],
        .paninit = (uint32_t)n->wholes[1],
        .panmin = (uint32_t)n->wholes[2],
        .panmax = (uint32_t)n->wholes[3],
        .gainup = (uint32_t)n->wholes[4],
        .gaindn = (uint32_t)n->wholes[5],
        .mestep = (uint32_t)n->wholes[6],
    };
    say_accepted(ROYUKEZAN_ACCEPTED);
}

/* By value: where a start is refused, a session goes on with a record of all zeros. */
static void power_start(session *s, const numbers *n)
{
    royukezan_power_outcome o = royukezan_power_start_by_value(s->parameters);
    (void)n;
    s->power = o.power;
    say_accepted(o.refusal);
}

static void step_decoded(session *s, const numbers *n)
{
    say_sent(royukezan_power_step_decoded(
        &s->power, s->parameters, (uint32_t)n->wholes[0], (uint32_t)n->wholes[1], (int32_t)n->wholes[2]));
}

static void step_failed(session *s, const numbers *n)
{
    say_sent(royukezan_power_step_failed(&s->power, s->parameters, (int32_t)n->wholes[0]));
}


/* ---- The forms of a line: words as they stand, or the name of a kind of number; the last kind may be repeated, or be left out. */

#define REPEATED "CH.."

static const struct {
    const char *name;
    int64_t low, high;
} kinds[] = {
    {"CH", 0, UINT16_MAX},
    {REPEATED, 0, UINT16_MAX},
    {"CH1087", 0, ROYUKEZAN_CHANNELS - 1},
    {"INT", INT32_MIN, INT32_MAX},
    {"BYTE", 0, UINT8_MAX},
};

static const struct {
    const char *form[MOST_WORDS];
    void (*call)(session *s, const numbers *n);
} calls[] = {
    {{"level", "NUM"}, level},
    {{"quality", "NUM"}, quality},
    {{"show", "level", "INT"}, show_level},
    {{"show", "quality", "INT"}, show_quality},
    {{"sweep", "fresh"}, sweep_fresh},
    {{"sweep", "file", "CH", "heard", "NUM", "NUM"}, sweep_file_heard},
    {{"sweep", "file", "CH", "missed"}, sweep_file_missed},
    {{"sweep", "rest", "missed"}, sweep_rest_missed},
    {{"sweep", "next"}, sweep_next},
    {{"sweep", "counts"}, sweep_counts},
    {{"outcome", "CH1087", "BYTE"}, outcome},
    {{"choose", "INT"}, choose},
    {{"start", "CH"}, start},
    {{"start", "CH", "BYTE"}, start},
    {{"beam", "CH", REPEATED}, new_beam},
    {{"file", "CH", "heard", "NUM", "NUM"}, file_heard},
    {{"file", "CH", "missed"}, file_missed},
    {{"ask", "CH"}, ask},
    {{"verdict", "INT"}, verdict},
    {{"params", "BYTE", "BYTE", "BYTE", "BYTE", "BYTE", "BYTE", "BYTE"}, params},
    {{"power", "start"}, power_start},
    {{"step", "failed", "INT"}, step_failed},
    {{"step", "BYTE", "BYTE", "INT"}, step_decoded},
};


/* ---- Reading a line. */

/* Splits a line at each space. Gives the number of words, or one more than the most if there are more. */
static size_t split(char *line, char *words[MOST_WORDS])
{
    size_t count = 0;
    char *next = line;
    while (next != NULL) {
        if (count == MOST_WORDS)
            return MOST_WORDS + 1;
        words[count++] = next;
        next = strchr(next, ' ');
        if (next != NULL)
            *next++ = '\0';
    }
    return count;
}

/* A whole number from low to high: an optional minus and 1 to 10 digits. */
static int whole(const char *word, int64_t low, int64_t high, int64_t *n)
{
    size_t sign = word[0] == '-';
    size_t digits = strspn(word + sign, "0123456789");
    if (digits < 1 || digits > 10 || word[sign + digits] != '\0')
        return 0;
    *n = strtoll(word, NULL, 10);
    return low <= *n && *n <= high;
}

/* A decimal of at most 7 digits, with digits on both sides of a point. */
static int decimal(const char *word, float *x)
{
    size_t sign = word[0] == '-';
    size_t before = strspn(word + sign, "0123456789");
    const char *point = word + sign + before;
    size_t after = *point == '.' ? strspn(point + 1, "0123456789") : 0;
    const char *end = *point == '.' ? point + 1 + after : point;
    if (before < 1 || (*point == '.' && after < 1) || before + after > 7 || *end != '\0')
        return 0;
    *x = strtof(word, NULL);
    return 1;
}

/* A float by its bits, as a decimal, or `nan`, `inf`, `-inf`. */
static int single(const char *word, float *x)
{
    if (strcmp(word, "nan") == 0)
        *x = NAN;
    else if (strcmp(word, "inf") == 0)
        *x = INFINITY;
    else if (strcmp(word, "-inf") == 0)
        *x = -INFINITY;
    else if (strlen(word) == 10 && strncmp(word, "0x", 2) == 0 && strspn(word + 2, "0123456789abcdef") == 8) {
        uint32_t bits = (uint32_t)strtoul(word, NULL, 16);
        memcpy(x, &bits, sizeof *x);
    } else
        return decimal(word, x);
    return 1;
}

/* Whether a word is of this form; a number is kept. */
static int fits(const char *word, const char *form, numbers *n)
{
    if (strcmp(form, "NUM") == 0)
        return single(word, &n->floats[n->float_count++]);
    for (size_t i = 0; i < sizeof kinds / sizeof kinds[0]; i++)
        if (strcmp(form, kinds[i].name) == 0)
            return whole(word, kinds[i].low, kinds[i].high, &n->wholes[n->whole_count++]);
    return strcmp(word, form) == 0;
}

/* Whether the words of a line are of this form. */
static int has_form(char *words[], size_t count, const char *const form[MOST_WORDS], numbers *n)
{
    size_t at = 0;
    n->whole_count = n->float_count = 0;
    for (size_t i = 0; i < count; i++) {
        if (form[at] == NULL || !fits(words[i], form[at], n))
            return 0;
        if (strcmp(form[at], REPEATED) != 0)
            at++;
    }
    return form[at] == NULL || strcmp(form[at], REPEATED) == 0;
}

/* Makes the call of one line and writes its answer; 0 where the line is none of the calls. */
static int answer(session *s, char *line)
{
    char *words[MOST_WORDS];
    numbers n;
    size_t count = split(line, words);
    for (size_t i = 0; count <= MOST_WORDS && i < sizeof calls / sizeof calls[0]; i++)
        if (has_form(words, count, calls[i].form, &n)) {
            calls[i].call(s, &n);
            return 1;
        }
    return 0;
}

/* Reads a line without its newline, as far as there is room, and gives its whole length; -1 at the end of the file. */
static long read_line(char line[LONGEST_LINE + 1])
{
    long length = 0;
    int c;
    while ((c = getchar()) != EOF && c != '\n') {
        if (length < LONGEST_LINE)
            line[length] = (char)c;
        length++;
    }
    line[length < LONGEST_LINE ? length : LONGEST_LINE] = '\0';
    return c == EOF && length == 0 ? -1 : length;
}

int main(void)
{
    static session s;
    char line[LONGEST_LINE + 1];
    long length;
    const char *wrong = beyond_sessions();

    if (wrong != NULL) {
        fprintf(stderr, "modem: %s\n", wrong);
        return 1;
    }
    for (unsigned long at = 1; (length = read_line(line)) >= 0; at++) {
        if (length == 0 || line[0] == '#')
            continue;
        /* A line that is too long or holds a NUL is none of the calls. */
        if ((size_t)length != strlen(line) || !answer(&s, line))
            printf("error line %lu\n", at);
    }
    return ferror(stdin) || fflush(stdout) != 0;
}
