/* What no session reaches, tried through the archive: records that are not well formed, the depth that a watch holds, new beams of every kind
 * in both forms, the calls that no line asks for, empty lists, and the header's names against the numbers of the archive. A damaged record is
 * refused by every call with 9, whatever else is wrong, and is left or handed back as it was. */
#include "beyond.h"

#include <math.h>
#include <string.h>

#include "royukezan.h"

#define LENGTH(array) (sizeof(array) / sizeof(array)[0])

static const royukezan_power_parameters good = {85, 30, 0, 60, 10, 10, 3};
static const royukezan_power_parameters bad = {127, 30, 0, 60, 10, 10, 3};

static int is_9(uint32_t refusal)
{
    return refusal == ROYUKEZAN_RECORD_NOT_WELL_FORMED;
}

static int beam_is(royukezan_beam_answer a, uint32_t refusal, uint32_t place)
{
    return a.refusal == refusal && a.place == place;
}


/* ---- The sweep. */

/* Its fields leave no padding, so that here bytes may be compared. */
static int same_sweep(const royukezan_sweep *a, const royukezan_sweep *b)
{
    return memcmp(a, b, sizeof *a) == 0;
}

static int filing_refused(const royukezan_sweep *damaged)
{
    royukezan_sweep lent = *damaged;
    royukezan_sweep_outcome heard = royukezan_sweep_file_heard_by_value(*damaged, UINT16_MAX, NAN, 0.0f);
    royukezan_sweep_outcome missed = royukezan_sweep_file_missed_by_value(*damaged, 310);
    return is_9(heard.refusal) && same_sweep(&heard.sweep, damaged) && is_9(missed.refusal) && same_sweep(&missed.sweep, damaged)
        && is_9(royukezan_sweep_file_heard(&lent, 310, -94.2f, 9.1f)) && is_9(royukezan_sweep_file_missed(&lent, UINT16_MAX))
        && same_sweep(&lent, damaged);
}

static int sweep_refused(const royukezan_sweep *damaged)
{
    royukezan_next_answer next = royukezan_sweep_next(damaged);
    royukezan_counts_answer counts = royukezan_sweep_counts(damaged);
    royukezan_choice_answer choice = royukezan_choose(damaged, -1, NULL, 0);
    return is_9(next.refusal) && next.next == 0 && next.channel == 0 && is_9(counts.refusal) && counts.visited == 0 && counts.heard == 0
        && is_9(choice.refusal) && choice.choice == 0 && choice.channel == 0 && choice.tried == 0
        && is_9(royukezan_sweep_check(damaged)) && filing_refused(damaged);
}

static void set_bit(uint64_t map[17], unsigned channel, int bit)
{
    if (bit)
        map[channel / 64] |= UINT64_C(1) << channel % 64;
}

static int damaged_sweeps_refused(void)
{
    static const struct {
        uint16_t channel;
        int visited, heard;
        int32_t level;
    } damages[] = {
        {100, 0, 1, 0}, /* heard only where visited */
        {0, 1, 0, 0}, {1, 1, 0, 0}, {1087, 1, 0, 0}, {1087, 1, 1, 0}, /* no bit outside 2 to 1,086 */
        {100, 0, 0, -1}, {100, 1, 0, -1}, {0, 0, 0, -1}, {1087, 0, 0, 1}, /* level 0 where not heard */
        {100, 1, 1, 1}, {100, 1, 1, -15001}, {1086, 1, 1, INT32_MIN}, /* each level in -15,000 to 0 */
    };
    for (size_t i = 0; i < LENGTH(damages); i++) {
        royukezan_sweep s = royukezan_sweep_fresh();
        if (royukezan_sweep_file_heard(&s, 310, -94.2f, 9.1f) != ROYUKEZAN_ACCEPTED || royukezan_sweep_check(&s) != ROYUKEZAN_ACCEPTED)
            return 0;
        set_bit(s.visited, damages[i].channel, damages[i].visited);
        set_bit(s.heard, damages[i].channel, damages[i].heard);
        s.levels[damages[i].channel] = damages[i].level;
        if (!sweep_refused(&s))
            return 0;
    }
    return 1;
}


/* ---- The watch. */

static int same_watch(const royukezan_watch *a, const royukezan_watch *b)
{
    int same = a->watched == b->watched && a->depth == b->depth;
    for (size_t i = 0; i < LENGTH(a->tracks); i++)
        same = same && a->tracks[i].channel == b->tracks[i].channel && a->tracks[i].count == b->tracks[i].count
            && memcmp(a->tracks[i].levels, b->tracks[i].levels, sizeof a->tracks[i].levels) == 0;
    return same;
}

static int watch_handed_back(const royukezan_watch *damaged)
{
    static const uint16_t list[] = {42, 42};
    const royukezan_watch_outcome outcomes[] = {
        royukezan_watch_start_by_value(*damaged, UINT16_MAX, SIZE_MAX),
        royukezan_watch_new_beam_by_value(*damaged, UINT16_MAX, list, LENGTH(list)),
        royukezan_watch_new_beam_by_value(*damaged, 118, list, 1),
        royukezan_watch_file_heard_by_value(*damaged, 42, NAN, 0.0f),
        royukezan_watch_file_missed_by_value(*damaged, UINT16_MAX),
    };
    for (size_t i = 0; i < LENGTH(outcomes); i++)
        if (!is_9(outcomes[i].refusal) || outcomes[i].place != ROYUKEZAN_NO_PLACE || !same_watch(&outcomes[i].watch, damaged))
            return 0;
    return 1;
}

static int watch_refused(const royukezan_watch *damaged)
{
    static const uint16_t list[] = {310};
    royukezan_watch lent = *damaged;
    royukezan_levels_answer levels = royukezan_watch_ask(damaged, 42);
    royukezan_verdict_answer verdict = royukezan_watch_verdict(damaged, -1);
    return is_9(levels.refusal) && levels.count == 0 && levels.mean == 0
        && is_9(verdict.refusal) && verdict.verdict == 0 && verdict.channel == 0
        && is_9(royukezan_watch_check(damaged)) && is_9(royukezan_watch_start(&lent, 310, 15))
        && beam_is(royukezan_watch_new_beam(&lent, 1088, NULL, 0), ROYUKEZAN_RECORD_NOT_WELL_FORMED, ROYUKEZAN_NO_PLACE)
        && beam_is(royukezan_watch_new_beam(&lent, 42, list, 1), ROYUKEZAN_RECORD_NOT_WELL_FORMED, ROYUKEZAN_NO_PLACE)
        && is_9(royukezan_watch_file_heard(&lent, 42, -94.2f, 9.1f)) && is_9(royukezan_watch_file_missed(&lent, 42))
        && same_watch(&lent, damaged) && watch_handed_back(damaged);
}

/* A watch of depth 15 with channel 310 serving, with one level, neighbour 42 with two levels and neighbour 118 with none. */
static int sound_watch(royukezan_watch *w)
{
    static const uint16_t list[] = {42, 118};
    uint32_t refusal = royukezan_watch_start(w, 310, 15);
    refusal |= royukezan_watch_new_beam(w, 310, list, LENGTH(list)).refusal;
    refusal |= royukezan_watch_file_heard(w, 310, -98.5f, 7.2f);
    refusal |= royukezan_watch_file_heard(w, 42, -94.2f, 9.1f);
    refusal |= royukezan_watch_file_heard(w, 42, -94.2f, 9.1f);
    return refusal == ROYUKEZAN_ACCEPTED && royukezan_watch_check(w) == ROYUKEZAN_ACCEPTED;
}

static int damaged_watches_refused(void)
{
    static const struct {
        size_t watched, depth, track;
        uint16_t channel;
        size_t count, place;
        int16_t level;
    } damages[] = {
        {8, 15, 1, 42, 2, 0, -9420}, {SIZE_MAX, 15, 1, 42, 2, 0, -9420}, /* more tracks than there are */
        {2, 15, 1, 42, 2, 0, -9420}, {0, 15, 1, 42, 2, 0, -9420}, /* a track that is not in use and not all zeros */
        {3, 15, 5, 7, 0, 0, 0}, {3, 15, 5, 0, 1, 0, 0}, {3, 15, 5, 0, 0, 0, -1}, {3, 15, 6, 0, 0, 30, -1}, {3, 15, 6, 0, 0, 31, -1},
        {3, 15, 1, 1088, 2, 0, -9420}, {3, 15, 1, 310, 2, 0, -9420}, {3, 15, 1, 118, 2, 0, -9420}, /* a channel above 1,087; a repeat */
        {3, 4, 1, 42, 2, 0, -9420}, {3, 32, 1, 42, 2, 0, -9420}, {3, SIZE_MAX, 1, 42, 2, 0, -9420}, /* a depth outside 5 to 31 */
        {3, 5, 1, 42, 6, 0, -9420}, {3, 15, 1, 42, 16, 0, -9420}, {3, 30, 1, 42, 31, 0, -9420}, /* more levels than the depth */
        {3, 15, 0, 310, 16, 0, -9420}, {3, 15, 2, 118, 16, 0, -9420}, {3, 0, 1, 42, 2, 0, -9420},
        {3, 31, 1, 42, 32, 0, -9420}, {3, 15, 1, 42, SIZE_MAX, 0, -9420}, {3, SIZE_MAX, 1, 42, SIZE_MAX, 0, -9420},
        {3, 31, 1, 42, 32, 31, -9420}, {3, 32, 1, 42, 32, 31, -9420}, /* as many as there are places */
        {3, 15, 1, 42, 2, 0, 1}, {3, 15, 1, 42, 2, 1, -15001}, /* a level out of range */
        {3, 15, 1, 42, 2, 0, INT16_MIN}, {3, 15, 1, 42, 2, 1, INT16_MAX}, {3, 31, 1, 42, 31, 30, INT16_MIN},
        {3, 15, 1, 42, 2, 2, -1}, {3, 15, 1, 42, 2, 15, -1}, {3, 15, 1, 42, 2, 30, -1}, {3, 31, 1, 42, 2, 30, -1}, /* one after the last */
        {3, 15, 1, 42, 2, 31, -1}, {3, 31, 1, 42, 30, 30, -1}, {3, 31, 1, 42, 31, 31, -1}, {3, 31, 1, 42, 31, 31, INT16_MAX},
    };
    for (size_t i = 0; i < LENGTH(damages); i++) {
        royukezan_watch w = royukezan_watch_fresh();
        if (!sound_watch(&w))
            return 0;
        w.watched = damages[i].watched;
        w.depth = damages[i].depth;
        w.tracks[damages[i].track].channel = damages[i].channel;
        w.tracks[damages[i].track].count = damages[i].count;
        w.tracks[damages[i].track].levels[damages[i].place] = damages[i].level;
        if (!watch_refused(&w))
            return 0;
    }
    return 1;
}

/* A watch without levels, started or idle, that holds this depth is not well formed. */
static int depth_refused(int started, size_t depth)
{
    royukezan_watch w = royukezan_watch_fresh();
    if (started && royukezan_watch_start(&w, 310, 15) != ROYUKEZAN_ACCEPTED)
        return 0;
    w.depth = depth;
    return watch_refused(&w);
}

/* An idle watch is all zero, and holds no depth; one that was started holds 5 to 31. */
static int depths_refused(void)
{
    static const size_t idle[] = {1, 4, 5, 15, 31, 32, SIZE_MAX}, started[] = {0, 1, 4, 32, SIZE_MAX};
    int refused = 1;
    for (size_t i = 0; i < LENGTH(idle); i++)
        refused = refused && depth_refused(0, idle[i]);
    for (size_t i = 0; i < LENGTH(started); i++)
        refused = refused && depth_refused(1, started[i]);
    return refused;
}

/* A start that is refused so: both forms leave or hand back the watch as it was. */
static int watch_start_refused(const royukezan_watch *w, uint16_t serving, size_t depth, uint32_t refusal)
{
    royukezan_watch lent = *w;
    royukezan_watch_outcome o = royukezan_watch_start_by_value(*w, serving, depth);
    return royukezan_watch_start(&lent, serving, depth) == refusal && same_watch(&lent, w)
        && o.refusal == refusal && o.place == ROYUKEZAN_NO_PLACE && same_watch(&o.watch, w);
}

/* On a fresh watch and on a sound one: 7 for a depth, also where the channel is none, then 2 for the channel. */
static int watch_starts_refused(void)
{
    static const size_t wrong[] = {0, 4, 32, 255, (size_t)UINT32_MAX + 16, SIZE_MAX};
    royukezan_watch watches[2] = {royukezan_watch_fresh(), royukezan_watch_fresh()};
    int refused = sound_watch(&watches[1]);
    for (size_t i = 0; i < LENGTH(watches); i++) {
        for (size_t j = 0; j < LENGTH(wrong); j++)
            refused = refused && watch_start_refused(&watches[i], 310, wrong[j], ROYUKEZAN_PARAMETER_OUT_OF_RANGE)
                && watch_start_refused(&watches[i], 1088, wrong[j], ROYUKEZAN_PARAMETER_OUT_OF_RANGE)
                && watch_start_refused(&watches[i], UINT16_MAX, wrong[j], ROYUKEZAN_PARAMETER_OUT_OF_RANGE);
        for (size_t depth = ROYUKEZAN_DEPTH_LOWEST; depth <= ROYUKEZAN_DEPTH_HIGHEST; depth++)
            refused = refused && watch_start_refused(&watches[i], 1088, depth, ROYUKEZAN_CHANNEL_OUT_OF_RANGE);
    }
    return refused;
}

/* A watch started with this depth, from whatever it was: the depth stays through new beams and filings; a channel keeps so many levels, and the
 * verdict waits for as many. */
static int has_depth(royukezan_watch *w, size_t depth)
{
    static const uint16_t list[] = {42, 118}, eastern[] = {118, 310};
    int holds = royukezan_watch_start(w, 310, depth) == ROYUKEZAN_ACCEPTED && w->depth == depth && w->watched == 1
        && royukezan_watch_new_beam(w, 310, list, LENGTH(list)).refusal == ROYUKEZAN_ACCEPTED;
    for (size_t i = 0; i < depth; i++)
        holds = holds && royukezan_watch_verdict(w, 0).verdict == ROYUKEZAN_VERDICT_WAIT && royukezan_watch_ask(w, 310).count == i
            && royukezan_watch_file_heard(w, 310, -98.5f, 7.2f) == ROYUKEZAN_ACCEPTED
            && royukezan_watch_file_heard(w, 42, -94.2f, 9.1f) == ROYUKEZAN_ACCEPTED;
    return holds && royukezan_watch_verdict(w, 430).verdict == ROYUKEZAN_VERDICT_STAY
        && royukezan_watch_verdict(w, 429).verdict == ROYUKEZAN_VERDICT_MOVE
        && royukezan_watch_file_heard(w, 310, -98.5f, 7.2f) == ROYUKEZAN_ACCEPTED && royukezan_watch_ask(w, 310).count == depth
        && royukezan_watch_new_beam(w, 42, eastern, LENGTH(eastern)).refusal == ROYUKEZAN_ACCEPTED
        && royukezan_watch_ask(w, 310).count == depth && royukezan_watch_ask(w, 42).count == depth
        && royukezan_watch_new_beam(w, 700, eastern, LENGTH(eastern)).refusal == ROYUKEZAN_ACCEPTED
        && w->depth == depth && royukezan_watch_check(w) == ROYUKEZAN_ACCEPTED;
}

static int depths_are_kept(void)
{
    royukezan_watch w = royukezan_watch_fresh();
    int kept = 1;
    for (size_t depth = ROYUKEZAN_DEPTH_LOWEST; depth <= ROYUKEZAN_DEPTH_HIGHEST; depth++)
        kept = kept && has_depth(&w, depth);
    return kept;
}


/* ---- New beams, on an idle watch and on a sound one. */

/* The fault of one place of a list, by the rules: range, the serving channel that the list comes with, repeat of an earlier place. */
static uint32_t fault_at(uint16_t serving, const uint16_t *list, size_t place)
{
    if (list[place] >= ROYUKEZAN_CHANNELS)
        return ROYUKEZAN_LISTED_OUT_OF_RANGE;
    if (list[place] == serving)
        return ROYUKEZAN_LISTED_SERVING;
    for (size_t earlier = 0; earlier < place; earlier++)
        if (list[earlier] == list[place])
            return ROYUKEZAN_LISTED_AGAIN;
    return ROYUKEZAN_ACCEPTED;
}

/* What a new beam has to answer, by the rules. */
static royukezan_beam_answer beam_answer(const royukezan_watch *w, uint16_t serving, const uint16_t *list, size_t length)
{
    royukezan_beam_answer a = {ROYUKEZAN_CHANNEL_OUT_OF_RANGE, ROYUKEZAN_NO_PLACE};
    if (serving >= ROYUKEZAN_CHANNELS)
        return a;
    a.refusal = ROYUKEZAN_LIST_TOO_LONG;
    if (length > ROYUKEZAN_LIST_LIMIT)
        return a;
    for (uint32_t place = 0; place < length; place++) {
        a.refusal = fault_at(serving, list, place);
        a.place = place;
        if (a.refusal != ROYUKEZAN_ACCEPTED)
            return a;
    }
    a.refusal = w->watched == 0 ? ROYUKEZAN_NOT_WATCHED : ROYUKEZAN_ACCEPTED;
    a.place = ROYUKEZAN_NO_PLACE;
    return a;
}

/* The channel with the levels that it had, in whichever role; without any where it was not watched. */
static royukezan_track kept(const royukezan_watch *w, uint16_t channel)
{
    royukezan_track t = {channel, 0, {0}};
    for (size_t i = 0; i < w->watched; i++)
        if (w->tracks[i].channel == channel)
            t = w->tracks[i];
    return t;
}

/* The watch that an accepted new beam has to leave, by the rules. */
static royukezan_watch beam_watch(const royukezan_watch *w, uint16_t serving, const uint16_t *list, size_t length)
{
    royukezan_watch left = royukezan_watch_fresh();
    left.watched = 1 + length;
    left.depth = w->depth;
    left.tracks[0] = kept(w, serving);
    for (size_t i = 0; i < length; i++)
        left.tracks[1 + i] = kept(w, list[i]);
    return left;
}

/* Sets the bytes between the fields as well, so that all the bytes of a watch can be compared. */
static void paint_padding(royukezan_watch *w)
{
    const size_t from = sizeof w->tracks[0].channel;
    for (size_t i = 0; i < LENGTH(w->tracks); i++)
        memset((unsigned char *)&w->tracks[i] + from, 0xa5, offsetof(royukezan_track, count) - from);
}

/* Both forms answer as the rules say. Refused, every byte of a lent watch stays; accepted, both leave the watch that the rules say. */
static int beam_told(const royukezan_watch *w, uint16_t serving, const uint16_t *list, size_t length)
{
    const royukezan_beam_answer told = beam_answer(w, serving, list, length);
    royukezan_watch lent = *w, before;
    paint_padding(&lent);
    memcpy(&before, &lent, sizeof lent);
    royukezan_watch_outcome o = royukezan_watch_new_beam_by_value(lent, serving, list, length);
    royukezan_beam_answer a = royukezan_watch_new_beam(&lent, serving, list, length);
    if (o.refusal != told.refusal || o.place != told.place || !beam_is(a, told.refusal, told.place))
        return 0;
    if (told.refusal != ROYUKEZAN_ACCEPTED)
        return memcmp(&lent, &before, sizeof lent) == 0 && same_watch(&o.watch, w);
    royukezan_watch left = beam_watch(w, serving, list, length);
    return same_watch(&lent, &left) && same_watch(&o.watch, &left) && royukezan_watch_check(&lent) == ROYUKEZAN_ACCEPTED;
}

/* Every list of so many of these channels. In a sound watch 310 serves, and 42 and 118 are its neighbours; the six within the range let a fault
 * come first at any place. */
static int lists_of(const royukezan_watch *w, uint16_t serving, size_t length)
{
    static const uint16_t channels[] = {0, 42, 118, 205, 310, 1087, 1088, UINT16_MAX};
    uint16_t list[ROYUKEZAN_LIST_LIMIT] = {0};
    size_t count = 1;
    for (size_t i = 0; i < length; i++)
        count *= LENGTH(channels);
    for (size_t number = 0; number < count; number++) {
        size_t rest = number;
        for (size_t i = 0; i < length; i++, rest /= LENGTH(channels))
            list[i] = channels[rest % LENGTH(channels)];
        if (!beam_told(w, serving, list, length))
            return 0;
    }
    return 1;
}

/* Longer lists than a line has, and such as narrower numbers would take for short ones. */
static int long_lists(const royukezan_watch *w, uint16_t serving)
{
    static const size_t lengths[] = {7, 8, 9, 256, 256 + 2, 65536, 65536 + 2};
    static uint16_t list[65536 + 2];
    int told = 1;
    for (size_t i = 0; i < LENGTH(lengths); i++) {
        list[0] = 1;
        list[1] = 2;
        told = told && beam_told(w, serving, list, lengths[i]);
        list[0] = UINT16_MAX;
        told = told && beam_told(w, serving, list, lengths[i]);
    }
    return told;
}

/* The channel that serves in a sound watch, a neighbour of it, strangers, and such as are none. */
static int beams_are_told(void)
{
    static const uint16_t servings[] = {310, 42, 205, 0, 1087, 1088, UINT16_MAX};
    royukezan_watch watches[2] = {royukezan_watch_fresh(), royukezan_watch_fresh()};
    int told = sound_watch(&watches[1]);
    for (size_t i = 0; i < LENGTH(watches) * LENGTH(servings); i++) {
        const royukezan_watch *w = &watches[i % LENGTH(watches)];
        const uint16_t serving = servings[i / LENGTH(watches)];
        for (size_t length = 0; length <= ROYUKEZAN_LIST_LIMIT; length++)
            told = told && lists_of(w, serving, length);
        told = told && long_lists(w, serving);
    }
    return told;
}

/* Beams of one evening, one after the other: how many levels each channel has then, or that it is not watched. */
static int evening_is_told(void)
{
    enum { NOT_WATCHED = UINT16_MAX };
    static const uint16_t channels[] = {310, 42, 118, 700};
    static const struct {
        uint16_t serving, list[3];
        size_t length;
        uint16_t counts[LENGTH(channels)];
    } beams[] = {
        {42, {310, 118}, 2, {1, 2, 0, NOT_WATCHED}}, /* a neighbour serves, the channel that served is in its list: both keep theirs */
        {42, {118, 310}, 2, {1, 2, 0, NOT_WATCHED}}, /* the same channel goes on */
        {700, {42, 310}, 2, {1, 2, NOT_WATCHED, 0}}, /* a stranger serves */
        {310, {700, 118}, 2, {1, NOT_WATCHED, 0, 0}}, /* a neighbour serves, the one that was dropped before is back */
        {700, {118}, 1, {NOT_WATCHED, NOT_WATCHED, 0, 0}}, /* the channel that served is dropped .. */
        {310, {118, 42, 700}, 3, {0, 0, 0, 0}}, /* .. and is back without levels */
    };
    royukezan_watch w = royukezan_watch_fresh();
    int told = sound_watch(&w);
    for (size_t i = 0; i < LENGTH(beams); i++) {
        told = told && royukezan_watch_new_beam(&w, beams[i].serving, beams[i].list, beams[i].length).refusal == ROYUKEZAN_ACCEPTED
            && w.tracks[0].channel == beams[i].serving;
        for (size_t j = 0; j < LENGTH(channels); j++) {
            royukezan_levels_answer a = royukezan_watch_ask(&w, channels[j]);
            told = told && (beams[i].counts[j] == NOT_WATCHED ? a.refusal == ROYUKEZAN_NOT_WATCHED : a.count == beams[i].counts[j]);
        }
    }
    return told;
}

/* The other calls tell no place, accepted or refused. */
static int no_place_is_told(void)
{
    royukezan_watch w = royukezan_watch_fresh();
    if (!sound_watch(&w))
        return 0;
    const struct {
        royukezan_watch_outcome outcome;
        uint32_t refusal;
    } calls[] = {
        {royukezan_watch_start_by_value(w, 310, 15), ROYUKEZAN_ACCEPTED},
        {royukezan_watch_start_by_value(w, 1088, 15), ROYUKEZAN_CHANNEL_OUT_OF_RANGE},
        {royukezan_watch_file_heard_by_value(w, 42, -94.2f, 9.1f), ROYUKEZAN_ACCEPTED},
        {royukezan_watch_file_heard_by_value(w, 43, -94.2f, 9.1f), ROYUKEZAN_NOT_WATCHED},
        {royukezan_watch_file_heard_by_value(w, 42, -94.2f, NAN), ROYUKEZAN_READING_OUT_OF_RANGE},
        {royukezan_watch_file_missed_by_value(w, 42), ROYUKEZAN_ACCEPTED},
        {royukezan_watch_file_missed_by_value(w, 43), ROYUKEZAN_NOT_WATCHED},
    };
    for (size_t i = 0; i < LENGTH(calls); i++)
        if (calls[i].outcome.refusal != calls[i].refusal || calls[i].outcome.place != ROYUKEZAN_NO_PLACE)
            return 0;
    return 1;
}


/* ---- The power record. */

static int same_power(const royukezan_power_record *a, const royukezan_power_record *b)
{
    return a->panlast == b->panlast && a->parsave == b->parsave && a->panbasic == b->panbasic && a->increase == b->increase;
}

static int same_sent(royukezan_sent_answer a, royukezan_sent_answer b)
{
    return a.refusal == b.refusal && a.par == b.par && a.pan == b.pan;
}

/* Both forms of both steps, between neighbours in memory. Each answers this, and leaves or hands back the record as it was. */
static int steps_refused(royukezan_power_record r, royukezan_power_parameters p, uint32_t codes, int32_t sqi, uint32_t refusal)
{
    const royukezan_sent_answer refused = {refusal, 0, 0};
    const royukezan_power_record before[3] = {{1, 2, 3, 200}, r, {4, 5, 6, 400}};
    royukezan_power_record lent[3] = {before[0], before[1], before[2]};
    royukezan_sent_outcome decoded = royukezan_power_step_decoded_by_value(r, p, codes, codes, sqi);
    royukezan_sent_outcome failed = royukezan_power_step_failed_by_value(r, p, sqi);
    return same_sent(decoded.answer, refused) && same_power(&decoded.power, &r)
        && same_sent(failed.answer, refused) && same_power(&failed.power, &r)
        && same_sent(royukezan_power_step_decoded(&lent[1], p, codes, codes, sqi), refused)
        && same_sent(royukezan_power_step_failed(&lent[1], p, sqi), refused)
        && same_power(&lent[0], &before[0]) && same_power(&lent[1], &before[1]) && same_power(&lent[2], &before[2]);
}

static int damaged_power_refused(void)
{
    static const royukezan_power_record damaged[] = {
        {61, 0, 0, 0}, {0, 61, 0, 0}, {0, 0, 61, 0}, {0, 0, 0, 100}, {0, 0, 0, 24200}, {UINT32_MAX, UINT32_MAX, UINT32_MAX, UINT32_MAX},
    };
    for (size_t i = 0; i < LENGTH(damaged); i++)
        if (!is_9(royukezan_power_check(&damaged[i])) || !steps_refused(damaged[i], good, 20, 0, ROYUKEZAN_RECORD_NOT_WELL_FORMED)
            || !steps_refused(damaged[i], bad, 64, INT32_MAX, ROYUKEZAN_RECORD_NOT_WELL_FORMED))
            return 0;
    return 1;
}

/* A start that is refused writes nothing; by value, it hands back a record of all zeros. */
static int start_refused(void)
{
    const royukezan_power_record before = {1, 2, 3, 200}, zeros = {0, 0, 0, 0};
    royukezan_power_record r = before;
    royukezan_power_outcome o = royukezan_power_start_by_value(bad);
    return royukezan_power_start(&r, bad) == ROYUKEZAN_PARAMETER_OUT_OF_RANGE && same_power(&r, &before)
        && o.refusal == ROYUKEZAN_PARAMETER_OUT_OF_RANGE && same_power(&o.power, &zeros)
        && steps_refused(before, bad, 64, INT32_MAX, ROYUKEZAN_PARAMETER_OUT_OF_RANGE)
        && steps_refused(before, good, 20, INT32_MAX, ROYUKEZAN_READING_OUT_OF_RANGE);
}

/* A step by value and one on a lent record are the same step. */
static int steps_agree(void)
{
    royukezan_power_record r = {0, 0, 0, 0}, started = {30, 30, 30, 0};
    int agree = royukezan_power_start(&r, good) == ROYUKEZAN_ACCEPTED && same_power(&r, &started);
    for (uint32_t i = 0; agree && i < 1000; i++) {
        uint32_t pan = i * 7 % 64, par = i * 11 % 64;
        int32_t sqi = (int32_t)(i * 7) - 3000;
        int failed = i % 3 == 0;
        royukezan_sent_outcome o = failed ? royukezan_power_step_failed_by_value(r, good, sqi)
                                          : royukezan_power_step_decoded_by_value(r, good, pan, par, sqi);
        royukezan_sent_answer a = failed ? royukezan_power_step_failed(&r, good, sqi)
                                         : royukezan_power_step_decoded(&r, good, pan, par, sqi);
        agree = a.refusal == ROYUKEZAN_ACCEPTED && same_sent(a, o.answer) && same_power(&r, &o.power)
            && royukezan_power_check(&r) == ROYUKEZAN_ACCEPTED;
    }
    return agree;
}


/* ---- Readings that no line asks for, fresh records, and empty lists. */

static int read_back_gives(royukezan_hundredths_answer a, int32_t h, int in_range)
{
    if (in_range)
        return a.refusal == ROYUKEZAN_ACCEPTED && a.hundredths == h;
    return a.refusal == ROYUKEZAN_READING_OUT_OF_RANGE && a.hundredths == 0;
}

static int read_back_is_same(void)
{
    for (int32_t h = -15100; h <= 4100; h++)
        if (!read_back_gives(royukezan_level_read_back(h), h, -15000 <= h && h <= 0)
            || !read_back_gives(royukezan_quality_read_back(h), h, -3000 <= h && h <= 4000))
            return 0;
    return 1;
}

static int burst_is(royukezan_burst_answer a, uint32_t refusal, int32_t level, int32_t quality)
{
    return a.refusal == refusal && a.level == level && a.quality == quality;
}

static int bursts_are_read(void)
{
    return burst_is(royukezan_burst_to_hundredths(-100.125f, 0.125f), ROYUKEZAN_ACCEPTED, -10013, 12)
        && burst_is(royukezan_burst_to_hundredths(-150.0f, 40.0f), ROYUKEZAN_ACCEPTED, -15000, 4000)
        && burst_is(royukezan_burst_to_hundredths(-150.0f, NAN), ROYUKEZAN_READING_OUT_OF_RANGE, 0, 0)
        && burst_is(royukezan_burst_to_hundredths(1.0f, 40.0f), ROYUKEZAN_READING_OUT_OF_RANGE, 0, 0);
}

/* A sweep and a watch of all zeros are fresh ones. */
static int fresh_is_zero(void)
{
    static const royukezan_sweep zero_sweep;
    static const royukezan_watch zero_watch;
    royukezan_sweep s = royukezan_sweep_fresh();
    royukezan_watch w = royukezan_watch_fresh();
    return same_sweep(&s, &zero_sweep) && same_watch(&w, &zero_watch);
}

/* An empty list drops the neighbours, whoever serves, and an empty string of outcomes is refused, also where no pointer comes with them. */
static int empty_is_taken(void)
{
    royukezan_sweep s = royukezan_sweep_fresh();
    royukezan_watch w = royukezan_watch_fresh(), idle = w;
    return beam_is(royukezan_watch_new_beam(&idle, 310, NULL, 0), ROYUKEZAN_NOT_WATCHED, ROYUKEZAN_NO_PLACE) && sound_watch(&w)
        && beam_is(royukezan_watch_new_beam(&w, 1088, NULL, 0), ROYUKEZAN_CHANNEL_OUT_OF_RANGE, ROYUKEZAN_NO_PLACE) && w.watched == 3
        && beam_is(royukezan_watch_new_beam(&w, 42, NULL, 0), ROYUKEZAN_ACCEPTED, ROYUKEZAN_NO_PLACE) && w.watched == 1
        && royukezan_watch_ask(&w, 42).count == 2 && royukezan_watch_ask(&w, 310).refusal == ROYUKEZAN_NOT_WATCHED
        && royukezan_choose(&s, 300, NULL, 0).refusal == ROYUKEZAN_OUTCOMES_FAULTY;
}


/* ---- The header's names. */

/* A finished sweep in which one channel was heard. */
static int swept(royukezan_sweep *s, uint16_t heard)
{
    uint32_t refusal = royukezan_sweep_file_heard(s, heard, -94.2f, 9.1f);
    for (uint16_t channel = ROYUKEZAN_SWEEP_FIRST; channel <= ROYUKEZAN_SWEEP_LAST; channel++)
        if (channel != heard)
            refusal |= royukezan_sweep_file_missed(s, channel);
    return refusal == ROYUKEZAN_ACCEPTED && royukezan_sweep_next(s).next == ROYUKEZAN_NEXT_DONE;
}

static int outcome_gives(const royukezan_sweep *s, uint8_t outcome, uint16_t choice)
{
    uint8_t outcomes[ROYUKEZAN_CHANNELS] = {0};
    outcomes[310] = outcome;
    royukezan_choice_answer a = royukezan_choose(s, 0, outcomes, sizeof outcomes);
    return a.refusal == ROYUKEZAN_ACCEPTED && a.choice == choice && a.tried == 1
        && a.channel == (choice == ROYUKEZAN_CHOICE_NO_BEAM ? 0 : 310);
}

static int outcomes_have_names(void)
{
    royukezan_sweep s = royukezan_sweep_fresh();
    return swept(&s, 310) && outcome_gives(&s, ROYUKEZAN_OUTCOME_NOT_READ, ROYUKEZAN_CHOICE_READ)
        && outcome_gives(&s, ROYUKEZAN_OUTCOME_SUITABLE, ROYUKEZAN_CHOICE_CAMP)
        && outcome_gives(&s, ROYUKEZAN_OUTCOME_BARRED, ROYUKEZAN_CHOICE_NO_BEAM)
        && outcome_gives(&s, ROYUKEZAN_OUTCOME_ACCESS_CLASS_NOT_ALLOWED, ROYUKEZAN_CHOICE_NO_BEAM)
        && outcome_gives(&s, ROYUKEZAN_OUTCOME_OTHER_NETWORK, ROYUKEZAN_CHOICE_NO_BEAM)
        && outcome_gives(&s, ROYUKEZAN_OUTCOME_UNREADABLE, ROYUKEZAN_CHOICE_NO_BEAM);
}

/* Each refusal once that is not tried above. */
static int refusals_have_names(void)
{
    static const uint16_t list[ROYUKEZAN_LIST_LIMIT + 1] = {1, 2, 3, 4, 5, 6, 7};
    static const uint8_t outcomes[ROYUKEZAN_CHANNELS];
    royukezan_sweep s = royukezan_sweep_fresh();
    royukezan_watch w = royukezan_watch_fresh();
    return royukezan_sweep_file_missed(&s, ROYUKEZAN_SWEEP_FIRST - 1) == ROYUKEZAN_CHANNEL_OUT_OF_RANGE
        && royukezan_sweep_file_missed(&s, ROYUKEZAN_SWEEP_LAST + 1) == ROYUKEZAN_CHANNEL_OUT_OF_RANGE
        && royukezan_sweep_file_missed(&s, ROYUKEZAN_SWEEP_LAST) == ROYUKEZAN_ACCEPTED
        && royukezan_sweep_file_missed(&s, ROYUKEZAN_SWEEP_LAST) == ROYUKEZAN_CHANNEL_VISITED
        && royukezan_choose(&s, 300, outcomes, sizeof outcomes).refusal == ROYUKEZAN_SWEEP_UNFINISHED
        && royukezan_watch_start(&w, ROYUKEZAN_CHANNELS, ROYUKEZAN_DEPTH_LOWEST) == ROYUKEZAN_CHANNEL_OUT_OF_RANGE
        && royukezan_watch_start(&w, ROYUKEZAN_CHANNELS - 1, ROYUKEZAN_DEPTH_LOWEST - 1) == ROYUKEZAN_PARAMETER_OUT_OF_RANGE
        && royukezan_watch_start(&w, ROYUKEZAN_CHANNELS - 1, ROYUKEZAN_DEPTH_HIGHEST + 1) == ROYUKEZAN_PARAMETER_OUT_OF_RANGE
        && royukezan_watch_start(&w, ROYUKEZAN_CHANNELS - 1, ROYUKEZAN_DEPTH_LOWEST) == ROYUKEZAN_ACCEPTED
        && royukezan_watch_start(&w, ROYUKEZAN_CHANNELS - 1, ROYUKEZAN_DEPTH_HIGHEST) == ROYUKEZAN_ACCEPTED
        && royukezan_watch_new_beam(&w, ROYUKEZAN_CHANNELS, list, ROYUKEZAN_LIST_LIMIT + 1).refusal == ROYUKEZAN_CHANNEL_OUT_OF_RANGE
        && royukezan_watch_new_beam(&w, ROYUKEZAN_CHANNELS - 1, list, ROYUKEZAN_LIST_LIMIT + 1).refusal == ROYUKEZAN_LIST_TOO_LONG
        && royukezan_watch_new_beam(&w, ROYUKEZAN_CHANNELS - 1, list, ROYUKEZAN_LIST_LIMIT).refusal == ROYUKEZAN_ACCEPTED;
}

const char *beyond_sessions(void)
{
    static const struct {
        int (*holds)(void);
        const char *wrong;
    } tries[] = {
        {damaged_sweeps_refused, "a sweep that is not well formed is not refused as it should be"},
        {damaged_watches_refused, "a watch that is not well formed is not refused as it should be"},
        {depths_refused, "a watch that holds a wrong depth is not refused as it should be"},
        {watch_starts_refused, "a start of a watch that is refused is not refused as it should be, or changes the watch"},
        {depths_are_kept, "a watch does not keep the depth of its start"},
        {beams_are_told, "a new beam is not answered as it should be, leaves another watch, or changes it where it is refused"},
        {evening_is_told, "a channel does not keep its levels from beam to beam, or has some when it comes back"},
        {no_place_is_told, "a call that tells no place answers one"},
        {damaged_power_refused, "a power record that is not well formed is not refused as it should be"},
        {start_refused, "a power start or step that is refused does not leave the record as it should"},
        {steps_agree, "a power step by value is not the step on a lent record"},
        {read_back_is_same, "a reading that is shown and read back is not the same"},
        {bursts_are_read, "a heard burst is not read as it should be"},
        {fresh_is_zero, "a fresh sweep or watch is not all zeros"},
        {empty_is_taken, "an empty list or string is not taken as it should be"},
        {outcomes_have_names, "an outcome byte does not give the choice that its name says"},
        {refusals_have_names, "a refusal does not have the number that its name says"},
    };
    for (size_t i = 0; i < LENGTH(tries); i++)
        if (!tries[i].holds())
            return tries[i].wrong;
    return NULL;
}
