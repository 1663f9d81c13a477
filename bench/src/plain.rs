//! Readings, sweep, choice, watch and power steps in plain Rust, written for speed: what the proved library is timed
//! against. The rules, the test of the record at each call and the order of the refusals are those of document 01; the
//! records have the same fields. They are lent and changed in place; a refused call leaves its record as it was.

/// Why a call is refused, each under its number, so that `number` takes no time. The place in a list is counted from 0.
#[derive(Clone, Copy, Debug, PartialEq, Eq)]
#[repr(u32)]
pub enum Refusal {
    ReadingOutOfRange = 1,
    ChannelOutOfRange = 2,
    ChannelVisited = 3,
    SweepUnfinished = 4,
    NotWatched = 6,
    ParameterOutOfRange = 7,
    OutcomesFaulty = 8,
    RecordNotWellFormed = 9,
    ListTooLong = 11,
    ListedOutOfRange { place: u32 } = 12,
    ListedAgain { place: u32 } = 13,
    ListedServing { place: u32 } = 14,
}

impl Refusal {
    /// The number that document 01 or 02 gives it.
    #[inline]
    pub fn number(self) -> u32 {
        match self {
            Refusal::ReadingOutOfRange => 1,
            Refusal::ChannelOutOfRange => 2,
            Refusal::ChannelVisited => 3,
            Refusal::SweepUnfinished => 4,
            Refusal::NotWatched => 6,
            Refusal::ParameterOutOfRange => 7,
            Refusal::OutcomesFaulty => 8,
            Refusal::RecordNotWellFormed => 9,
            Refusal::ListTooLong => 11,
            Refusal::ListedOutOfRange { .. } => 12,
            Refusal::ListedAgain { .. } => 13,
            Refusal::ListedServing { .. } => 14,
        }
    }

    /// The place of the first faulty channel of a list, where one is told.
    #[inline]
    pub fn place(self) -> Option<u32> {
        use Refusal::{ListedAgain, ListedOutOfRange, ListedServing};
        match self {
            ListedOutOfRange { place } | ListedAgain { place } | ListedServing { place } => Some(place),
            _ => None,
        }
    }
}

// Readings.

/// The modem's result for one burst: heard, with a level in dBm and a quality in dB, or missed.
#[derive(Clone, Copy, Debug, PartialEq)]
pub enum Burst {
    Heard { level: f32, quality: f32 },
    Missed,
}

/// The lowest level in hundredths; the highest is 0.
pub const LEVEL_LOWEST: i32 = -15_000;
pub const QUALITY_LOWEST: i32 = -3_000;
pub const QUALITY_HIGHEST: i32 = 4_000;

/// Hundredths of a float in the range, to the nearest, an exact half to the lower number.
/// A float times 100 is exact as a double, and next to a half it is a multiple of 2^-29: so 2^-32 less takes an exact
/// half below the half, and nothing else. The sum with 1.5 x 2^52 is rounded to a whole number, held by its low bits.
#[inline]
fn nearest_hundredths(x: f32) -> i32 {
    const BELOW: f64 = 1.0 / (1_u64 << 32) as f64;
    const WHOLE: f64 = (3_u64 << 51) as f64;
    (f64::from(x) * 100.0 - BELOW + WHOLE).to_bits() as i32
}

/// A level in hundredths.
#[inline]
pub fn level_to_hundredths(x: f32) -> Result<i32, Refusal> {
    if !(-150.0..=0.0).contains(&x) {
        return Err(Refusal::ReadingOutOfRange);
    }
    Ok(nearest_hundredths(x))
}

/// A quality in hundredths.
#[inline]
pub fn quality_to_hundredths(x: f32) -> Result<i32, Refusal> {
    if !(-30.0..=40.0).contains(&x) {
        return Err(Refusal::ReadingOutOfRange);
    }
    Ok(nearest_hundredths(x))
}

/// A level's hundredths as a float.
#[inline]
pub fn level_to_float(h: i32) -> Result<f32, Refusal> {
    if !(LEVEL_LOWEST..=0).contains(&h) {
        return Err(Refusal::ReadingOutOfRange);
    }
    Ok(h as f32 / 100.0)
}

/// A quality's hundredths as a float.
#[inline]
pub fn quality_to_float(h: i32) -> Result<f32, Refusal> {
    if !(QUALITY_LOWEST..=QUALITY_HIGHEST).contains(&h) {
        return Err(Refusal::ReadingOutOfRange);
    }
    Ok(h as f32 / 100.0)
}

/// The level of a heard burst; both floats are tested.
#[inline]
fn heard_level(burst: Burst) -> Result<Option<i32>, Refusal> {
    match burst {
        Burst::Missed => Ok(None),
        Burst::Heard { level, quality } => {
            quality_to_hundredths(quality)?;
            level_to_hundredths(level).map(Some)
        }
    }
}

// The band sweep.

/// Channel numbers run 0 to 1,087; a sweep visits 2 to 1,086.
pub const CHANNELS: usize = 1_088;
pub const HIGHEST_CHANNEL: u16 = 1_087;
pub const FIRST_SWEPT: u16 = 2;
pub const LAST_SWEPT: u16 = 1_086;

/// The words of a map, a bit per channel.
const WORD_BITS: usize = 64;
const WORDS: usize = CHANNELS / WORD_BITS;

/// The map of the channels that no sweep visits: 0, 1 and 1,087.
const NEVER_SWEPT: [u64; WORDS] = {
    let mut map = [0; WORDS];
    map[0] = 0b11;
    map[WORDS - 1] = 1 << 63;
    map
};

/// The sweep record: a level in hundredths for each channel, and the maps of visited and heard channels.
#[derive(Clone, Debug, PartialEq, Eq)]
pub struct Sweep {
    pub levels: [i32; CHANNELS],
    pub visited: [u64; WORDS],
    pub heard: [u64; WORDS],
}

/// The 64 levels of a word, two bytes each. One that does not fit becomes the nearest that does, outside the range too.
#[inline(always)]
fn narrow(levels: &[i32; WORD_BITS]) -> [i16; WORD_BITS] {
    levels.map(|level| level.clamp(i32::from(i16::MIN), i32::from(i16::MAX)) as i16)
}

/// All ones where bit `k` of 16 is set, else 0: the bit moves to the top, and from there over all.
#[inline(always)]
fn spread(sixteen: i16, k: usize) -> i16 {
    sixteen.wrapping_mul((1_u16 << (15 - k)) as i16) >> 15
}

/// Whether the 64 levels of a word are in range, and 0 where not heard.
#[inline(always)]
fn levels_fine(levels: &[i32; WORD_BITS], heard: u64) -> bool {
    if heard == 0 {
        return levels.iter().fold(0, |any, level| any | level) == 0;
    }
    let levels = narrow(levels);
    // How far a level lies outside, at most; lane by lane, so that several are taken at a time.
    let mut outside = [0_i16; 16];
    for part in 0..4 {
        let heard = (heard >> (16 * part)) as i16;
        for k in 0..16 {
            let level = levels[16 * part + k];
            let lowest = spread(heard, k) & LEVEL_LOWEST as i16;
            outside[k] = outside[k].max(level).max(lowest.saturating_sub(level));
        }
    }
    outside.iter().fold(0, |most, &lane| most.max(lane)) == 0
}

impl Sweep {
    /// A fresh record: all zero.
    pub fn fresh() -> Sweep {
        Sweep { levels: [0; CHANNELS], visited: [0; WORDS], heard: [0; WORDS] }
    }

    fn is_well_formed(&self) -> bool {
        if self.visited[0] & NEVER_SWEPT[0] != 0 || self.visited[WORDS - 1] & NEVER_SWEPT[WORDS - 1] != 0 {
            return false;
        }
        let (levels, _) = self.levels.as_chunks::<WORD_BITS>();
        let mut words = levels.iter().zip(&self.visited).zip(&self.heard);
        words.all(|((levels, visited), &heard)| heard & !visited == 0 && levels_fine(levels, heard))
    }

    /// Refusal 9 unless the record is well formed.
    pub fn check(&self) -> Result<(), Refusal> {
        if self.is_well_formed() {
            Ok(())
        } else {
            Err(Refusal::RecordNotWellFormed)
        }
    }

    /// Files a burst's result for a channel not yet visited. Refusals 9, 2, 3, 1.
    pub fn file(&mut self, channel: u16, burst: Burst) -> Result<(), Refusal> {
        self.check()?;
        if !(FIRST_SWEPT..=LAST_SWEPT).contains(&channel) {
            return Err(Refusal::ChannelOutOfRange);
        }
        let c = usize::from(channel);
        let (word, bit) = (c / WORD_BITS, 1 << (c % WORD_BITS));
        if self.visited[word] & bit != 0 {
            return Err(Refusal::ChannelVisited);
        }
        if let Some(level) = heard_level(burst)? {
            self.heard[word] |= bit;
            self.levels[c] = level;
        }
        self.visited[word] |= bit;
        Ok(())
    }

    /// The lowest swept channel that is not visited.
    fn lowest_not_visited(&self) -> Option<u16> {
        let mut words = self.visited.iter().zip(&NEVER_SWEPT).map(|(visited, never)| !(visited | never));
        let word = words.position(|open| open != 0)?;
        let open = !(self.visited[word] | NEVER_SWEPT[word]);
        Some((word * WORD_BITS) as u16 + open.trailing_zeros() as u16)
    }

    /// The next channel, or None when done. Refusal 9.
    pub fn next(&self) -> Result<Option<u16>, Refusal> {
        self.check()?;
        Ok(self.lowest_not_visited())
    }

    /// The numbers of channels visited and heard. Refusal 9.
    pub fn counts(&self) -> Result<(u32, u32), Refusal> {
        self.check()?;
        let ones = |map: &[u64; WORDS]| map.iter().map(|word| word.count_ones()).sum();
        Ok((ones(&self.visited), ones(&self.heard)))
    }
}

// The choice.

/// What is chosen, with the number of beams tried.
#[derive(Clone, Copy, Debug, PartialEq, Eq)]
pub enum Choice {
    Camp { channel: u16, tried: u32 },
    Read { channel: u16, tried: u32 },
    NoBeam { tried: u32 },
}

/// The highest margin and the highest hysteresis, in hundredths.
const MARGIN_HIGHEST: i32 = 6_000;

/// Outcome bytes: not read yet, suitable, and the highest.
const NOT_READ: u8 = 0;
const SUITABLE: u8 = 1;
const HIGHEST_OUTCOME: u8 = 5;

/// Stands for the level of a channel that does not come into question; below every level.
const NO_LEVEL: i16 = i16::MIN;

/// The levels of the heard channels of a word.
#[inline(always)]
fn heard_levels(levels: &[i32; WORD_BITS], heard: u64) -> [i16; WORD_BITS] {
    let mut levels = narrow(levels);
    for part in 0..4 {
        let heard = (heard >> (16 * part)) as i16;
        for k in 0..16 {
            // A level that was not heard is 0.
            levels[16 * part + k] |= !spread(heard, k) & NO_LEVEL;
        }
    }
    levels
}

/// Of these, the levels of the channels with outcome 0 or 1.
#[inline(always)]
fn open_levels(levels: &[i16; WORD_BITS], outcomes: &[u8; WORD_BITS]) -> [i16; WORD_BITS] {
    let mut open = *levels;
    for (level, &outcome) in open.iter_mut().zip(outcomes) {
        *level = (*level).min(if outcome <= SUITABLE { 0 } else { NO_LEVEL });
    }
    open
}

#[inline(always)]
fn highest(levels: &[i16; WORD_BITS]) -> i16 {
    levels.iter().fold(NO_LEVEL, |most, &level| most.max(level))
}

/// How many levels pass a test.
#[inline(always)]
fn count(levels: &[i16], test: impl Fn(i16) -> bool) -> u32 {
    levels.iter().map(|&level| i16::from(test(level))).sum::<i16>() as u32
}

/// The answer for a channel with outcome 0 or 1.
#[inline]
fn taken(channel: usize, outcome: u8, tried: u32) -> Choice {
    let channel = channel as u16;
    if outcome == NOT_READ {
        Choice::Read { channel, tried }
    } else {
        Choice::Camp { channel, tried }
    }
}

/// The choice over a finished sweep. Refusals 9, 8, 7, 4.
/// Nothing is sorted: the first of the order with outcome 0 or 1 is the strongest of these, and its place is a count.
pub fn choose(sweep: &Sweep, margin: i32, outcomes: &[u8]) -> Result<Choice, Refusal> {
    sweep.check()?;
    let Ok(outcomes) = <&[u8; CHANNELS]>::try_from(outcomes) else {
        return Err(Refusal::OutcomesFaulty);
    };
    if outcomes.iter().fold(0, |most, &outcome| outcome.max(most)) > HIGHEST_OUTCOME {
        return Err(Refusal::OutcomesFaulty);
    }
    if !(0..=MARGIN_HIGHEST).contains(&margin) {
        return Err(Refusal::ParameterOutOfRange);
    }
    if sweep.lowest_not_visited().is_some() {
        return Err(Refusal::SweepUnfinished);
    }
    Ok(first_open(sweep, margin, outcomes))
}

/// The first near channel with outcome 0 or 1.
fn first_open(sweep: &Sweep, margin: i32, outcomes: &[u8; CHANNELS]) -> Choice {
    let (words, _) = sweep.levels.as_chunks::<WORD_BITS>();
    let (mut strongest, mut at) = (NO_LEVEL, 0);
    let levels: [[i16; WORD_BITS]; WORDS] = std::array::from_fn(|word| {
        let levels = heard_levels(&words[word], sweep.heard[word]);
        let level = highest(&levels);
        if level > strongest {
            (strongest, at) = (level, word);
        }
        levels
    });
    // The first of the order, which is the usual answer.
    let Some(place) = levels[at].iter().position(|&level| level == strongest && level != NO_LEVEL) else {
        return Choice::NoBeam { tried: 0 };
    };
    let first = at * WORD_BITS + place;
    if outcomes[first] <= SUITABLE {
        return taken(first, outcomes[first], 1);
    }
    let (outcome_words, _) = outcomes.as_chunks::<WORD_BITS>();
    let (mut best, mut at) = (NO_LEVEL, 0);
    for (word, (levels, outcomes)) in levels.iter().zip(outcome_words).enumerate() {
        let level = highest(&open_levels(levels, outcomes));
        if level > best {
            (best, at) = (level, word);
        }
    }
    // At most 6,000 below a level, which is above NO_LEVEL.
    let lowest_near = strongest - margin as i16;
    if best < lowest_near {
        return Choice::NoBeam { tried: count(levels.as_flattened(), |level| level >= lowest_near) };
    }
    let open = open_levels(&levels[at], &outcome_words[at]);
    let place = open.iter().position(|&level| level == best).unwrap_or(0);
    let channel = at * WORD_BITS + place;
    let stronger = count(levels.as_flattened(), |level| level > best);
    let equal = count(&levels.as_flattened()[..=channel], |level| level == best);
    taken(channel, outcomes[channel], stronger + equal)
}

// The watch.

/// The depth of a watch, how many levels of a channel make a mean and a sum, is given at its start.
pub const DEPTH_LOWEST: usize = 5;
pub const DEPTH_HIGHEST: usize = 31;

/// How many places a track has for levels. The highest depth leaves one, which is always 0.
pub const CAPACITY: usize = 32;

/// How many channels a list has at most, and a watch.
const LIST_LIMIT: usize = 6;
const ROOM: usize = LIST_LIMIT + 1;

/// A channel under watch with its levels, oldest first. What lies beyond `count` is 0.
#[derive(Clone, Copy, Debug, PartialEq, Eq)]
pub struct Track {
    pub channel: u16,
    pub count: usize,
    pub levels: [i16; CAPACITY],
}

/// The watch record: the first `watched` tracks are the serving channel and its list, the others all zero. An idle
/// watch is all zero, its depth too.
#[derive(Clone, Debug, PartialEq, Eq)]
pub struct Watch {
    pub watched: usize,
    pub tracks: [Track; ROOM],
    pub depth: usize,
}

/// Count and mean of a channel's levels.
#[derive(Clone, Copy, Debug, PartialEq, Eq)]
pub struct Levels {
    pub count: usize,
    pub mean: i32,
}

#[derive(Clone, Copy, Debug, PartialEq, Eq)]
pub enum Verdict {
    Wait,
    Stay,
    MoveTo(u16),
}

#[inline(always)]
fn depth_in_range(depth: usize) -> bool {
    (DEPTH_LOWEST..=DEPTH_HIGHEST).contains(&depth)
}

/// For each count, the lowest that each level of a track may be.
const LOWEST: [[i16; CAPACITY]; DEPTH_HIGHEST + 1] = {
    let mut lowest = [[0; CAPACITY]; DEPTH_HIGHEST + 1];
    let mut count = 0;
    while count <= DEPTH_HIGHEST {
        let mut k = 0;
        while k < count {
            lowest[count][k] = LEVEL_LOWEST as i16;
            k += 1;
        }
        count += 1;
    }
    lowest
};

/// The levels of a track are tested and summed in two parts.
const PART: usize = CAPACITY / 2;

impl Track {
    const fn empty(channel: u16) -> Track {
        Track { channel, count: 0, levels: [0; CAPACITY] }
    }

    /// Raises each lane to how far a level of it lies outside, at most; beyond the count nothing but 0 lies inside.
    #[inline(always)]
    fn raise_outside(&self, outside: &mut [i16; PART]) {
        let (levels, _) = self.levels.as_chunks::<PART>();
        let (lowest, _) = LOWEST[self.count].as_chunks::<PART>();
        for (levels, lowest) in levels.iter().zip(lowest) {
            for k in 0..PART {
                outside[k] = outside[k].max(levels[k]).max(lowest[k].saturating_sub(levels[k]));
            }
        }
    }

    /// Two levels together fit 16 bits as well, so that half as many are widened.
    #[inline(always)]
    fn sum(&self) -> i32 {
        let (first, second) = self.levels.split_at(PART);
        first.iter().zip(second).map(|(one, other)| i32::from(one + other)).sum()
    }

    /// Adds the newest level; beyond the depth the oldest goes.
    #[inline(always)]
    fn push(&mut self, depth: usize, level: i16) {
        if self.count < depth {
            self.levels[self.count] = level;
            self.count += 1;
        } else {
            // All move, those beyond the depth too: they are 0.
            self.levels.copy_within(1.., 0);
            self.levels[depth - 1] = level;
        }
    }
}

/// Refusal 11, or that of the first faulty channel: 12, 14, 13.
#[inline]
fn check_list(serving: u16, list: &[u16]) -> Result<(), Refusal> {
    if list.len() > LIST_LIMIT {
        return Err(Refusal::ListTooLong);
    }
    for (i, &channel) in list.iter().enumerate() {
        let place = i as u32;
        if channel > HIGHEST_CHANNEL {
            return Err(Refusal::ListedOutOfRange { place });
        }
        if channel == serving {
            return Err(Refusal::ListedServing { place });
        }
        if list[..i].contains(&channel) {
            return Err(Refusal::ListedAgain { place });
        }
    }
    Ok(())
}

impl Watch {
    /// An idle watch.
    pub const fn fresh() -> Watch {
        Watch { watched: 0, tracks: [Track::empty(0); ROOM], depth: 0 }
    }

    fn is_well_formed(&self) -> bool {
        let depth_fine = if self.watched == 0 { self.depth == 0 } else { depth_in_range(self.depth) };
        if self.watched > ROOM || !depth_fine {
            return false;
        }
        let (used, unused) = self.tracks.split_at(self.watched);
        if used.iter().any(|track| track.channel > HIGHEST_CHANNEL || track.count > self.depth)
            || unused.iter().any(|track| *track != Track::empty(0))
        {
            return false;
        }
        let mut outside = [0; PART];
        used.iter().for_each(|track| track.raise_outside(&mut outside));
        if outside.iter().fold(0, |most, &lane| most.max(lane)) != 0 {
            return false;
        }
        // Unused places take numbers of their own, so that all are compared without a branch.
        let mut channels = [0_u16; ROOM];
        for (i, track) in self.tracks.iter().enumerate() {
            channels[i] = if i < self.watched { track.channel } else { u16::MAX - i as u16 };
        }
        let mut repeat = false;
        for i in 1..ROOM {
            for j in 0..i {
                repeat |= channels[i] == channels[j];
            }
        }
        !repeat
    }

    /// Refusal 9 unless the record is well formed.
    pub fn check(&self) -> Result<(), Refusal> {
        if self.is_well_formed() {
            Ok(())
        } else {
            Err(Refusal::RecordNotWellFormed)
        }
    }

    /// The place of a channel under watch. Refusal 6.
    #[inline(always)]
    fn place(&self, channel: u16) -> Result<usize, Refusal> {
        let mut used = self.tracks.iter().take(self.watched);
        used.position(|track| track.channel == channel).ok_or(Refusal::NotWatched)
    }

    /// That channel alone, without levels, at this depth. Refusals 9, 7, 2.
    pub fn start(&mut self, serving: u16, depth: usize) -> Result<(), Refusal> {
        self.check()?;
        if !depth_in_range(depth) {
            return Err(Refusal::ParameterOutOfRange);
        }
        if serving > HIGHEST_CHANNEL {
            return Err(Refusal::ChannelOutOfRange);
        }
        *self = Watch::fresh();
        self.tracks[0].channel = serving;
        self.watched = 1;
        self.depth = depth;
        Ok(())
    }

    /// The channel with the levels that it has; without any where it is not watched.
    #[inline(always)]
    fn kept(&self, channel: u16) -> Track {
        self.place(channel).map_or(Track::empty(channel), |place| self.tracks[place])
    }

    /// This channel serves, with these neighbours; a channel watched before and after keeps its levels, in whichever
    /// role. Refusals 9, 2, 11, 12 to 14, 6.
    pub fn new_beam(&mut self, serving: u16, list: &[u16]) -> Result<(), Refusal> {
        self.check()?;
        if serving > HIGHEST_CHANNEL {
            return Err(Refusal::ChannelOutOfRange);
        }
        check_list(serving, list)?;
        if self.watched == 0 {
            return Err(Refusal::NotWatched);
        }
        let mut tracks = [Track::empty(0); ROOM];
        tracks[0] = self.kept(serving);
        for (track, &channel) in tracks[1..].iter_mut().zip(list) {
            *track = self.kept(channel);
        }
        self.tracks = tracks;
        self.watched = 1 + list.len();
        Ok(())
    }

    /// Adds a heard level as the newest; a missed burst changes nothing. Refusals 9, 6, 1.
    pub fn file(&mut self, channel: u16, burst: Burst) -> Result<(), Refusal> {
        self.check()?;
        let place = self.place(channel)?;
        if let Some(level) = heard_level(burst)? {
            self.tracks[place].push(self.depth, level as i16);
        }
        Ok(())
    }

    /// Count and mean, the mean rounded down. Refusals 9, 6.
    pub fn ask(&self, channel: u16) -> Result<Levels, Refusal> {
        self.check()?;
        let track = &self.tracks[self.place(channel)?];
        let count = track.count;
        let mean = if count == 0 { 0 } else { track.sum().div_euclid(count as i32) };
        Ok(Levels { count, mean })
    }

    /// Wait, stay, or move to the best neighbour that counts. Refusals 9, 7, 6.
    pub fn verdict(&self, hysteresis: i32) -> Result<Verdict, Refusal> {
        self.check()?;
        if !(0..=MARGIN_HIGHEST).contains(&hysteresis) {
            return Err(Refusal::ParameterOutOfRange);
        }
        let Some((serving, neighbours)) = self.tracks[..self.watched].split_first() else {
            return Err(Refusal::NotWatched);
        };
        if serving.count < self.depth {
            return Ok(Verdict::Wait);
        }
        // The greatest sum, the lowest channel among equals; at first the sum that is to be exceeded, with no channel.
        let mut best = (serving.sum() + self.depth as i32 * hysteresis, None);
        for track in neighbours.iter().filter(|track| track.count == self.depth) {
            let sum = track.sum();
            if sum > best.0 || (sum == best.0 && best.1.is_some_and(|channel| track.channel < channel)) {
                best = (sum, Some(track.channel));
            }
        }
        Ok(best.1.map_or(Verdict::Stay, Verdict::MoveTo))
    }
}

// Power steps.

/// The power parameters as codes.
#[derive(Clone, Copy, Debug, PartialEq, Eq)]
#[repr(C)]
pub struct PowerParameters {
    pub sqt: u32,
    pub paninit: u32,
    pub panmin: u32,
    pub panmax: u32,
    pub gainup: u32,
    pub gaindn: u32,
    pub mestep: u32,
}

/// The power record: three codes, and the increase in thousandths of a dB.
#[derive(Clone, Copy, Debug, PartialEq, Eq)]
#[repr(C)]
pub struct PowerRecord {
    pub panlast: u32,
    pub parsave: u32,
    pub panbasic: u32,
    pub increase: u32,
}

/// The codes to send.
#[derive(Clone, Copy, Debug, PartialEq, Eq)]
pub struct Sent {
    pub par: u32,
    pub pan: u32,
}

/// The last numeric PAN or PAR code, and the last code of all.
const NUMERIC_HIGHEST: u32 = 60;
const CODE_HIGHEST: u32 = 63;

/// Thousandths in a code and in a step of Mestep, and the most thousandths.
const CODE_STEP: u32 = 400;
const MESTEP_STEP: u32 = 200;
const THOUSANDTHS_HIGHEST: u32 = 24_000;

impl PowerParameters {
    #[inline]
    fn are_fine(&self) -> bool {
        // Without branches: all are in range nearly always.
        (self.sqt <= 126)
            & (self.paninit <= NUMERIC_HIGHEST)
            & (self.panmin <= self.panmax)
            & (self.panmax <= NUMERIC_HIGHEST)
            & (self.gainup <= 31)
            & (self.gaindn <= 10)
            & (self.mestep <= 15)
    }
}

impl PowerRecord {
    /// A fresh record; refused, one of all zeros. Refusal 7.
    #[inline]
    pub fn start(p: &PowerParameters) -> (PowerRecord, Result<(), Refusal>) {
        let fresh = |code| PowerRecord { panlast: code, parsave: code, panbasic: code, increase: 0 };
        if p.are_fine() {
            (fresh(p.paninit), Ok(()))
        } else {
            (fresh(0), Err(Refusal::ParameterOutOfRange))
        }
    }

    #[inline]
    fn is_well_formed(&self) -> bool {
        (self.panlast <= NUMERIC_HIGHEST)
            & (self.parsave <= NUMERIC_HIGHEST)
            & (self.panbasic <= NUMERIC_HIGHEST)
            & (self.increase <= THOUSANDTHS_HIGHEST)
            & self.increase.is_multiple_of(MESTEP_STEP)
    }

    /// Refusal 9 unless the record is well formed.
    #[inline]
    pub fn check(&self) -> Result<(), Refusal> {
        if self.is_well_formed() {
            Ok(())
        } else {
            Err(Refusal::RecordNotWellFormed)
        }
    }

    /// One step, with the decoded PAN and PAR or none. Refusals 9, 7, 1.
    #[inline]
    pub fn step(&mut self, p: &PowerParameters, decoded: Option<(u32, u32)>, sqi: i32) -> Result<Sent, Refusal> {
        self.check()?;
        if !p.are_fine() || decoded.is_some_and(|(pan, par)| pan > CODE_HIGHEST || par > CODE_HIGHEST) {
            return Err(Refusal::ParameterOutOfRange);
        }
        if !(QUALITY_LOWEST..=QUALITY_HIGHEST).contains(&sqi) {
            return Err(Refusal::ReadingOutOfRange);
        }
        match decoded {
            Some((pan, par)) => {
                if pan <= NUMERIC_HIGHEST {
                    self.panlast = pan;
                }
                if par <= NUMERIC_HIGHEST {
                    self.panbasic = par.min(self.parsave);
                    self.parsave = par;
                }
                self.increase = 0;
            }
            None => self.increase = (self.increase + MESTEP_STEP * p.mestep).min(THOUSANDTHS_HIGHEST),
        }
        Ok(Sent { par: par_to_send(p, self.panlast, sqi), pan: self.pan_to_send(p) })
    }

    /// PANbasic less the increase, rounded down to a code, brought into PANmin to PANmax.
    #[inline]
    fn pan_to_send(&self, p: &PowerParameters) -> u32 {
        // Below 0 it would be PANmin, which 0 becomes as well.
        let thousandths = (CODE_STEP * self.panbasic).saturating_sub(self.increase);
        (thousandths / CODE_STEP).max(p.panmin).min(p.panmax)
    }
}

/// T brought into range, divided by 400 to the nearest, a half to the lower.
#[inline]
fn par_to_send(p: &PowerParameters, panuse: u32, sqi: i32) -> u32 {
    let short = 10 * p.sqt as i32 - sqi;
    let gain = if short < 0 { p.gaindn } else { p.gainup };
    let thousandths = (CODE_STEP * panuse) as i32 - gain as i32 * short;
    let held = thousandths.clamp(0, THOUSANDTHS_HIGHEST as i32) as u32;
    (held + (CODE_STEP / 2 - 1)) / CODE_STEP
}
