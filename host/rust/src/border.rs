//! The archive's functions and the structs that cross the border. What is declared here is what the crate `royukezan`
//! of Rattle exports; nothing checks the two against each other but the layouts below, and the tests.
//!
//! The unsafe part of this package is this module and the two calls that pass a slice.

use crate::power::{Parameters, Record};
use crate::sweep::Sweep;
use crate::watch::{Track, Watch};
use core::mem::{align_of, offset_of, size_of};

// In every answer the first number is the refusal's, 0 for accepted; refused, the values are 0.

/// Stands for the place where an answer tells none, accepted or refused. No place has this value.
pub const NO_PLACE: u32 = u32::MAX;

#[repr(C)]
pub struct HundredthsAnswer {
    pub refusal: u32,
    pub hundredths: i32,
}

#[repr(C)]
pub struct FloatAnswer {
    pub refusal: u32,
    pub value: f32,
}

#[repr(C)]
pub struct BurstAnswer {
    pub refusal: u32,
    pub level: i32,
    pub quality: i32,
}

#[repr(C)]
pub struct SweepOutcome {
    pub refusal: u32,
    pub sweep: Sweep,
}

#[repr(C)]
pub struct NextAnswer {
    pub refusal: u32,
    /// 1 a channel, 2 done.
    pub next: u16,
    pub channel: u16,
}

#[repr(C)]
pub struct CountsAnswer {
    pub refusal: u32,
    pub visited: u32,
    pub heard: u32,
}

#[repr(C)]
pub struct ChoiceAnswer {
    pub refusal: u32,
    /// 1 camp, 2 read, 3 no beam.
    pub choice: u16,
    pub channel: u16,
    pub tried: u32,
}

#[repr(C)]
pub struct WatchOutcome {
    pub refusal: u32,
    /// Of the first faulty channel of a new beam's list, counted from 0.
    pub place: u32,
    pub watch: Watch,
}

#[repr(C)]
pub struct LevelsAnswer {
    pub refusal: u32,
    pub count: u32,
    pub mean: i32,
}

#[repr(C)]
pub struct VerdictAnswer {
    pub refusal: u32,
    /// 1 wait, 2 stay, 3 move.
    pub verdict: u16,
    pub channel: u16,
}

#[repr(C)]
pub struct PowerOutcome {
    pub refusal: u32,
    pub power: Record,
}

#[repr(C)]
pub struct SentAnswer {
    pub refusal: u32,
    pub par: u32,
    pub pan: u32,
}

#[repr(C)]
pub struct SentOutcome {
    pub answer: SentAnswer,
    pub power: Record,
}

// Every value of every argument is taken, so that numbers, and records by value, are safe to pass. A `&mut` is what
// the archive asks of a lent record: not null, aligned, whole, writable and nobody else's during the call.
#[link(name = "royukezan", kind = "static")]
unsafe extern "C" {
    pub safe fn royukezan_level_to_hundredths(x: f32) -> HundredthsAnswer;
    pub safe fn royukezan_quality_to_hundredths(x: f32) -> HundredthsAnswer;
    pub safe fn royukezan_level_to_float(h: i32) -> FloatAnswer;
    pub safe fn royukezan_quality_to_float(h: i32) -> FloatAnswer;
    pub safe fn royukezan_level_read_back(h: i32) -> HundredthsAnswer;
    pub safe fn royukezan_quality_read_back(h: i32) -> HundredthsAnswer;
    pub safe fn royukezan_burst_to_hundredths(level: f32, quality: f32) -> BurstAnswer;

    pub safe fn royukezan_sweep_fresh() -> Sweep;
    pub safe fn royukezan_sweep_file_heard_by_value(s: Sweep, channel: u16, level: f32, quality: f32) -> SweepOutcome;
    pub safe fn royukezan_sweep_file_missed_by_value(s: Sweep, channel: u16) -> SweepOutcome;
    pub safe fn royukezan_sweep_next_by_value(s: Sweep) -> NextAnswer;
    pub safe fn royukezan_sweep_counts_by_value(s: Sweep) -> CountsAnswer;
    pub safe fn royukezan_sweep_check_by_value(s: Sweep) -> u32;
    /// The pointer is not null, also where the length is 0, and that many bytes can be read there.
    pub fn royukezan_choose_by_value(s: Sweep, margin: i32, outcomes: *const u8, length: usize) -> ChoiceAnswer;

    pub safe fn royukezan_watch_fresh() -> Watch;
    pub safe fn royukezan_watch_start_by_value(w: Watch, serving: u16, depth: usize) -> WatchOutcome;
    /// The pointer is aligned and not null, also where the length is 0, and that many channels can be read there.
    pub fn royukezan_watch_new_beam_by_value(w: Watch, serving: u16, list: *const u16, length: usize) -> WatchOutcome;
    pub safe fn royukezan_watch_file_heard_by_value(w: Watch, channel: u16, level: f32, quality: f32) -> WatchOutcome;
    pub safe fn royukezan_watch_file_missed_by_value(w: Watch, channel: u16) -> WatchOutcome;
    pub safe fn royukezan_watch_ask_by_value(w: Watch, channel: u16) -> LevelsAnswer;
    pub safe fn royukezan_watch_verdict_by_value(w: Watch, hysteresis: i32) -> VerdictAnswer;
    pub safe fn royukezan_watch_check_by_value(w: Watch) -> u32;

    pub safe fn royukezan_power_start_by_value(p: Parameters) -> PowerOutcome;
    pub safe fn royukezan_power_check_by_value(r: Record) -> u32;
    pub safe fn royukezan_power_step_decoded_by_value(
        r: Record,
        p: Parameters,
        pan: u32,
        par: u32,
        sqi: i32,
    ) -> SentOutcome;
    pub safe fn royukezan_power_step_failed_by_value(r: Record, p: Parameters, sqi: i32) -> SentOutcome;
    pub safe fn royukezan_power_step_decoded(r: &mut Record, p: Parameters, pan: u32, par: u32, sqi: i32)
        -> SentAnswer;
    pub safe fn royukezan_power_step_failed(r: &mut Record, p: Parameters, sqi: i32) -> SentAnswer;
}

/// The archive's layout of a type: its size, its alignment, and where each field stands. Another one does not build.
macro_rules! layout {
    ($type:ident: $size:literal by $align:literal; $($field:ident $offset:literal),*) => {
        const _: () = {
            assert!(size_of::<$type>() == $size);
            assert!(align_of::<$type>() == $align);
            $(assert!(offset_of!($type, $field) == $offset);)*
        };
    };
}

layout!(HundredthsAnswer: 8 by 4; refusal 0, hundredths 4);
layout!(FloatAnswer: 8 by 4; refusal 0, value 4);
layout!(BurstAnswer: 12 by 4; refusal 0, level 4, quality 8);
layout!(Sweep: 4624 by 8; levels 0, visited 4352, heard 4488);
layout!(SweepOutcome: 4632 by 8; refusal 0, sweep 8);
layout!(NextAnswer: 8 by 4; refusal 0, next 4, channel 6);
layout!(CountsAnswer: 12 by 4; refusal 0, visited 4, heard 8);
layout!(ChoiceAnswer: 12 by 4; refusal 0, choice 4, channel 6, tried 8);
layout!(Track: 80 by 8; channel 0, count 8, levels 16);
layout!(Watch: 576 by 8; watched 0, tracks 8, depth 568);
layout!(WatchOutcome: 584 by 8; refusal 0, place 4, watch 8);
layout!(LevelsAnswer: 12 by 4; refusal 0, count 4, mean 8);
layout!(VerdictAnswer: 8 by 4; refusal 0, verdict 4, channel 6);
layout!(Parameters: 28 by 4; sqt 0, paninit 4, panmin 8, panmax 12, gainup 16, gaindn 20, mestep 24);
layout!(Record: 16 by 4; panlast 0, parsave 4, panbasic 8, increase 12);
layout!(PowerOutcome: 20 by 4; refusal 0, power 4);
layout!(SentAnswer: 12 by 4; refusal 0, par 4, pan 8);
layout!(SentOutcome: 28 by 4; answer 0, power 12);
