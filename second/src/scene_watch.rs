//! Scenes of the watch: full means with sums at the turn of a verdict, calls in any order, and a watch that is idle.

use crate::limits::LEVEL_RANGE;
use crate::scene_beam::{
    follow_verdict, loose_beam, neighbour_dropped, neighbour_serves, reordered, strange_in_its_place, stranger_serves,
    there_and_back,
};
use crate::scene_refused::{idle_beams, refused_beam};
use crate::script::Script;
use crate::watch_lines::{
    ask_all, bad_depth, eight_channels, neighbours, refused_start, say_beam, say_former_call, say_level, say_verdict,
    serving, sound_depth, start_line, watched,
};

/// What a planned watch aims at.
struct Plan {
    /// The depth of the watch, and so how many levels of each channel are planned.
    depth: i32,
    hysteresis: i32,
    list: Vec<i32>,
    strange: i32,
    /// Each channel with the levels still to be filed under it, the next one last.
    queues: Vec<(i32, Vec<i32>)>,
}

/// A watch planned so that its verdict turns at one hysteresis; levels are filed in any order, with turns between.
pub fn planned_watch(script: &mut Script) {
    let mut plan = plan(script);
    begin(script, &plan);
    while !plan.queues.is_empty() {
        let place = script.dice.below(plan.queues.len());
        let channel = plan.queues[place].0;
        match plan.queues[place].1.pop() {
            Some(level) => say_level(script, channel, level),
            None => {
                plan.queues.swap_remove(place);
            }
        }
        if script.dice.one_in(7) {
            harmless_turn(script, &plan);
        }
    }
    finale(script, &plan);
}

/// Starts the planned watch, at times on a strange channel, which its first beam drops; then that beam.
fn begin(script: &mut Script, plan: &Plan) {
    let planned = plan.queues[0].0;
    let first = script.dice.pick(&[planned, planned, plan.strange]);
    let start = start_line(script, first, plan.depth);
    script.add(start.into_bytes());
    if first != planned {
        let level = script.dice.within(&LEVEL_RANGE);
        say_level(script, first, level);
    }
    say_beam(script, planned, &plan.list);
}

/// A serving level, a hysteresis, and neighbours whose sums lie at or about the turn.
fn plan(script: &mut Script) -> Plan {
    let (depth, channels) = (sound_depth(script), eight_channels(script));
    let count = script.dice.pick(&[1, 2, 2, 3, 3, 4, 6, 6]);
    let hysteresis = script.dice.pick(&[0, 0, 1, 2, 3, 299, 300, 301, 1_000, 3_000, 5_999, 6_000]);
    let base = match script.dice.below(5) {
        0 => *LEVEL_RANGE.start(),
        1 => -hysteresis - 2,
        _ => script.dice.between(-14_600, -hysteresis - 400),
    };
    let mut queues = vec![(channels[0], with_older(script, depth, base, 0))];
    let shared = script.dice.pick(&[0, 1, 1, 1, 2, depth]);
    for channel in &channels[1..=count] {
        // Half of the neighbours share one sum, so that the channel number has to decide.
        let other = script.dice.pick(&[-depth, -1, 0, 0, 1, 1, 2, depth, depth + 1]);
        let beyond = if script.dice.one_in(2) { shared } else { other };
        queues.push((*channel, with_older(script, depth, base + hysteresis, beyond)));
    }
    Plan { depth, hysteresis, list: channels[1..=count].to_vec(), strange: channels[7], queues }
}

/// The planned levels, at times one short, and before them some that must fall out again.
fn with_older(script: &mut Script, depth: i32, each: i32, beyond: i32) -> Vec<i32> {
    let mut levels = spread(script, depth, each, beyond);
    if script.dice.one_in(12) {
        levels.pop();
    } else {
        for _ in 0..script.dice.pick(&[0, 0, 0, 1, 2, 5]) {
            let level = script.dice.within(&LEVEL_RANGE);
            levels.push(level);
        }
    }
    levels
}

/// As many levels as the depth, with the sum depth x each + beyond, unlike each other.
fn spread(script: &mut Script, depth: i32, each: i32, beyond: i32) -> Vec<i32> {
    let mut levels: Vec<i32> = (0..depth)
        .map(|place| each + beyond.div_euclid(depth) + i32::from(place < beyond.rem_euclid(depth)))
        .collect();
    for _ in 0..script.dice.pick(&[0, 5, 20]) {
        let (one, other) = (script.dice.below(levels.len()), script.dice.below(levels.len()));
        let amount = script.dice.between(1, 150);
        if one != other
            && LEVEL_RANGE.contains(&(levels[one] + amount))
            && LEVEL_RANGE.contains(&(levels[other] - amount))
        {
            levels[one] += amount;
            levels[other] -= amount;
        }
    }
    script.dice.shuffle(&mut levels);
    levels
}

/// A turn that keeps every level: another order, refusals, missed bursts, questions.
fn harmless_turn(script: &mut Script, plan: &Plan) {
    match script.dice.below(15) {
        0..=3 => reordered(script),
        4 | 5 => refused_beam(script),
        6 => say_former_call(script),
        7 => file_wrongly(script, plan.strange),
        8 => {
            let channel = script.dice.pick(&[serving(script), plan.list[0]]);
            script.say(&format!("file {channel} missed"));
        }
        9 => ask_all(script, plan.strange),
        10 => there_and_back(script),
        11 | 12 => refused_start(script, plan.strange),
        _ => {
            let near = script.dice.between(-1, 1);
            say_verdict(script, plan.hysteresis + near);
        }
    }
}

/// Anything under a channel that is not watched, then a bad float under the serving one.
fn file_wrongly(script: &mut Script, strange: i32) {
    let channel = script.dice.pick(&[strange, strange, 1_088, 65_535]);
    let burst = script.dice.pick(&["missed", "heard nan nan", "heard 0xc3160001 0", "heard -90 5"]);
    script.say(&format!("file {channel} {burst}"));
    let watched = serving(script);
    let bad = ["heard nan 0", "heard -90 nan", "heard 0xc3160001 0", "heard -90 0x42200001", "heard 0x00000001 0"];
    let burst = script.dice.pick(&bad);
    script.say(&format!("file {watched} {burst}"));
}

/// With all levels filed: verdicts around the turn, then beams, starts and levels, each with verdicts after it.
fn finale(script: &mut Script, plan: &Plan) {
    ask_all(script, plan.strange);
    verdicts(script, plan);
    for _ in 0..script.dice.between(2, 6) {
        match script.dice.below(14) {
            0 | 1 => reordered(script),
            2 => neighbour_dropped(script),
            3 => refused_beam(script),
            4 => say_former_call(script),
            5 => there_and_back(script),
            6 | 7 => one_more_level(script),
            8 => strange_in_its_place(script),
            9 => refused_start(script, plan.strange),
            10 => neighbour_serves(script),
            11 => stranger_serves(script),
            _ => follow_verdict(script, plan.hysteresis.max(1) - 1),
        }
        let near = script.dice.between(-1, 1);
        say_verdict(script, plan.hysteresis + near);
    }
    verdicts(script, plan);
    ask_all(script, plan.strange);
    if script.dice.one_in(2) {
        let depth = start_again(script, plan);
        fill_again(script, depth);
    }
}

/// A start on the serving channel, a neighbour, a stranger or refused, mostly at another depth; then what is left of
/// the watch before it. Gives the depth that the watch has now.
fn start_again(script: &mut Script, plan: &Plan) -> i32 {
    let (before, serving, strange) = (neighbours(script), serving(script), plan.strange);
    let neighbour = before.first().copied().unwrap_or(strange);
    let again = script.dice.pick(&[serving, serving, neighbour, strange, 1_088]);
    let depth = if script.dice.one_in(6) { bad_depth(script) } else { sound_depth(script) };
    let line = start_line(script, again, depth);
    let answer = script.say(&line);
    say_verdict(script, 0);
    for channel in before {
        script.say(&format!("ask {channel}"));
    }
    script.say(&format!("ask {serving}"));
    if answer == "accepted" { depth } else { plan.depth }
}

/// Files one level more than the depth under the serving channel, with verdicts from one short of the depth on.
fn fill_again(script: &mut Script, depth: i32) {
    let serving = serving(script);
    for filed in 1..=depth + 1 {
        let level = script.dice.within(&LEVEL_RANGE);
        say_level(script, serving, level);
        if filed >= depth - 1 {
            say_verdict(script, 0);
            script.say(&format!("ask {serving}"));
        }
    }
}

/// Verdicts at and beside the turn, at 0 and at or outside an end of the range.
fn verdicts(script: &mut Script, plan: &Plan) {
    let h = plan.hysteresis;
    let mut all = vec![h - 1, h, h + 1, 0];
    all.push(script.dice.pick(&[-1, 6_000, 6_001, i32::MIN, i32::MAX]));
    for hysteresis in all {
        say_verdict(script, hysteresis);
    }
}

/// One more level under any watched channel, so that its oldest goes.
fn one_more_level(script: &mut Script) {
    let (channel, level) = (script.dice.pick(&watched(script)), script.dice.within(&LEVEL_RANGE));
    say_level(script, channel, level);
}

/// Calls in any order over few channels and few levels, so that sums are often equal.
pub fn loose_watch(script: &mut Script) {
    let mut channels = eight_channels(script);
    channels.truncate(script.dice.between(3, 8) as usize);
    let levels = [-9_000, -9_000, -9_001, -8_999, -1, -2, 0, -15_000];
    if script.dice.one_in(2) {
        loose_start(script, channels[0]);
        loose_beam(script, &channels);
    }
    for _ in 0..script.dice.between(30, 120) {
        let channel = script.dice.pick(&channels);
        match script.dice.below(42) {
            0 => loose_start(script, channel),
            1..=4 => loose_beam(script, &channels),
            5 => say_former_call(script),
            6..=8 => drop(script.say(&format!("ask {channel}"))),
            9..=11 => {
                let hysteresis = script.dice.pick(&[0, 0, 1, 2, 100, 6_000, -1, 6_001]);
                say_verdict(script, hysteresis);
            }
            12 => {
                let burst = script.doubtful();
                script.say(&format!("file {channel} {burst}"));
            }
            13 => drop(script.say(&format!("file {channel} missed"))),
            14 => refused_start(script, channel),
            15 => refused_beam(script),
            _ => {
                let level = script.dice.pick(&levels);
                say_level(script, channel, level);
            }
        }
    }
}

/// A start of this channel at any depth in range.
fn loose_start(script: &mut Script, channel: i32) {
    let depth = sound_depth(script);
    let line = start_line(script, channel, depth);
    script.say(&line);
}

/// Questions to an idle watch, which only the beginning of a session has.
pub fn idle_watch(script: &mut Script) {
    let mut lines = vec![
        "ask 0", "ask 5", "ask 1088", "file 0 heard -90 5", "file 0 missed", "file 3 heard nan nan", "beam 0", "beam 5",
        "beam 0 1", "beam 1 0", "beam 0 0", "beam 3 3", "beam 3 0 0", "beam 1087 0", "beam 7 1 2 3 4 5 6",
        "beam 8 1 2 3 4 5 6 7", "beam 9 1 2 3 4 5 6 7 8", "beam 1088", "beam 1088 5 5", "beam 65535 1 2 3 4 5 6 7",
        "beam 5 1088", "beam 1 5 65535 5", "beam", "beam 1 2 3 4 5 6 7 8 9 10", "list", "list 5", "move 0", "move 5",
        "verdict 0", "verdict 6000", "verdict 6001", "verdict -1", "start 1088", "start 65535", "start 5 4",
        "start 0 32", "start 0 0", "start 7 255", "start 1088 4", "start 1088 32", "start 65535 0", "start 1088 15",
        "start 1088 31", "step failed 0", "step 10 20 0", "step 64 0 0", "step failed 4001", "choose 0", "sweep next",
        "sweep counts", "choose 6001",
    ];
    let beams = idle_beams(script);
    lines.extend(beams.iter().map(String::as_str));
    script.dice.shuffle(&mut lines);
    for line in lines {
        script.say(line);
    }
}
