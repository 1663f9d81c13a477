//! Readings through the archive: document 01's checked examples, the ends of the ranges, and every hundredth read back.

use royukezan::readings::{
    burst_to_hundredths, level_read_back, level_to_float, level_to_hundredths, quality_read_back, quality_to_float,
    quality_to_hundredths, Hundredths, Reading,
};
use royukezan::Refusal::ReadingOutOfRange;

#[test]
fn checked_examples() {
    assert_eq!(level_to_hundredths(-100.125), Ok(-10_013));
    assert_eq!(quality_to_hundredths(0.125), Ok(12));
    assert_eq!(quality_to_hundredths(0.375), Ok(37));
    assert_eq!(level_to_hundredths(-150.0), Ok(-15_000));
    let next_below = f32::from_bits((-150.0_f32).to_bits() + 1);
    assert!(next_below < -150.0);
    assert_eq!(level_to_hundredths(next_below), Err(ReadingOutOfRange));
    assert_eq!(level_to_hundredths(f32::NAN), Err(ReadingOutOfRange));
}

#[test]
fn ends_of_the_ranges() {
    for (level, told) in [(-0.0, Ok(0)), (0.0, Ok(0)), (-0.125, Ok(-13)), (1e-45, Err(ReadingOutOfRange))] {
        assert_eq!(level_to_hundredths(level), told, "level {level}");
    }
    let beyond = |end: f32| f32::from_bits(end.to_bits() + 1);
    for (quality, told) in [(-30.0, Ok(-3_000)), (40.0, Ok(4_000)), (-0.375, Ok(-38))] {
        assert_eq!(quality_to_hundredths(quality), told, "quality {quality}");
    }
    for quality in [beyond(-30.0), beyond(40.0), f32::NAN, f32::INFINITY, f32::NEG_INFINITY] {
        assert_eq!(quality_to_hundredths(quality), Err(ReadingOutOfRange), "quality {quality}");
    }
    for level in [f32::INFINITY, f32::NEG_INFINITY, f32::MIN, f32::MAX, 1.0] {
        assert_eq!(level_to_hundredths(level), Err(ReadingOutOfRange), "level {level}");
    }
}

#[test]
fn every_level_is_read_back() {
    for h in -15_000..=0 {
        assert_eq!(level_to_float(h), Ok(h as f32 / 100.0));
        assert_eq!(level_to_float(h).and_then(level_to_hundredths), Ok(h));
        assert_eq!(level_read_back(h), Ok(h));
    }
    for h in [i32::MIN, -15_001, 1, i32::MAX] {
        assert_eq!(level_to_float(h), Err(ReadingOutOfRange));
        assert_eq!(level_read_back(h), Err(ReadingOutOfRange));
    }
}

#[test]
fn every_quality_is_read_back() {
    for h in -3_000..=4_000 {
        assert_eq!(quality_to_float(h), Ok(h as f32 / 100.0));
        assert_eq!(quality_to_float(h).and_then(quality_to_hundredths), Ok(h));
        assert_eq!(quality_read_back(h), Ok(h));
    }
    for h in [i32::MIN, -3_001, 4_001, i32::MAX] {
        assert_eq!(quality_to_float(h), Err(ReadingOutOfRange));
        assert_eq!(quality_read_back(h), Err(ReadingOutOfRange));
    }
}

#[test]
fn both_floats_of_a_burst_are_tested() {
    let told = |level, quality| burst_to_hundredths(Reading { level, quality });
    assert_eq!(told(-100.125, 0.375), Ok(Hundredths { level: -10_013, quality: 37 }));
    assert_eq!(told(0.5, 0.375), Err(ReadingOutOfRange));
    assert_eq!(told(-100.125, 40.5), Err(ReadingOutOfRange));
    assert_eq!(told(f32::NAN, f32::NAN), Err(ReadingOutOfRange));
}
