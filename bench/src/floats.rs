//! The floats at which the rounding and the ranges of readings turn.

/// The bits of the floats around each half hundredth and each whole one of both ranges, around the ends, and odd ones.
pub fn turning_bits() -> Vec<u32> {
    let mut all = Vec::new();
    let mut around = |x: f32| {
        for step in -3_i32..=3 {
            all.push(x.to_bits().wrapping_add_signed(step));
        }
    };
    // Twice the hundredths, so that the odd ones are the halves.
    for twice in -30_010..=8_010_i32 {
        around((f64::from(twice) / 200.0) as f32);
    }
    // Exact halves: odd eighths of a dB.
    for eighths in -1_201..=321_i16 {
        around(f32::from(eighths) / 8.0);
    }
    for end in [-150.0, -30.0, -0.0, 0.0, 40.0, f32::MIN, f32::MAX, f32::MIN_POSITIVE, -f32::MIN_POSITIVE] {
        around(end);
    }
    all.extend([f32::INFINITY, f32::NEG_INFINITY, f32::NAN, -f32::NAN].map(f32::to_bits));
    all.extend([0x7F80_0001, 0xFF80_0001, 0x7FFF_FFFF, 0xFFFF_FFFF]);
    all
}
