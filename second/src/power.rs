//! The power loop: clause 5.4, items 1 to 5.2, of source document 000, with document 01's rules around it.

use crate::limits::{
    CODE_STEP, GAIN_DOWN_RANGE, GAIN_UP_RANGE, GREATEST_THOUSANDTHS, HIGHEST_CODE, MESTEP_RANGE, MESTEP_STEP,
    NUMERIC_CODES, QUALITY_RANGE, SQT_RANGE,
};
use crate::refusal::{judge, Refusal};

/// The seven power parameters as codes.
#[derive(Clone, Copy, Debug, Default, PartialEq, Eq)]
pub struct Parameters {
    pub sqt: i32,
    pub pan_init: i32,
    pub pan_min: i32,
    pub pan_max: i32,
    pub gain_up: i32,
    pub gain_down: i32,
    pub mestep: i32,
}

/// The power record: three codes, and the increase in thousandths.
#[derive(Clone, Copy, Debug, Default, PartialEq, Eq)]
pub struct Power {
    pan_last: i32,
    par_save: i32,
    pan_basic: i32,
    increase: i32,
}

/// The codes of a decoded message.
#[derive(Clone, Copy, Debug, PartialEq, Eq)]
pub struct Codes {
    pub pan: i32,
    pub par: i32,
}

/// What a step sends.
#[derive(Clone, Copy, Debug, PartialEq, Eq)]
pub struct Sent {
    pub par: i32,
    pub pan: i32,
}

/// Refusal 7 for the parameters: one out of range, or PANmin above PANmax.
fn parameters_are_faulty(p: &Parameters) -> bool {
    let in_range = SQT_RANGE.contains(&p.sqt)
        && NUMERIC_CODES.contains(&p.pan_init)
        && NUMERIC_CODES.contains(&p.pan_min)
        && NUMERIC_CODES.contains(&p.pan_max)
        && GAIN_UP_RANGE.contains(&p.gain_up)
        && GAIN_DOWN_RANGE.contains(&p.gain_down)
        && MESTEP_RANGE.contains(&p.mestep);
    !in_range || p.pan_min > p.pan_max
}

/// Refusal 7 for a decoded message: a code above 63.
fn code_is_faulty(code: i32) -> bool {
    !(0..=HIGHEST_CODE).contains(&code)
}

/// Rule 2: T in thousandths, brought into range, divided by 400 to the nearest, a half to the lower.
fn par_to_send(p: &Parameters, pan_use: i32, sqi: i32) -> i32 {
    let gain = if 10 * p.sqt < sqi { p.gain_down } else { p.gain_up };
    let thousandths = CODE_STEP * pan_use - gain * (10 * p.sqt - sqi);
    let brought = thousandths.clamp(0, GREATEST_THOUSANDTHS);
    let (whole, rest) = (brought.div_euclid(CODE_STEP), brought.rem_euclid(CODE_STEP));
    whole + i32::from(2 * rest > CODE_STEP)
}

impl Power {
    /// Rule "the record starts": all three codes are PANinit, the increase is 0; refused, the record is all zeros.
    pub fn start(p: &Parameters) -> (Power, Result<(), Refusal>) {
        match judge(&[(Refusal::Parameter, parameters_are_faulty(p))]) {
            Err(refusal) => (Power::default(), Err(refusal)),
            Ok(()) => {
                let init = p.pan_init;
                (Power { pan_last: init, par_save: init, pan_basic: init, increase: 0 }, Ok(()))
            }
        }
    }

    /// One step; a message that was not decoded has no codes.
    pub fn step(&mut self, p: &Parameters, decoded: Option<Codes>, sqi: i32) -> Result<Sent, Refusal> {
        let faulty = |codes: Codes| code_is_faulty(codes.pan) || code_is_faulty(codes.par);
        judge(&[
            (Refusal::Parameter, parameters_are_faulty(p) || decoded.is_some_and(faulty)),
            (Refusal::Reading, !QUALITY_RANGE.contains(&sqi)),
        ])?;
        self.take_pan(decoded);
        let par = par_to_send(p, self.pan_last, sqi);
        self.take_par(p, decoded);
        Ok(Sent { par, pan: self.pan_to_send(p) })
    }

    /// Rule 1 (item 4.1): a decoded numeric PAN becomes PANlast; PANuse is PANlast either way.
    fn take_pan(&mut self, decoded: Option<Codes>) {
        if let Some(codes) = decoded {
            if NUMERIC_CODES.contains(&codes.pan) {
                self.pan_last = codes.pan;
            }
        }
    }

    /// Rule 3 (items 5.1, 5.2 and, for a failed message, document 01).
    fn take_par(&mut self, p: &Parameters, decoded: Option<Codes>) {
        let Some(codes) = decoded else {
            self.increase = (self.increase + MESTEP_STEP * p.mestep).min(GREATEST_THOUSANDTHS);
            return;
        };
        if NUMERIC_CODES.contains(&codes.par) {
            self.pan_basic = codes.par.min(self.par_save);
            self.par_save = codes.par;
        }
        self.increase = 0;
    }

    /// Rule 4: PANbasic less the increase, rounded down to a code, brought into PANmin to PANmax.
    fn pan_to_send(&self, p: &Parameters) -> i32 {
        let thousandths = CODE_STEP * self.pan_basic - self.increase;
        thousandths.div_euclid(CODE_STEP).clamp(p.pan_min, p.pan_max)
    }
}

#[cfg(test)]
mod tests {
    use super::*;

    fn parameters(codes: [i32; 7]) -> Parameters {
        let [sqt, pan_init, pan_min, pan_max, gain_up, gain_down, mestep] = codes;
        Parameters { sqt, pan_init, pan_min, pan_max, gain_up, gain_down, mestep }
    }

    fn started(p: &Parameters) -> Power {
        let (power, answer) = Power::start(p);
        assert_eq!(answer, Ok(()));
        power
    }

    fn codes(pan: i32, par: i32) -> Option<Codes> {
        Some(Codes { pan, par })
    }

    #[test]
    fn checked_examples_of_par() {
        let p = parameters([85, 20, 0, 60, 10, 10, 0]);
        assert_eq!(started(&p).step(&p, None, 750).unwrap().par, 17);
        assert_eq!(started(&p).step(&p, None, 950).unwrap().par, 22);
        assert_eq!(started(&p).step(&p, codes(20, 0), 950).unwrap().par, 22);
    }

    #[test]
    fn checked_example_of_pan() {
        let p = parameters([85, 30, 0, 60, 10, 10, 3]);
        let mut power = started(&p);
        let messages = [codes(61, 20), codes(61, 40), codes(61, 40), None, None];
        let sent: Vec<i32> = messages.iter().map(|message| power.step(&p, *message, 0).unwrap().pan).collect();
        assert_eq!(sent, [20, 20, 40, 38, 37]);
    }

    #[test]
    fn the_gain_follows_the_sign_of_the_error() {
        let p = parameters([50, 30, 0, 60, 31, 0, 0]);
        assert_eq!(started(&p).step(&p, None, 501).unwrap().par, 30);
        assert_eq!(started(&p).step(&p, None, 500).unwrap().par, 30);
        // T = 12,000 - 31 x 100 = 8,900, which is 22.25 codes.
        assert_eq!(started(&p).step(&p, None, 400).unwrap().par, 22);
    }

    #[test]
    fn par_is_brought_into_range() {
        let p = parameters([126, 0, 0, 60, 31, 10, 0]);
        assert_eq!(started(&p).step(&p, None, -3_000).unwrap().par, 0);
        let high = parameters([0, 60, 0, 60, 31, 10, 0]);
        assert_eq!(started(&high).step(&high, None, 4_000).unwrap().par, 60);
    }

    #[test]
    fn the_lesser_is_taken_with_the_par_saved_before() {
        let p = parameters([0, 30, 0, 60, 0, 0, 0]);
        let mut power = started(&p);
        assert_eq!(power.step(&p, codes(0, 50), 0).unwrap().pan, 30);
        assert_eq!(power.step(&p, codes(0, 45), 0).unwrap().pan, 45);
        assert_eq!(power.step(&p, codes(0, 60), 0).unwrap().pan, 45);
        assert_eq!(power.step(&p, codes(0, 60), 0).unwrap().pan, 60);
    }

    #[test]
    fn escapes_clear_the_increase_and_leave_the_rest() {
        let p = parameters([0, 40, 0, 60, 0, 0, 15]);
        let mut power = started(&p);
        power.step(&p, None, 0).unwrap();
        assert_eq!(power.increase, 3_000);
        power.step(&p, codes(62, 63), 0).unwrap();
        assert_eq!(power, started(&p));
        power.step(&p, codes(7, 61), 0).unwrap();
        assert_eq!(power, Power { pan_last: 7, ..started(&p) });
        power.step(&p, codes(61, 20), 0).unwrap();
        assert_eq!(power, Power { pan_last: 7, par_save: 20, pan_basic: 20, increase: 0 });
    }

    #[test]
    fn the_increase_stops_at_its_limit() {
        let p = parameters([0, 60, 0, 60, 0, 0, 15]);
        let mut power = started(&p);
        for _ in 0..20 {
            power.step(&p, None, 0).unwrap();
        }
        assert_eq!(power.increase, 24_000);
        assert_eq!(power.step(&p, None, 0).unwrap().pan, 0);
        assert_eq!(power.step(&p, codes(61, 61), 0).unwrap().pan, 60);
    }

    #[test]
    fn pan_is_brought_between_its_limits() {
        let p = parameters([0, 50, 10, 20, 0, 0, 15]);
        let mut power = started(&p);
        assert_eq!(power.step(&p, codes(0, 60), 0).unwrap().pan, 20);
        assert_eq!(power.step(&p, codes(0, 3), 0).unwrap().pan, 10);
        assert_eq!(power.step(&p, None, 0).unwrap().pan, 10);
    }

    #[test]
    fn each_parameter_has_its_range() {
        let good = [126, 60, 0, 60, 31, 10, 15];
        assert_eq!(Power::start(&parameters(good)).1, Ok(()));
        for (place, bad) in [(0, 127), (1, 61), (3, 61), (4, 32), (5, 11), (6, 16)] {
            let mut faulty = good;
            faulty[place] = bad;
            let p = parameters(faulty);
            assert_eq!(Power::start(&p), (Power::default(), Err(Refusal::Parameter)));
            let mut power = started(&parameters(good));
            assert_eq!(power.step(&p, None, 9_999), Err(Refusal::Parameter));
            assert_eq!(power, started(&parameters(good)));
        }
        assert!(Power::start(&parameters([0, 0, 31, 30, 0, 0, 0])).1.is_err());
        assert!(Power::start(&parameters([0, 0, 61, 61, 0, 0, 0])).1.is_err());
        assert!(Power::start(&parameters([0, 60, 30, 30, 0, 0, 0])).1.is_ok());
    }

    #[test]
    fn codes_and_sqi_have_their_ranges() {
        let p = parameters([0, 30, 0, 60, 0, 0, 1]);
        let mut power = started(&p);
        assert_eq!(power.step(&p, codes(64, 0), 0), Err(Refusal::Parameter));
        assert_eq!(power.step(&p, codes(0, 64), 5_000), Err(Refusal::Parameter));
        for sqi in [-3_001, 4_001] {
            assert_eq!(power.step(&p, None, sqi), Err(Refusal::Reading));
            assert_eq!(power.step(&p, codes(63, 63), sqi), Err(Refusal::Reading));
        }
        assert_eq!(power, started(&p));
        assert!(power.step(&p, codes(63, 63), -3_000).is_ok());
        assert!(power.step(&p, None, 4_000).is_ok());
    }

    #[test]
    fn a_step_uses_the_parameters_it_is_given() {
        let mut power = started(&parameters([85, 20, 0, 60, 10, 10, 0]));
        let other = parameters([85, 0, 25, 60, 20, 10, 0]);
        // T = 8,000 - 20 x 100 = 6,000, which is 15 codes.
        assert_eq!(power.step(&other, None, 750), Ok(Sent { par: 15, pan: 25 }));
    }
}
