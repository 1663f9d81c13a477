//! The power steps, on a record that the modem task keeps.
//!
//! PAN and PAR are attenuation codes; one code is 0.4 dB. They are numeric up to 60; 61 to 63 are not.

use crate::border::{self, SentAnswer, SentOutcome};
use crate::refusal::{accepted, Refusal};

/// The power parameters, as codes. They are given at the start and again at every step; the record does not hold them.
#[derive(Clone, Copy, Debug, Default, PartialEq, Eq)]
#[repr(C)]
pub struct Parameters {
    /// The signal quality target, 0 to 126, by 0.1 dB; 127 is null and refused.
    pub sqt: u32,
    /// The PAN to start from, 0 to 60.
    pub paninit: u32,
    /// The lowest PAN to send, 0 to 60, not above `panmax`.
    pub panmin: u32,
    /// The highest PAN to send, 0 to 60.
    pub panmax: u32,
    /// The gain where the quality is not above the target, 0 to 31, by 0.1.
    pub gainup: u32,
    /// The gain where it is above, 0 to 10, by 0.1.
    pub gaindn: u32,
    /// By how much a message that was not decoded raises the power, 0 to 15, by 0.2 dB.
    pub mestep: u32,
}

/// The power record.
///
/// It may be taken apart, kept and made again by its fields. Every call tests it first and refuses one that is not
/// well formed with 9. Well formed: codes 0 to 60, the increase a multiple of 200 in 0 to 24,000; so is one of all
/// zeros, which is the default and what document 01 leaves after a refused start.
#[derive(Clone, Copy, Debug, Default, PartialEq, Eq)]
#[repr(C)]
pub struct Record {
    /// The last numeric PAN that was decoded.
    pub panlast: u32,
    /// The last numeric PAR that was decoded.
    pub parsave: u32,
    /// The attenuation to send, before the increase.
    pub panbasic: u32,
    /// The rise in power since a message was decoded, in thousandths of a dB.
    pub increase: u32,
}

/// The codes to send.
#[derive(Clone, Copy, Debug, PartialEq, Eq)]
pub struct Sent {
    /// The attenuation that is asked of the other end, 0 to 60.
    pub par: u32,
    /// The attenuation of this end, from PANmin to PANmax.
    pub pan: u32,
}

#[inline]
fn sent(answer: SentAnswer) -> Result<Sent, Refusal> {
    accepted(answer.refusal).map(|()| Sent { par: answer.par, pan: answer.pan })
}

#[inline]
fn advanced(outcome: SentOutcome) -> Result<(Record, Sent), Refusal> {
    sent(outcome.answer).map(|sent| (outcome.power, sent))
}

impl Record {
    /// A fresh record with these parameters. Refusal 7.
    #[inline]
    pub fn start(parameters: Parameters) -> Result<Record, Refusal> {
        let outcome = border::royukezan_power_start_by_value(parameters);
        accepted(outcome.refusal).map(|()| outcome.power)
    }

    /// A step after a message with these PAN and PAR codes, 0 to 63, at a measured quality SQI in hundredths, -3,000
    /// to 4,000. The record is advanced. Refusals 9, 7, 1.
    #[inline]
    pub fn step_decoded(&mut self, parameters: Parameters, pan: u32, par: u32, sqi: i32) -> Result<Sent, Refusal> {
        sent(border::royukezan_power_step_decoded(self, parameters, pan, par, sqi))
    }

    /// A step after a message that was not decoded; SQI is tested here too. The record is advanced. Refusals 9, 7, 1.
    #[inline]
    pub fn step_failed(&mut self, parameters: Parameters, sqi: i32) -> Result<Sent, Refusal> {
        sent(border::royukezan_power_step_failed(self, parameters, sqi))
    }

    /// The record that [`step_decoded`](Record::step_decoded) would leave, and what it would send; this one stays.
    /// Refusals 9, 7, 1.
    #[inline]
    pub fn after_decoded(
        &self,
        parameters: Parameters,
        pan: u32,
        par: u32,
        sqi: i32,
    ) -> Result<(Record, Sent), Refusal> {
        advanced(border::royukezan_power_step_decoded_by_value(*self, parameters, pan, par, sqi))
    }

    /// The same for [`step_failed`](Record::step_failed). Refusals 9, 7, 1.
    #[inline]
    pub fn after_failed(&self, parameters: Parameters, sqi: i32) -> Result<(Record, Sent), Refusal> {
        advanced(border::royukezan_power_step_failed_by_value(*self, parameters, sqi))
    }

    /// Whether the record is well formed. Refusal 9.
    #[inline]
    pub fn check(&self) -> Result<(), Refusal> {
        accepted(border::royukezan_power_check_by_value(*self))
    }
}
