//! The library's calls, one function each, on a record and the memory that is lent with it. Any
//! record and any lengths may be handed over: what does not fit is refused.
use crate::Failure;
use crate::ffi::{self, CallAnswer, StepperAnswer};

pub use crate::ffi::{
    Bounds, Fixed, Memo, Progress, RosenbrockStepper as Record, StepStatistics,
    TimeDifferencePolicy as Policy,
};

/// What a call that is not refused answers: the attempt asks for something, shows its step, or
/// there was nothing to tell.
#[derive(Clone, Copy, Debug, PartialEq, Eq)]
pub enum Told {
    Asked,
    Shown,
    Done,
}

pub type Answer = Result<Told, Failure>;

/// What an open attempt waits for, as its record says it: derivatives, but for the Jacobian and the
/// time partial.
#[derive(Clone, Copy, Debug, PartialEq, Eq)]
pub enum Ask {
    Derivative,
    Jacobian,
    TimePartial,
    FirstProbe,
    SecondProbe,
    Column(usize),
    Stage(usize),
}

impl Ask {
    /// None where no attempt is open.
    #[inline(always)]
    pub fn of(record: &Record) -> Option<Self> {
        let stage = record.progress.stage;
        Some(match record.progress.request {
            2 => Self::Derivative,
            3 => Self::Jacobian,
            4 => Self::TimePartial,
            5 => Self::FirstProbe,
            6 => Self::SecondProbe,
            7 => Self::Column(stage),
            8 => Self::Stage(stage),
            _ => return None,
        })
    }
}

/// Whether the host supplies it; otherwise it is probed.
#[derive(Clone, Copy, Debug)]
pub struct Modes {
    pub host_jacobian: bool,
    pub host_time_partial: bool,
}

/// What is lent to a call.
#[derive(Debug)]
pub struct Lent<'a> {
    pub state: &'a mut [f64],
    pub work: &'a mut [f64],
    pub pivots: &'a mut [usize],
}

/// Memory to lend.
#[derive(Clone, Debug)]
pub struct Memory {
    pub state: Vec<f64>,
    pub work: Vec<f64>,
    pub pivots: Vec<usize>,
}

impl Memory {
    /// As much as is needed for a state and a number of stages.
    pub fn new(state: &[f64], stages: usize) -> Self {
        // a making refuses more than 32 components and 8 stages, whatever is lent
        let n = state.len().min(33);
        Self {
            state: state.to_vec(),
            work: vec![0.0; needed_work(n, stages.min(9))],
            pivots: vec![0; n],
        }
    }

    pub fn lend(&mut self) -> Lent<'_> {
        Lent {
            state: &mut self.state,
            work: &mut self.work,
            pivots: &mut self.pivots,
        }
    }
}

/// How many doubles of work are needed for n components and s stages.
pub fn needed_work(n: usize, s: usize) -> usize {
    8 * n + 2 * n * n + 2 * s * n
}

/// Takes over the record that a call hands back.
#[inline]
fn told(record: &mut Record, answer: StepperAnswer) -> Answer {
    *record = answer.stepper;
    told_in_place(CallAnswer {
        kind: answer.kind,
        number: answer.number,
    })
}

#[inline]
fn told_in_place(answer: CallAnswer) -> Answer {
    if answer.kind == 1 {
        return Ok(Told::Asked);
    }
    told_at_an_end(answer)
}

/// Where nothing is asked. Apart, so that the most frequent answer takes no jump by a table.
#[inline(never)]
fn told_at_an_end(answer: CallAnswer) -> Answer {
    match answer.kind {
        0 => Err(Failure::told(answer.number)),
        2 => Ok(Told::Shown),
        3 => Ok(Told::Done),
        kind => panic!("{kind} is no kind of answer"),
    }
}

/// The export, with what it takes before the memory. Where it only reads what is lent, the pointer is
/// the same.
macro_rules! call {
    ($export:ident, $lent:ident $(, $argument:expr)*) => {
        // SAFETY: the slices' own pointers and lengths, and a record, if one is lent, for the call
        unsafe {
            ffi::$export(
                $($argument,)*
                $lent.state.as_mut_ptr(),
                $lent.state.len(),
                $lent.work.as_mut_ptr(),
                $lent.work.len(),
                $lent.pivots.as_mut_ptr(),
                $lent.pivots.len(),
            )
        }
    };
}

pub fn new(file: &[u8], policy: Policy, time: f64, lent: Lent<'_>) -> Result<Record, Failure> {
    let (bytes, len) = (file.as_ptr(), file.len());
    let answer = call!(wiqhano_stepper_new, lent, bytes, len, policy, time);
    Failure::unless_0(answer.number).map(|()| answer.stepper)
}

#[inline]
pub fn attempt(
    record: &mut Record,
    file: &[u8],
    step: f64,
    modes: Modes,
    lent: Lent<'_>,
) -> Answer {
    let (bytes, len) = (file.as_ptr(), file.len());
    let (jacobian, partial) = (modes.host_jacobian, modes.host_time_partial);
    let answer = call!(
        wiqhano_stepper_attempt,
        lent,
        *record,
        bytes,
        len,
        step,
        jacobian,
        partial
    );
    told(record, answer)
}

#[inline]
pub fn attempt_to(
    record: &mut Record,
    file: &[u8],
    endpoint: f64,
    proposal: f64,
    modes: Modes,
    lent: Lent<'_>,
) -> Answer {
    let (bytes, len) = (file.as_ptr(), file.len());
    let (jacobian, partial) = (modes.host_jacobian, modes.host_time_partial);
    let answer = call!(
        wiqhano_stepper_attempt_to,
        lent,
        *record,
        bytes,
        len,
        endpoint,
        proposal,
        jacobian,
        partial
    );
    told(record, answer)
}

/// Supplies what is asked for.
#[inline]
pub fn supply(record: &mut Record, file: &[u8], values: &[f64], lent: Lent<'_>) -> Answer {
    let (bytes, len) = (file.as_ptr(), file.len());
    let (given, count) = (values.as_ptr(), values.len());
    let answer = call!(
        wiqhano_stepper_supply,
        lent,
        *record,
        bytes,
        len,
        given,
        count
    );
    told(record, answer)
}

/// Reports that the host failed to work out what is asked for.
#[inline]
pub fn fail(record: &mut Record, lent: Lent<'_>) -> Answer {
    told(record, call!(wiqhano_stepper_fail, lent, *record))
}

#[inline]
pub fn accept(record: &mut Record, lent: Lent<'_>) -> Answer {
    told(record, call!(wiqhano_stepper_accept, lent, *record))
}

#[inline]
pub fn reject(record: &mut Record, lent: Lent<'_>) -> Answer {
    told(record, call!(wiqhano_stepper_reject, lent, *record))
}

/// attempt, on the record where it stands.
#[inline]
pub fn attempt_in_place(
    record: &mut Record,
    file: &[u8],
    step: f64,
    modes: Modes,
    lent: Lent<'_>,
) -> Answer {
    let (bytes, len) = (file.as_ptr(), file.len());
    let (jacobian, partial) = (modes.host_jacobian, modes.host_time_partial);
    told_in_place(call!(
        wiqhano_stepper_attempt_in_place,
        lent,
        record,
        bytes,
        len,
        step,
        jacobian,
        partial
    ))
}

/// attempt_to, on the record where it stands.
#[inline]
pub fn attempt_to_in_place(
    record: &mut Record,
    file: &[u8],
    endpoint: f64,
    proposal: f64,
    modes: Modes,
    lent: Lent<'_>,
) -> Answer {
    let (bytes, len) = (file.as_ptr(), file.len());
    let (jacobian, partial) = (modes.host_jacobian, modes.host_time_partial);
    told_in_place(call!(
        wiqhano_stepper_attempt_to_in_place,
        lent,
        record,
        bytes,
        len,
        endpoint,
        proposal,
        jacobian,
        partial
    ))
}

/// supply, on the record where it stands.
#[inline]
pub fn supply_in_place(record: &mut Record, file: &[u8], values: &[f64], lent: Lent<'_>) -> Answer {
    let (bytes, len) = (file.as_ptr(), file.len());
    let (given, count) = (values.as_ptr(), values.len());
    told_in_place(call!(
        wiqhano_stepper_supply_in_place,
        lent,
        record,
        bytes,
        len,
        given,
        count
    ))
}

/// accept, on the record where it stands.
#[inline]
pub fn accept_in_place(record: &mut Record, lent: Lent<'_>) -> Answer {
    let number = call!(wiqhano_stepper_accept_in_place, lent, record);
    Failure::unless_0(number).map(|()| Told::Done)
}

/// reject, on the record where it stands.
#[inline]
pub fn reject_in_place(record: &mut Record, lent: Lent<'_>) -> Answer {
    let number = call!(wiqhano_stepper_reject_in_place, lent, record);
    Failure::unless_0(number).map(|()| Told::Done)
}

#[inline]
pub fn inject_derivative(record: &mut Record, derivative: &[f64], lent: Lent<'_>) -> Answer {
    let (given, count) = (derivative.as_ptr(), derivative.len());
    let answer = call!(
        wiqhano_stepper_inject_derivative,
        lent,
        *record,
        given,
        count
    );
    told(record, answer)
}

/// `values`: the new accepted state.
#[inline]
pub fn reset(record: &mut Record, time: f64, values: &[f64], lent: Lent<'_>) -> Answer {
    let (given, count) = (values.as_ptr(), values.len());
    let answer = call!(wiqhano_stepper_reset, lent, *record, time, given, count);
    told(record, answer)
}
