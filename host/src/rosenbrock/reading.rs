//! The library's readers, one function each, on any record and memory: what is asked of the host,
//! what a pending step shows, and what the record holds. A vector is the slice at the place that the
//! library tells.
use super::RosenbrockStepView;
use super::calls::{Memory, Record, StepStatistics};
use crate::Failure;
use crate::ffi::{self, ReadingAnswer};

pub type Read<T> = Result<T, Failure>;

#[derive(Clone, Copy, Debug, PartialEq, Eq)]
pub enum Asked {
    Derivative,
    Jacobian,
    TimePartial,
}

/// What is asked of the host, at which time and state.
#[derive(Clone, Copy, Debug, PartialEq)]
pub struct Request<'a> {
    pub asked: Asked,
    pub time: f64,
    pub state: &'a [f64],
}

impl Request<'_> {
    /// How many values are wanted.
    pub fn wanted(&self) -> usize {
        let n = self.state.len();
        match self.asked {
            Asked::Jacobian => n * n,
            _ => n,
        }
    }
}

/// What is told. Each reader tells one of these.
enum Told<'a> {
    Number(f64),
    Vector(&'a [f64]),
    Absent,
    Request(Request<'a>),
}

impl<'a> Told<'a> {
    fn by(answer: ReadingAnswer, memory: &'a Memory) -> Read<Self> {
        let part = || &memory.work[answer.at..][..answer.count];
        let request = |state| {
            Self::Request(Request {
                asked: match answer.asked {
                    1 => Asked::Derivative,
                    2 => Asked::Jacobian,
                    3 => Asked::TimePartial,
                    asked => panic!("{asked} is nothing that is asked"),
                },
                time: answer.value,
                state,
            })
        };
        Ok(match answer.kind {
            0 => return Err(Failure::told(answer.number)),
            1 => Self::Number(answer.value),
            2 => Self::Vector(&memory.state),
            3 => Self::Vector(part()),
            4 => Self::Absent,
            5 => request(&memory.state),
            6 => request(part()),
            kind => panic!("{kind} is no kind of answer"),
        })
    }

    fn number(self) -> f64 {
        match self {
            Self::Number(value) => value,
            _ => panic!("no number was told"),
        }
    }

    fn vector(self) -> &'a [f64] {
        self.optional().expect("a vector")
    }

    fn optional(self) -> Option<&'a [f64]> {
        match self {
            Self::Vector(values) => Some(values),
            Self::Absent => None,
            _ => panic!("no vector was told"),
        }
    }

    fn request(self) -> Request<'a> {
        match self {
            Self::Request(request) => request,
            _ => panic!("no request was told"),
        }
    }
}

/// The export, on the record and the memory, with what it takes between them.
macro_rules! call {
    ($export:ident, $record:ident, $memory:ident $(, $argument:expr)*) => {
        // SAFETY: the vectors' own pointers and lengths
        unsafe {
            ffi::$export(
                *$record,
                $($argument,)*
                $memory.state.as_ptr(),
                $memory.state.len(),
                $memory.work.as_ptr(),
                $memory.work.len(),
                $memory.pivots.as_ptr(),
                $memory.pivots.len(),
            )
        }
    };
}

macro_rules! readers {
    ($($(#[$doc:meta])* $name:ident ($($index:ident)?) -> $answer:ty = $export:ident, $told:ident;)*) => {
        $($(#[$doc])*
        #[allow(clippy::needless_lifetimes)] // of those that tell a number
        pub fn $name<'a>(record: &Record, $($index: usize,)? memory: &'a Memory) -> Read<$answer> {
            Told::by(call!($export, record, memory $(, $index)?), memory).map(Told::$told)
        })*
    };
}

readers! {
    /// The one reader for an open attempt; the others are refused while one is open.
    request() -> Request<'a> = wiqhano_stepper_request, request;
    /// The accepted time.
    time() -> f64 = wiqhano_stepper_time, number;
    /// The accepted state.
    state() -> &'a [f64] = wiqhano_stepper_state, vector;
    /// The derivative there, if it is cached.
    derivative() -> Option<&'a [f64]> = wiqhano_stepper_derivative, optional;
    /// The pending step's start, and so on.
    start() -> f64 = wiqhano_stepper_start, number;
    end() -> f64 = wiqhano_stepper_end, number;
    candidate() -> &'a [f64] = wiqhano_stepper_candidate, vector;
    error() -> Option<&'a [f64]> = wiqhano_stepper_error, optional;
    stages() -> &'a [f64] = wiqhano_stepper_stages, vector;
    rhs_stages() -> &'a [f64] = wiqhano_stepper_rhs_stages, vector;
    jacobian() -> &'a [f64] = wiqhano_stepper_jacobian, vector;
    time_partial() -> &'a [f64] = wiqhano_stepper_time_partial, vector;
    stage(index) -> &'a [f64] = wiqhano_stepper_stage, vector;
    rhs_stage(index) -> &'a [f64] = wiqhano_stepper_rhs_stage, vector;
}

pub fn statistics(record: &Record, memory: &Memory) -> Read<StepStatistics> {
    let answer = call!(wiqhano_stepper_statistics, record, memory);
    Failure::unless_0(answer.number).map(|()| answer.statistics)
}

/// Writes the accepted state to an output of its length.
pub fn copy_state_into(record: &Record, memory: &Memory, output: &mut [f64]) -> Read<()> {
    let (at, length) = (output.as_mut_ptr(), output.len());
    let number = call!(wiqhano_stepper_copy_state_into, record, memory, at, length);
    Failure::unless_0(number)
}

/// The pending step, by its readers.
pub fn view<'a>(record: &Record, memory: &'a Memory) -> Read<RosenbrockStepView<'a>> {
    Ok(RosenbrockStepView {
        previous_state: state(record, memory)?,
        start_time: start(record, memory)?,
        end_time: end(record, memory)?,
        candidate: candidate(record, memory)?,
        component_error: error(record, memory)?,
        solved_stages: stages(record, memory)?,
        stage_derivatives: rhs_stages(record, memory)?,
        jacobian: jacobian(record, memory)?,
        time_partial: time_partial(record, memory)?,
        statistics: statistics(record, memory)?,
        dimension: memory.state.len(),
    })
}
