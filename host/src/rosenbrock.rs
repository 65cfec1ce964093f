//! The stepper in the original's shape: an attempt calls the host's functions for what the library
//! asks for.
pub mod calls;
pub mod direct;
pub mod reading;

use crate::{Failure, TimeDifferencePolicy, tableau};
use calls::{Answer, Memory, Modes, Record, Told};
use std::fmt;

pub use calls::{Ask, StepStatistics};

/// A Jacobian, by rows, or a time partial at a fixed state: time, state, and where to write. What
/// is not written stays as it was last written there, 0 at first and after a reset.
pub type DerivativeHook<'a, E> = dyn FnMut(f64, &[f64], &mut [f64]) -> Result<(), E> + 'a;

/// A refusal, or the error of one of the host's functions.
#[derive(Clone, Copy, Debug, PartialEq, Eq)]
pub enum StepError<E> {
    Solver(Failure),
    User(E),
}

impl<E> From<Failure> for StepError<E> {
    fn from(failure: Failure) -> Self {
        Self::Solver(failure)
    }
}

impl<E: fmt::Display> fmt::Display for StepError<E> {
    fn fmt(&self, f: &mut fmt::Formatter<'_>) -> fmt::Result {
        match self {
            Self::Solver(failure) => failure.fmt(f),
            Self::User(error) => write!(f, "application evaluation failed: {error}"),
        }
    }
}

impl<E: std::error::Error + 'static> std::error::Error for StepError<E> {
    fn source(&self) -> Option<&(dyn std::error::Error + 'static)> {
        match self {
            Self::Solver(_) => None,
            Self::User(error) => Some(error),
        }
    }
}

/// An attempted step. At step 0 the stages, the Jacobian and the time partial are empty.
#[derive(Clone, Copy, Debug)]
pub struct RosenbrockStepView<'a> {
    pub previous_state: &'a [f64],
    pub start_time: f64,
    pub end_time: f64,
    pub candidate: &'a [f64],
    /// For the embedded estimator with btilde.
    pub component_error: Option<&'a [f64]>,
    /// Stage after stage, solved.
    pub solved_stages: &'a [f64],
    /// The derivatives at the stages, one after the other.
    pub stage_derivatives: &'a [f64],
    pub jacobian: &'a [f64],
    pub time_partial: &'a [f64],
    pub statistics: StepStatistics,
    dimension: usize,
}

impl RosenbrockStepView<'_> {
    pub fn stage(&self, index: usize) -> Option<&[f64]> {
        self.row(self.solved_stages, index)
    }

    pub fn rhs_stage(&self, index: usize) -> Option<&[f64]> {
        self.row(self.stage_derivatives, index)
    }

    fn row<'b>(&self, rows: &'b [f64], index: usize) -> Option<&'b [f64]> {
        let start = index.checked_mul(self.dimension)?;
        rows.get(start..start.checked_add(self.dimension)?)
    }
}

/// Between two calls no attempt is open, so that no reader is refused.
const CLOSED: &str = "no attempt is open";

/// A stepper that owns the memory that it lends.
#[derive(Clone, Debug)]
pub struct RosenbrockStepper {
    file: Vec<u8>,
    record: Record,
    memory: Memory,
    written: Written,
}

/// What the host's functions write. As in the original each of these has a place of its own.
#[derive(Clone, Debug)]
struct Written {
    derivative: Vec<f64>,
    jacobian: Vec<f64>,
    /// Its first probe's derivative too.
    time_partial: Vec<f64>,
    /// The derivative at another probe.
    probe: Vec<f64>,
    /// The derivatives at the stages, one after the other.
    stages: Vec<f64>,
}

impl Written {
    fn new(n: usize, s: usize) -> Self {
        Self {
            derivative: vec![0.0; n],
            jacobian: vec![0.0; n * n],
            time_partial: vec![0.0; n],
            probe: vec![0.0; n],
            stages: vec![0.0; s * n],
        }
    }

    /// As it was at first.
    fn clear(&mut self) {
        self.derivative.fill(0.0);
        self.jacobian.fill(0.0);
        self.time_partial.fill(0.0);
        self.probe.fill(0.0);
        self.stages.fill(0.0);
    }

    /// Where what is asked for is written.
    #[inline(always)]
    fn place(&mut self, ask: Ask) -> &mut [f64] {
        match ask {
            Ask::Derivative => &mut self.derivative,
            Ask::Jacobian => &mut self.jacobian,
            Ask::TimePartial | Ask::FirstProbe => &mut self.time_partial,
            Ask::SecondProbe | Ask::Column(_) => &mut self.probe,
            Ask::Stage(i) => {
                let n = self.derivative.len();
                &mut self.stages[i * n..(i + 1) * n]
            }
        }
    }
}

impl RosenbrockStepper {
    /// From a tableau file's bytes.
    pub fn new(tableau: &[u8], time: f64, state: &[f64]) -> Result<Self, Failure> {
        Self::with_policy(tableau, TimeDifferencePolicy::default(), time, state)
    }

    /// The policy is judged where the time partial is probed.
    pub fn with_policy(
        tableau: &[u8],
        policy: TimeDifferencePolicy,
        time: f64,
        state: &[f64],
    ) -> Result<Self, Failure> {
        let mut memory = Memory::new(state, tableau::stages(tableau));
        let record = calls::new(tableau, policy.into(), time, memory.lend())?;
        Ok(Self {
            file: tableau.to_vec(),
            record,
            written: Written::new(record.fixed.n, record.fixed.s),
            memory,
        })
    }

    /// The accepted time.
    pub fn time(&self) -> f64 {
        reading::time(&self.record, &self.memory).expect(CLOSED)
    }

    /// The accepted state.
    pub fn state(&self) -> &[f64] {
        reading::state(&self.record, &self.memory).expect(CLOSED)
    }

    pub fn statistics(&self) -> StepStatistics {
        reading::statistics(&self.record, &self.memory).expect(CLOSED)
    }

    /// The tableau file's bytes.
    pub fn tableau(&self) -> &[u8] {
        &self.file
    }

    /// The derivative at the accepted time and state, if it is cached.
    pub fn current_derivative(&self) -> Option<&[f64]> {
        reading::derivative(&self.record, &self.memory).expect(CLOSED)
    }

    pub fn copy_state_into(&self, output: &mut [f64]) -> Result<(), Failure> {
        reading::copy_state_into(&self.record, &self.memory, output)
    }

    /// A Jacobian or a time partial that is not handed over is probed.
    pub fn attempt<F, E>(
        &mut self,
        step: f64,
        rhs: &mut F,
        jacobian: Option<&mut DerivativeHook<'_, E>>,
        time_partial: Option<&mut DerivativeHook<'_, E>>,
    ) -> Result<RosenbrockStepView<'_>, StepError<E>>
    where
        F: FnMut(f64, &[f64], &mut [f64]) -> Result<(), E>,
    {
        let modes = modes(&jacobian, &time_partial);
        let lent = self.memory.lend();
        let answer = calls::attempt_in_place(&mut self.record, &self.file, step, modes, lent);
        self.attempted(answer, rhs, jacobian, time_partial)
    }

    /// The proposal cut at the endpoint.
    pub fn attempt_to<F, E>(
        &mut self,
        endpoint: f64,
        proposal: f64,
        rhs: &mut F,
        jacobian: Option<&mut DerivativeHook<'_, E>>,
        time_partial: Option<&mut DerivativeHook<'_, E>>,
    ) -> Result<RosenbrockStepView<'_>, StepError<E>>
    where
        F: FnMut(f64, &[f64], &mut [f64]) -> Result<(), E>,
    {
        let modes = modes(&jacobian, &time_partial);
        let (record, lent) = (&mut self.record, self.memory.lend());
        let answer =
            calls::attempt_to_in_place(record, &self.file, endpoint, proposal, modes, lent);
        self.attempted(answer, rhs, jacobian, time_partial)
    }

    /// Answers the requests of an attempt up to its end.
    fn attempted<F, E>(
        &mut self,
        mut answer: Answer,
        rhs: &mut F,
        mut jacobian: Option<&mut DerivativeHook<'_, E>>,
        mut time_partial: Option<&mut DerivativeHook<'_, E>>,
    ) -> Result<RosenbrockStepView<'_>, StepError<E>>
    where
        F: FnMut(f64, &[f64], &mut [f64]) -> Result<(), E>,
    {
        let open = Open(self);
        while answer? == Told::Asked {
            let stepper = &mut *open.0;
            let ask = Ask::of(&stepper.record).expect("a request");
            let (time, state) = direct::asked_at(&stepper.record, &stepper.memory, ask);
            let values = stepper.written.place(ask);
            let told = match ask {
                Ask::Jacobian => jacobian.as_mut().expect("a Jacobian")(time, state, values),
                Ask::TimePartial => time_partial.as_mut().expect("a partial")(time, state, values),
                _ => rhs(time, state, values),
            };
            told.map_err(StepError::User)?;
            let (record, lent) = (&mut stepper.record, stepper.memory.lend());
            answer = calls::supply_in_place(record, &stepper.file, values, lent);
        }
        // the step is shown, and no attempt is open
        std::mem::forget(open);
        Ok(direct::view(&self.record, &self.memory))
    }

    /// The candidate becomes the accepted state.
    pub fn accept(&mut self) -> Result<(), Failure> {
        calls::accept_in_place(&mut self.record, self.memory.lend()).map(|_| ())
    }

    /// The candidate is dropped; derivative, Jacobian and time partial are kept.
    pub fn reject(&mut self) -> Result<(), Failure> {
        calls::reject_in_place(&mut self.record, self.memory.lend()).map(|_| ())
    }

    /// Hands over the derivative at the accepted time and state.
    pub fn inject_derivative(&mut self, derivative: &[f64]) -> Result<(), Failure> {
        let lent = self.memory.lend();
        calls::inject_derivative(&mut self.record, derivative, lent).map(|_| ())
    }

    /// Starts again, with as many components.
    pub fn reset(&mut self, time: f64, state: &[f64]) -> Result<(), Failure> {
        calls::reset(&mut self.record, time, state, self.memory.lend())?;
        self.written.clear();
        Ok(())
    }
}

fn modes<E>(
    jacobian: &Option<&mut DerivativeHook<'_, E>>,
    time_partial: &Option<&mut DerivativeHook<'_, E>>,
) -> Modes {
    Modes {
        host_jacobian: jacobian.is_some(),
        host_time_partial: time_partial.is_some(),
    }
}

/// A stepper whose attempt may be open. Where it is left so, by an error or a panic of one of the
/// host's functions, the failure is reported.
struct Open<'a>(&'a mut RosenbrockStepper);

impl Drop for Open<'_> {
    fn drop(&mut self) {
        if Ask::of(&self.0.record).is_some() {
            let answer = calls::fail(&mut self.0.record, self.0.memory.lend());
            debug_assert_eq!(answer, Err(Failure::HostFailure));
        }
    }
}
