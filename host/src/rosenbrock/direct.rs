//! The request and the pending step straight from the record and its memory, at the places that the
//! library documents (rosenbrock/specs/Readers.antt, stages/specs/Layout.antt): for the wrapper's own
//! attempts, which a call for each would slow. Only a record that the library made, with its own
//! memory, is read. The tests hold both to what the readers tell.
use super::RosenbrockStepView;
use super::calls::{Ask, Memory, Record, needed_work};
use super::reading::{Asked, Request};
use std::ops::Range;

/// None where no attempt is open.
pub fn request<'a>(record: &Record, memory: &'a Memory) -> Option<Request<'a>> {
    let ask = Ask::of(record)?;
    let (time, state) = asked_at(record, memory, ask);
    Some(Request {
        asked: match ask {
            Ask::Jacobian => Asked::Jacobian,
            Ask::TimePartial => Asked::TimePartial,
            _ => Asked::Derivative,
        },
        time,
        state,
    })
}

/// The time and the state at which it is asked.
#[inline(always)]
pub fn asked_at<'a>(record: &Record, memory: &'a Memory, ask: Ask) -> (f64, &'a [f64]) {
    let state = match ask {
        Ask::Column(_) => part(record, memory, Part::ProbeState),
        Ask::Stage(_) => part(record, memory, Part::StageState),
        _ => &memory.state,
    };
    (record.progress.memo.request_time, state)
}

/// The step that a pending candidate belongs to.
pub fn view<'a>(record: &Record, memory: &'a Memory) -> RosenbrockStepView<'a> {
    let progress = &record.progress;
    let shown = |which| {
        if progress.step == 0.0 {
            &[]
        } else {
            part(record, memory, which)
        }
    };
    let error = progress.memo.error_shown;
    RosenbrockStepView {
        previous_state: &memory.state,
        start_time: progress.time,
        end_time: progress.end,
        candidate: part(record, memory, Part::Candidate),
        component_error: error.then(|| part(record, memory, Part::Error)),
        solved_stages: shown(Part::Stages),
        stage_derivatives: shown(Part::RhsStages),
        jacobian: shown(Part::Jacobian),
        time_partial: shown(Part::TimePartial),
        statistics: record.statistics,
        dimension: record.fixed.n,
    }
}

/// The parts of the work, in their order.
#[derive(Clone, Copy, Debug)]
pub enum Part {
    Candidate,
    Error,
    StageState,
    Current,
    TimePartial,
    ProbeState,
    ProbeRhs,
    LinearRhs,
    Jacobian,
    Factors,
    Stages,
    RhsStages,
}

#[inline(always)]
pub fn part<'a>(record: &Record, memory: &'a Memory, which: Part) -> &'a [f64] {
    &memory.work[place(record.fixed.n, record.fixed.s, which)]
}

#[inline(always)]
fn place(n: usize, s: usize, which: Part) -> Range<usize> {
    let k = which as usize;
    match which {
        Part::Jacobian => 8 * n..8 * n + n * n,
        Part::Factors => 8 * n + n * n..8 * n + 2 * n * n,
        Part::Stages => 8 * n + 2 * n * n..8 * n + 2 * n * n + s * n,
        Part::RhsStages => 8 * n + 2 * n * n + s * n..needed_work(n, s),
        _ => k * n..(k + 1) * n,
    }
}
