//! The stepper's calls on records, memory and files of every kind, fit or not, beside a second
//! reading of docs/RULES.md: each call is refused with the number of the first test that holds and
//! changes nothing, or goes on and changes only what it may; and the readers on the same. WIQHANO_SEED
//! sets the seed, WIQHANO_COUNT the number of calls.
mod readers;

use readers::{fits, shape};
use std::collections::BTreeMap;
use wiqhano::Failure;
use wiqhano::random::{self, Random, power, ulp};
use wiqhano::rosenbrock::calls::{self, Bounds, Fixed, Lent, Memo, Modes, Policy, Progress};
use wiqhano::rosenbrock::calls::{Memory, Record, StepStatistics, Told};
use wiqhano::tableau::Coefficients;

// ---- what is handed over

#[derive(Clone, Copy, Debug, PartialEq)]
enum Kind {
    New,
    Attempt,
    AttemptTo,
    Supply,
    AttemptInPlace,
    AttemptToInPlace,
    SupplyInPlace,
    Fail,
    Accept,
    Reject,
    AcceptInPlace,
    RejectInPlace,
    Inject,
    Reset,
}

const KINDS: &[Kind] = &[
    Kind::New,
    Kind::Attempt,
    Kind::AttemptTo,
    Kind::Supply,
    Kind::AttemptInPlace,
    Kind::AttemptToInPlace,
    Kind::SupplyInPlace,
    Kind::Fail,
    Kind::Accept,
    Kind::Reject,
    Kind::AcceptInPlace,
    Kind::RejectInPlace,
    Kind::Inject,
    Kind::Reset,
];

impl Kind {
    fn attempts(self) -> bool {
        use Kind::{Attempt, AttemptInPlace, AttemptTo, AttemptToInPlace};
        matches!(
            self,
            Attempt | AttemptTo | AttemptInPlace | AttemptToInPlace
        )
    }

    fn supplies(self) -> bool {
        matches!(self, Kind::Supply | Kind::SupplyInPlace)
    }
}

/// A file, and what is true of it by the way it was made.
#[derive(Clone, Debug)]
struct File {
    bytes: Vec<u8>,
    broken: bool,
    hybrid: bool,
    stages: usize,
}

/// All that a call is handed. `x` is its step, endpoint or time, `y` its proposal.
#[derive(Clone, Debug)]
struct Case {
    kind: Kind,
    record: Record,
    memory: Memory,
    file: File,
    x: f64,
    y: f64,
    modes: Modes,
    values: Vec<f64>,
}

fn flag(r: &mut Random) -> bool {
    r.chance(50)
}

/// Mostly ordinary.
fn number(r: &mut Random) -> f64 {
    match r.below(30) {
        0 => r.double(),
        1 => r.edge(),
        2 => f64::from_bits(r.bits()),
        3..6 => r.pick(&[0.0, -0.0]),
        6..14 => r.pick(&[1.0, -1.0, 0.5, 2.0]),
        _ => r.unit() * 4.0 - 2.0,
    }
}

fn numbers(r: &mut Random, k: usize) -> Vec<f64> {
    (0..k).map(|_| number(r)).collect()
}

/// So many ordinary numbers, and now and then one that is not finite.
fn finites(r: &mut Random, k: usize) -> Vec<f64> {
    let mut values: Vec<f64> = (0..k).map(|_| r.unit() * 4.0 - 2.0).collect();
    if k > 0 && r.chance(10) {
        let spoilt = r.pick(&[f64::NAN, f64::INFINITY, f64::MAX]);
        values[r.below(k as u64) as usize] = if flag(r) { spoilt } else { r.edge() };
    }
    values
}

/// The length itself, or another where it need not fit.
fn length(r: &mut Random, fits: bool, k: usize) -> usize {
    match r.below(16) {
        _ if fits => k,
        0 => k + 1,
        1 => k.saturating_sub(1),
        2 => r.below(70) as usize,
        _ => k,
    }
}

fn size(r: &mut Random, fits: bool, most: u64) -> usize {
    match r.below(if fits { 16 } else { 24 }) {
        0 => 1 + r.below(most) as usize,
        16 => 0,
        17 => most as usize + 1,
        18 => r.bits() as usize,
        19 => r.pick(&[usize::MAX, usize::MAX / 2 + 1, 1 << 32, 1 << 58]),
        _ => 1 + r.below(most.min(4)) as usize,
    }
}

fn file(r: &mut Random, s: usize) -> File {
    let stages = match r.below(16) {
        0 => 1 + r.below(8) as usize,
        _ => s.clamp(1, 8),
    };
    let hybrid = r.chance(5);
    let mut coefficients = Coefficients {
        hybrid,
        step_doubling: flag(r),
        gamma: number(r),
        a: numbers(r, stages * (stages - 1) / 2),
        coupling: numbers(r, stages * (stages - 1) / 2),
        c: numbers(r, stages),
        d: numbers(r, stages),
        b: numbers(r, stages),
        btilde: flag(r).then(|| numbers(r, stages)),
    };
    let finite = |x: &mut f64| *x = if x.is_finite() { *x } else { 0.5 };
    let c = &mut coefficients;
    finite(&mut c.gamma);
    for part in [&mut c.a, &mut c.coupling, &mut c.c, &mut c.d, &mut c.b] {
        part.iter_mut().for_each(finite);
    }
    c.btilde.iter_mut().flatten().for_each(finite);
    if flag(r) {
        c.c[0] = 0.0;
    }
    let broken = r.chance(6);
    let mut bytes;
    if broken && r.chance(30) {
        c.d[0] = r.pick(&[f64::NAN, f64::INFINITY]);
        bytes = c.file();
    } else {
        bytes = c.file();
        match r.below(5) {
            _ if !broken => {}
            0 => bytes.truncate(r.below(bytes.len() as u64) as usize),
            1 => bytes.push(0),
            2 => bytes[0] = r.pick(&[0, 9, 255]), // stages
            3 => bytes[4 * (1 + r.below(3) as usize)] = 2, // kind, estimator, btilde
            _ => bytes[4 * (4 + r.below(8) as usize)] ^= 8, // an offset, or the length
        }
    }
    File {
        bytes,
        broken,
        hybrid,
        stages,
    }
}

fn policy(r: &mut Random) -> Policy {
    Policy {
        scale: if r.chance(80) { 1.0 } else { number(r) },
        relative_step: if r.chance(80) { power(-20) } else { number(r) },
        maximum_fraction: if r.chance(80) { 0.5 } else { number(r) },
        bounds: Bounds {
            present: r.chance(20),
            lo: number(r),
            hi: number(r),
        },
    }
}

fn counter(r: &mut Random) -> u64 {
    match r.below(4) {
        0 => u64::MAX - r.below(2),
        1 => r.bits(),
        _ => r.below(100),
    }
}

fn record(r: &mut Random, fits: bool) -> Record {
    let (n, s) = (size(r, fits, 32), size(r, fits, 8));
    let request = match r.below(if fits { 22 } else { 24 }) {
        22 => 9,
        23 => r.bits() as u32,
        0..8 => 0,
        8..14 => 1,
        _ => 2 + r.below(7) as u32,
    };
    let below = |r: &mut Random, k: usize| r.below(k.clamp(1, 40) as u64) as usize;
    let stage = match (r.below(24), request) {
        (_, 0..7) if fits => 0,
        (_, 7) if fits => below(r, n),
        (_, 8) if fits => below(r, s),
        (0, _) => 1 + below(r, 40),
        (1, _) => n,
        (2, _) => s,
        (3, _) => r.bits() as usize,
        (_, 7) => below(r, n),
        (_, 8) => below(r, s),
        _ => 0,
    };
    Record {
        fixed: Fixed {
            n,
            s,
            policy: policy(r),
        },
        progress: Progress {
            time: number(r),
            step: number(r),
            end: number(r),
            host_jacobian: flag(r),
            host_time_partial: flag(r),
            request,
            stage,
            memo: Memo {
                derivative_valid: flag(r),
                differentiation_valid: flag(r),
                error_shown: flag(r),
                two_probes: flag(r),
                first_probe: number(r),
                second_probe: number(r),
                request_time: number(r),
            },
        },
        statistics: StepStatistics {
            attempts: counter(r),
            rhs_evaluations: counter(r),
            accepted_steps: counter(r),
            rejected_steps: counter(r),
            jacobian_evaluations: counter(r),
            factorizations: counter(r),
            linear_solves: counter(r),
        },
    }
}

fn case(r: &mut Random) -> Case {
    let kind = r.pick(KINDS);
    // in half of the cases the sizes fit each other, so that the later tests are reached
    let fits = flag(r);
    let record = record(r, fits);
    let file = file(r, record.fixed.s);
    let n = record.fixed.n.min(40);
    let stages = match kind {
        Kind::New => file.stages,
        _ => record.fixed.s.min(9),
    };
    let needed = calls::needed_work(n, stages);
    let work = match r.below(if fits { 10 } else { 12 }) {
        10 => needed.saturating_sub(1),
        11 => r.below(needed as u64 + 1) as usize,
        0..4 => needed + r.below(5) as usize,
        _ => needed,
    };
    let (state, pivots) = (length(r, fits, n), length(r, fits, n));
    let memory = Memory {
        state: if r.chance(90) {
            finites(r, state)
        } else {
            numbers(r, state)
        },
        work: match r.below(10) {
            0..7 => finites(r, work),
            _ => numbers(r, work),
        },
        pivots: (0..pivots)
            .map(|_| match r.below(30) {
                0 => n,
                1 => r.bits() as usize,
                _ => r.below(n.max(1) as u64) as usize,
            })
            .collect(),
    };
    let time = record.progress.time;
    let wanted = if record.progress.request == 3 {
        n * n
    } else {
        n
    };
    let values = match kind.supplies() {
        true => length(r, fits, wanted),
        false => length(r, fits, n),
    };
    let mut case = Case {
        kind,
        x: match r.below(12) {
            0 => time,
            1 => r.double(),
            3 => r.pick(&[f64::MAX, f64::MIN, f64::INFINITY]),
            2 if time.is_finite() => ulp(time) * r.pick(&[0.25, 0.5, 1.0]) * r.sign(),
            _ => number(r),
        },
        y: if r.chance(20) {
            f64::MAX * r.sign()
        } else {
            number(r)
        },
        modes: Modes {
            host_jacobian: flag(r),
            host_time_partial: flag(r),
        },
        values: finites(r, values),
        record,
        memory,
        file,
    };
    if fits && !case.file.broken && r.chance(8) {
        case.stop_at_factors(r.pick(&[1.0, f64::NAN]));
    }
    case
}

// ---- the second reading

fn all_finite(values: &[f64]) -> bool {
    values.iter().all(|x| x.is_finite())
}

fn checked_time(time: f64, step: f64) -> Option<u32> {
    if !all_finite(&[time, step, time + step]) {
        return Some(2);
    }
    (step != 0.0 && time + step == time).then_some(5)
}

fn endpoint_step(time: f64, endpoint: f64, proposal: f64) -> Result<f64, u32> {
    if !all_finite(&[time, endpoint, proposal]) {
        return Err(2);
    }
    let remaining = endpoint - time;
    if remaining == 0.0 {
        return Ok(0.0);
    }
    if proposal == 0.0 || (remaining > 0.0) != (proposal > 0.0) {
        return Err(4);
    }
    let step = if proposal.abs() > remaining.abs() {
        remaining
    } else {
        proposal
    };
    checked_time(time, step).map_or(Ok(step), Err)
}

impl Case {
    /// The matrix is 0, or not finite: the Jacobian has a 1 or a NaN along its diagonal and else
    /// zeros, step and gamma are 1.
    fn stop_at_factors(&mut self, diagonal: f64) {
        let n = self.record.fixed.n;
        let progress = &mut self.record.progress;
        (progress.time, progress.step) = (0.0, 1.0);
        (self.x, self.y) = (1.0, 1.0);
        progress.memo.derivative_valid = true;
        progress.memo.differentiation_valid = true;
        self.file.bytes[48..56].copy_from_slice(&1_f64.to_le_bytes());
        if let Some(jacobian) = self.memory.work.get_mut(8 * n..8 * n + n * n) {
            jacobian.fill(0.0);
            let diagonals = jacobian.iter_mut().step_by(n + 1);
            diagonals.for_each(|x| *x = diagonal);
        }
    }

    /// The step that an attempt is handed.
    fn step(&self) -> Result<f64, u32> {
        match self.kind {
            Kind::AttemptTo | Kind::AttemptToInPlace => {
                endpoint_step(self.record.progress.time, self.x, self.y)
            }
            _ => Ok(self.x),
        }
    }

    /// The refusal before anything is changed.
    fn refusal(&self) -> Option<u32> {
        let (fixed, progress) = (&self.record.fixed, &self.record.progress);
        let (n, s) = (fixed.n, fixed.s);
        let when = |number: u32, holds: bool| holds.then_some(number);
        if self.kind == Kind::New {
            let n = self.memory.state.len();
            return when(12, self.file.broken)
                .or(when(1, !shape(n, self.file.stages, &self.memory)))
                .or(when(2, !all_finite(&self.memory.state)))
                .or(when(2, !self.x.is_finite()))
                .or(when(3, self.file.hybrid));
        }
        let takes_file = self.kind.attempts() || self.kind.supplies();
        let first = when(1, !fits(&self.record, &self.memory))
            .or(when(12, takes_file && self.file.broken))
            .or(when(3, takes_file && self.file.hybrid))
            .or(when(1, takes_file && self.file.stages != s));
        let (open, pending) = (progress.request > 1, progress.request == 1);
        let values = self.values.len();
        first.or_else(|| match self.kind {
            Kind::New => None,
            Kind::Attempt | Kind::AttemptTo | Kind::AttemptInPlace | Kind::AttemptToInPlace => {
                when(18, open).or_else(|| match self.step() {
                    Err(number) => Some(number),
                    Ok(step) => when(14, pending).or_else(|| checked_time(progress.time, step)),
                })
            }
            Kind::Supply | Kind::SupplyInPlace => {
                let wanted = if progress.request == 3 { n * n } else { n };
                let rows = self.memory.pivots.iter().all(|p| *p < n);
                when(17, !open)
                    .or(when(1, values != wanted))
                    .or(when(13, progress.request == 8 && !rows))
            }
            Kind::Fail => when(17, !open),
            Kind::Accept | Kind::Reject | Kind::AcceptInPlace | Kind::RejectInPlace => {
                when(18, open).or(when(15, !pending))
            }
            Kind::Inject => when(18, open)
                .or(when(14, pending))
                .or(when(1, values != n))
                .or(when(2, !all_finite(&self.values))),
            Kind::Reset => when(18, open)
                .or(when(1, values != n))
                .or(when(2, !all_finite(&self.values)))
                .or(when(2, !self.x.is_finite())),
        })
    }

    fn call(&self, record: &mut Record, memory: &mut Memory) -> calls::Answer {
        let (file, lent) = (&self.file.bytes[..], memory.lend());
        self.call_on(record, file, lent)
    }

    fn call_on(&self, record: &mut Record, file: &[u8], lent: Lent<'_>) -> calls::Answer {
        let (x, y, modes, values) = (self.x, self.y, self.modes, &self.values);
        match self.kind {
            Kind::New => {
                let made = calls::new(file, record.fixed.policy, x, lent);
                made.map(|made| {
                    *record = made;
                    Told::Done
                })
            }
            Kind::Attempt => calls::attempt(record, file, x, modes, lent),
            Kind::AttemptTo => calls::attempt_to(record, file, x, y, modes, lent),
            Kind::Supply => calls::supply(record, file, values, lent),
            Kind::AttemptInPlace => calls::attempt_in_place(record, file, x, modes, lent),
            Kind::AttemptToInPlace => calls::attempt_to_in_place(record, file, x, y, modes, lent),
            Kind::SupplyInPlace => calls::supply_in_place(record, file, values, lent),
            Kind::Fail => calls::fail(record, lent),
            Kind::Accept => calls::accept(record, lent),
            Kind::Reject => calls::reject(record, lent),
            Kind::AcceptInPlace => calls::accept_in_place(record, lent),
            Kind::RejectInPlace => calls::reject_in_place(record, lent),
            Kind::Inject => calls::inject_derivative(record, values, lent),
            Kind::Reset => calls::reset(record, x, values, lent),
        }
    }
}

// ---- what is left

/// Every field of the record as bits.
fn bits(record: &Record) -> Vec<u64> {
    let (fixed, progress, t) = (&record.fixed, &record.progress, &record.statistics);
    let (policy, memo) = (&fixed.policy, &progress.memo);
    vec![
        fixed.n as u64,
        fixed.s as u64,
        policy.scale.to_bits(),
        policy.relative_step.to_bits(),
        policy.maximum_fraction.to_bits(),
        policy.bounds.present.into(),
        policy.bounds.lo.to_bits(),
        policy.bounds.hi.to_bits(),
        progress.time.to_bits(),
        progress.step.to_bits(),
        progress.end.to_bits(),
        progress.host_jacobian.into(),
        progress.host_time_partial.into(),
        progress.request.into(),
        progress.stage as u64,
        memo.derivative_valid.into(),
        memo.differentiation_valid.into(),
        memo.error_shown.into(),
        memo.two_probes.into(),
        memo.first_probe.to_bits(),
        memo.second_probe.to_bits(),
        memo.request_time.to_bits(),
        t.attempts,
        t.rhs_evaluations,
        t.accepted_steps,
        t.rejected_steps,
        t.jacobian_evaluations,
        t.factorizations,
        t.linear_solves,
    ]
}

fn same(a: &[f64], b: &[f64]) -> bool {
    a.len() == b.len() && a.iter().zip(b).all(|(x, y)| x.to_bits() == y.to_bits())
}

fn same_memory(a: &Memory, b: &Memory) -> bool {
    same(&a.state, &b.state) && same(&a.work, &b.work) && a.pivots == b.pivots
}

fn fresh(record: &mut Record, time: f64) {
    let zeros = Memo {
        derivative_valid: false,
        differentiation_valid: false,
        error_shown: false,
        two_probes: false,
        first_probe: 0.0,
        second_probe: 0.0,
        request_time: 0.0,
    };
    record.progress = Progress {
        time,
        step: 0.0,
        end: 0.0,
        host_jacobian: false,
        host_time_partial: false,
        request: 0,
        stage: 0,
        memo: zeros,
    };
}

/// What is wrong with what a call left, if anything.
fn judged(
    case: &Case,
    answer: calls::Answer,
    record: &Record,
    memory: &Memory,
) -> Result<(), String> {
    let is = |holds: bool, words: &str| {
        if holds {
            Ok(())
        } else {
            Err(words.to_string())
        }
    };
    if let Some(number) = case.refusal() {
        let told = answer.err().map_or(0, Failure::number);
        is(told == number, &format!("{number} was expected"))?;
        is(bits(record) == bits(&case.record), "the record was changed")?;
        return is(same_memory(memory, &case.memory), "the memory was changed");
    }
    // it goes on: what it may change is set right in copies, and then all is equal
    let (mut like, mut lent) = (case.record, case.memory.clone());
    let needed = |r: &Record| calls::needed_work(r.fixed.n, r.fixed.s);
    let (n, statistics) = (like.fixed.n, like.statistics);
    let expected = match case.kind {
        Kind::New => {
            like.fixed.n = lent.state.len();
            like.fixed.s = case.file.stages;
            like.statistics = StepStatistics::default();
            fresh(&mut like, case.x);
            lent.work[..needed(&like)].fill(0.0);
            lent.pivots.fill(0);
            Ok(Told::Done)
        }
        Kind::Fail => {
            (like.progress.request, like.progress.stage) = (0, 0);
            Err(Failure::HostFailure)
        }
        Kind::Accept | Kind::AcceptInPlace => {
            let progress = &mut like.progress;
            let same = progress.step == 0.0;
            progress.request = 0;
            progress.memo.derivative_valid &= same;
            progress.memo.differentiation_valid &= same;
            progress.time += progress.step;
            if progress.time.is_nan() && record.progress.time.is_nan() {
                progress.time = record.progress.time;
            }
            let accepted = statistics.accepted_steps;
            like.statistics.accepted_steps = accepted.saturating_add(1);
            lent.state.copy_from_slice(&case.memory.work[..n]);
            Ok(Told::Done)
        }
        Kind::Reject | Kind::RejectInPlace => {
            like.progress.request = 0;
            let rejected = statistics.rejected_steps;
            like.statistics.rejected_steps = rejected.saturating_add(1);
            Ok(Told::Done)
        }
        Kind::Inject => {
            like.progress.memo.derivative_valid = true;
            like.progress.memo.differentiation_valid = false;
            lent.work[3 * n..4 * n].copy_from_slice(&case.values);
            Ok(Told::Done)
        }
        Kind::Reset => {
            fresh(&mut like, case.x);
            lent.state.copy_from_slice(&case.values);
            lent.work[..needed(&like)].fill(0.0);
            lent.pivots.fill(0);
            Ok(Told::Done)
        }
        _ => {
            if case.kind.attempts() {
                let end = like.progress.time + case.step().expect("it was not refused");
                like.progress.step = end - like.progress.time;
                like.progress.end = end;
                like.progress.host_jacobian = case.modes.host_jacobian;
                like.progress.host_time_partial = case.modes.host_time_partial;
                like.statistics.attempts = statistics.attempts.saturating_add(1);
            }
            let (request, stage) = (record.progress.request, record.progress.stage);
            let fits = match answer {
                Ok(Told::Asked) => match request {
                    2..=6 => stage == 0,
                    7 => stage < n,
                    8 => stage < like.fixed.s,
                    _ => false,
                },
                Ok(Told::Shown) => (request, stage) == (1, 0),
                Ok(Told::Done) => false,
                Err(_) => (request, stage) == (0, 0),
            };
            is(fits, "request and stage do not fit the answer")?;
            // each counts once at most, and there is no other change in them
            let (now, like) = (&record.statistics, &mut like.statistics);
            for (now, like) in [
                (now.rhs_evaluations, &mut like.rhs_evaluations),
                (now.jacobian_evaluations, &mut like.jacobian_evaluations),
                (now.factorizations, &mut like.factorizations),
                (now.linear_solves, &mut like.linear_solves),
            ] {
                if now == like.saturating_add(1) {
                    *like = now;
                }
            }
            let k = needed(&case.record);
            lent.work[..k].copy_from_slice(&memory.work[..k]);
            lent.pivots.copy_from_slice(&memory.pivots);
            answer
        }
    };
    if case.kind.attempts() || case.kind.supplies() {
        let number = answer.err().map_or(0, Failure::number);
        is([0, 2, 4, 5, 6].contains(&number), "no such refusal here")?;
        like.progress.request = record.progress.request;
        like.progress.stage = record.progress.stage;
        like.progress.memo = record.progress.memo;
    }
    is(answer == expected, "another answer")?;
    is(bits(record) == bits(&like), "the record is another")?;
    is(same_memory(memory, &lent), "the memory is another")
}

/// The refusals of each call before it goes on, and how it goes on.
const CLASSES: &[(Kind, &[u32], &[&str])] = &[
    (Kind::New, &[1, 2, 3, 12], &["done"]),
    (
        Kind::Attempt,
        &[1, 2, 3, 5, 12, 14, 18],
        &["asked", "shown", "ended 2", "ended 6"],
    ),
    (
        Kind::AttemptTo,
        &[1, 2, 3, 4, 5, 12, 14, 18],
        &["asked", "shown", "ended 2", "ended 6"],
    ),
    (
        Kind::Supply,
        &[1, 3, 12, 13, 17],
        &["asked", "shown", "ended 2", "ended 4", "ended 6"],
    ),
    (
        Kind::AttemptInPlace,
        &[1, 2, 3, 5, 12, 14, 18],
        &["asked", "shown", "ended 2", "ended 6"],
    ),
    (
        Kind::AttemptToInPlace,
        &[1, 2, 3, 4, 5, 12, 14, 18],
        &["asked", "shown", "ended 2", "ended 6"],
    ),
    (
        Kind::SupplyInPlace,
        &[1, 3, 12, 13, 17],
        &["asked", "shown", "ended 2", "ended 4", "ended 6"],
    ),
    (Kind::Fail, &[1, 17], &["ended 19"]),
    (Kind::Accept, &[1, 15, 18], &["done"]),
    (Kind::Reject, &[1, 15, 18], &["done"]),
    (Kind::AcceptInPlace, &[1, 15, 18], &["done"]),
    (Kind::RejectInPlace, &[1, 15, 18], &["done"]),
    (Kind::Inject, &[1, 2, 14, 18], &["done"]),
    (Kind::Reset, &[1, 2, 18], &["done"]),
];

#[test]
fn random_calls() {
    let (seed, count) = (random::seed(), random::count(100_000));
    println!("seed {seed}");
    let mut random = Random::new(seed);
    let mut wrong = 0;
    let mut classes: BTreeMap<String, usize> = BTreeMap::new();
    for _ in 0..count {
        let case = case(&mut random);
        let (mut record, mut memory) = (case.record, case.memory.clone());
        let answer = case.call(&mut record, &mut memory);
        let class = match (answer, case.refusal()) {
            (Err(failure), None) => format!("ended {}", failure.number()),
            (Err(failure), _) => failure.number().to_string(),
            (Ok(told), _) => format!("{told:?}").to_lowercase(),
        };
        *classes
            .entry(format!("{:?} {class}", case.kind))
            .or_default() += 1;
        if let Err(words) = judged(&case, answer, &record, &memory) {
            wrong += 1;
            if wrong <= 10 {
                println!(
                    "{words}: {answer:?}, seed {seed}\n  {case:?}\n  {record:?}\n  {memory:?}"
                );
            }
        }
    }
    println!("{classes:?}");
    println!("compared hostile calls {count} differing {wrong}");
    assert_eq!(wrong, 0);
    for (kind, refusals, others) in CLASSES {
        let refusals = refusals.iter().map(|number| number.to_string());
        for class in refusals.chain(others.iter().map(|class| class.to_string())) {
            let met = classes.get(&format!("{kind:?} {class}")).copied();
            let met = met.unwrap_or(0);
            let often = count / 20_000;
            assert!(met >= often, "{kind:?} {class}: only {met}, seed {seed}");
        }
    }
}

/// What each reader may tell: a refusal's number, or something.
const READERS: &[(&str, &[u32])] = &[
    ("request", &[0, 1, 17]),
    ("time", &[0, 1, 18]),
    ("state", &[0, 1, 18]),
    ("derivative", &[0, 1, 18]),
    ("statistics", &[0, 1, 18]),
    ("copy", &[0, 1, 18]),
    ("start", &[0, 1, 15, 18]),
    ("end", &[0, 1, 15, 18]),
    ("candidate", &[0, 1, 15, 18]),
    ("error", &[0, 1, 15, 18]),
    ("stages", &[0, 1, 15, 18]),
    ("rhs_stages", &[0, 1, 15, 18]),
    ("jacobian", &[0, 1, 15, 18]),
    ("time_partial", &[0, 1, 15, 18]),
    ("stage", &[0, 1, 15, 18]),
    ("rhs_stage", &[0, 1, 15, 18]),
];

/// A reader tells a refusal's number, or what stands at a place inside the memory that is
/// lent, and changes nothing.
#[test]
fn random_readings() {
    let (seed, count) = (random::seed(), random::count(100_000));
    println!("seed {seed}");
    let random = &mut Random::new(seed);
    let mut classes: BTreeMap<(String, u32), usize> = BTreeMap::new();
    let (mut read, mut wrong) = (0, 0);
    for _ in 0..count {
        let mut case = case(random);
        if random.chance(5) {
            case.record.progress.step = random.pick(&[0.0, -0.0]);
        }
        let (record, memory) = (&case.record, case.memory.clone());
        let (n, s) = (record.fixed.n.min(40), record.fixed.s);
        let indices = [
            random.below(8) as usize,
            s.wrapping_sub(1),
            s,
            random.bits() as usize,
            usize::MAX,
        ];
        let lengths = [n, n + 1, n.saturating_sub(1), random.below(40) as usize];
        let told = readers::told(record, &memory, &indices, &lengths);
        read += told.len();
        for (name, told) in &told {
            let name = name.split(' ').next().unwrap_or_default();
            let number = told.as_ref().err().copied().unwrap_or(0);
            *classes.entry((name.into(), number)).or_default() += 1;
        }
        let expected = readers::expected(record, &memory, &indices, &lengths);
        if told != expected || !same_memory(&memory, &case.memory) {
            wrong += 1;
            if wrong <= 10 {
                println!("seed {seed}\n  {case:?}\n  {told:?}\n  {expected:?}");
            }
        }
    }
    println!("compared hostile readings {read} differing {wrong}");
    assert_eq!(wrong, 0);
    for (name, numbers) in READERS {
        for number in *numbers {
            let met = classes.remove(&(name.to_string(), *number)).unwrap_or(0);
            let often = count / 20_000;
            assert!(met >= often, "{name} {number}: only {met}, seed {seed}");
        }
    }
    assert!(
        classes.is_empty(),
        "other answers, seed {seed}: {classes:?}"
    );
}

/// Each length off by one, each number of the record out of range: 1 from every call and every reader,
/// and nothing changed.
#[test]
fn what_does_not_fit_is_refused_by_every_call() {
    let mut random = Random::new(1);
    for kind in KINDS.iter().filter(|kind| **kind != Kind::New) {
        for change in 0..14 {
            let mut case = loop {
                let mut case = case(&mut random);
                case.kind = *kind;
                if case.refusal().is_none() {
                    break case;
                }
            };
            let (memory, record) = (&mut case.memory, &mut case.record);
            let needed = calls::needed_work(record.fixed.n, record.fixed.s);
            match change {
                0 => memory.state.push(1.0),
                1 => drop(memory.state.pop()),
                2 => memory.work.truncate(needed - 1),
                3 => memory.work.clear(),
                4 => memory.pivots.push(0),
                5 => drop(memory.pivots.pop()),
                6 => record.fixed.n += 1,
                7 => record.fixed.n = 0,
                8 => record.fixed.n = usize::MAX,
                9 => record.fixed.s = 0,
                10 => record.fixed.s = 9,
                11 => record.fixed.s = usize::MAX,
                12 => record.progress.request = 9,
                _ => record.progress.stage = 32,
            }
            let (mut record, mut memory) = (case.record, case.memory.clone());
            let answer = case.call(&mut record, &mut memory);
            assert_eq!(answer, Err(Failure::Dimension), "{kind:?} {change}");
            assert_eq!(judged(&case, answer, &record, &memory), Ok(()));
            for (name, told) in readers::told(&record, &memory, &[0], &[record.fixed.n.min(40)]) {
                assert_eq!(told, Err(1), "{name} {change}");
            }
            assert!(same_memory(&memory, &case.memory), "{change}");
        }
    }
}

/// The counters stay at the largest value.
#[test]
fn counters_stay_at_the_largest_value() {
    let file = Coefficients::pond().file();
    let mut memory = Memory::new(&[1.0], 1);
    let policy = wiqhano::TimeDifferencePolicy::default();
    let mut record = calls::new(&file, policy.into(), 0.0, memory.lend()).unwrap();
    let full = StepStatistics {
        attempts: u64::MAX,
        rhs_evaluations: u64::MAX,
        accepted_steps: u64::MAX,
        rejected_steps: u64::MAX,
        jacobian_evaluations: u64::MAX,
        factorizations: u64::MAX,
        linear_solves: u64::MAX,
    };
    record.statistics = full;
    let modes = Modes {
        host_jacobian: true,
        host_time_partial: true,
    };
    for accepted in [false, true] {
        let mut answer = calls::attempt(&mut record, &file, 1.0, modes, memory.lend());
        while answer == Ok(Told::Asked) {
            answer = calls::supply(&mut record, &file, &[-1.0], memory.lend());
        }
        assert_eq!(answer, Ok(Told::Shown));
        let decide = if accepted {
            calls::accept
        } else {
            calls::reject
        };
        assert_eq!(decide(&mut record, memory.lend()), Ok(Told::Done));
    }
    assert_eq!(record.statistics, full);
}
