//! The port's time beside the original's, call by call, in one run: the same inputs, batches of the
//! two by turns, the median of each. It prints, and judges nothing. Words that it is handed choose the
//! calls whose names have them all.
use differential_equations::stepping as original;
use differential_equations::tableau as original_tableau;
use std::hint::black_box;
use std::time::Instant;
use wiqhano::random::Random;

/// The original's file, for `partial`, which its crate does not export. `partial` reaches neither
/// of the two names that the file takes from its parent.
mod inner {
    use differential_equations::stepping::StepFailure;

    fn finite(_: &[f64]) -> Result<(), StepFailure> {
        unreachable!()
    }
    fn checked_time(_: f64, _: f64) -> Result<f64, StepFailure> {
        unreachable!()
    }
    #[allow(dead_code)]
    pub mod time_difference {
        include!("../../../../shared/docs/src/src/stepping/time_difference.rs");
    }
}

/// The original's file, which keeps its calls to its own crate; `SolveError` is what it takes from
/// there.
#[allow(dead_code)]
mod original_linear {
    include!("../../../../shared/docs/src/src/linear.rs");
}
#[derive(Debug)]
pub enum SolveError {
    SingularLinearSystem,
}

/// The original's norm, cut out by build.rs, and the two settings that it reads.
mod original_norm {
    pub struct SolveOptions {
        pub absolute_tolerance: f64,
        pub relative_tolerance: f64,
    }
    include!(concat!(env!("OUT_DIR"), "/norm.rs"));

    #[inline(never)]
    pub fn norm(state: &[f64], candidate: &[f64], error: &[f64], options: &SolveOptions) -> f64 {
        scaled_error_norm(state, candidate, error, options)
    }
}

/// The original's segment, with the two names that its file takes from its parent, and the three
/// that its owning form, which is not measured, takes from the crate.
use differential_equations::{DenseSegmentData, InterpolationQuality, PortableDenseSegment};
#[allow(dead_code)]
mod solution {
    pub use differential_equations::InterpolationError;
    pub mod dense {
        use super::InterpolationError;
        pub trait DenseSegment {
            fn interpolate(&self, time: f64, output: &mut [f64]) -> Result<(), InterpolationError>;
        }
        fn validate_dense_query(
            contains_time: bool,
            output_dimension: usize,
            state_dimension: usize,
        ) -> Result<(), InterpolationError> {
            match (output_dimension == state_dimension, contains_time) {
                (false, _) => Err(InterpolationError::DimensionMismatch),
                (true, false) => Err(InterpolationError::OutsideTimeSpan),
                (true, true) => Ok(()),
            }
        }
        pub mod stiff {
            include!("../../../../shared/docs/src/src/solution/dense/stiff.rs");
        }
    }
}
use solution::dense::DenseSegment;
use solution::dense::stiff::BorrowedStiffSegment;

const INPUTS: usize = 4096;
const BATCHES: usize = 201;

/// Nanoseconds a call, over one batch of all inputs.
fn batch<I, T>(inputs: &[I], mut call: impl FnMut(&I) -> T) -> f64 {
    let began = Instant::now();
    for input in inputs {
        black_box(call(black_box(input)));
    }
    began.elapsed().as_nanos() as f64 / inputs.len() as f64
}

fn median(mut times: Vec<f64>) -> f64 {
    times.sort_by(f64::total_cmp);
    times[times.len() / 2]
}

fn chosen(name: &str) -> bool {
    std::env::args().skip(1).all(|word| name.contains(&word))
}

fn beside<I, T, U>(
    name: &str,
    inputs: &[I],
    mut port: impl FnMut(&I) -> T,
    mut original: impl FnMut(&I) -> U,
) {
    if !chosen(name) {
        return;
    }
    let (mut ports, mut originals) = (Vec::new(), Vec::new());
    for _ in 0..BATCHES {
        ports.push(batch(inputs, &mut port));
        originals.push(batch(inputs, &mut original));
    }
    let (port, original) = (median(ports), median(originals));
    let ratio = port / original;
    println!("{name:<17} port {port:8.2} ns  original {original:8.2} ns  ratio {ratio:.2}");
}

/// A call that the original has nothing beside.
fn alone<I, T>(name: &str, inputs: &[I], mut port: impl FnMut(&I) -> T) {
    if !chosen(name) {
        return;
    }
    let port = median((0..BATCHES).map(|_| batch(inputs, &mut port)).collect());
    println!("{name:<17} port {port:8.2} ns");
}

// Not inlined, as the port's calls, which stand behind a C interface, cannot be.
#[inline(never)]
fn original_sqrt(x: f64) -> f64 {
    x.sqrt()
}
#[inline(never)]
fn original_endpoint_step(time: f64, end: f64, step: f64) -> Result<f64, original::StepFailure> {
    original::endpoint_step(time, end, step)
}
#[inline(never)]
fn original_probes(
    policy: original::TimeDifferencePolicy,
    time: f64,
    step: f64,
) -> Result<(f64, Option<f64>), original::StepFailure> {
    policy.probes(time, step)
}
#[inline(never)]
fn original_partial(base: f64, first: f64, second: Option<f64>, d1: f64, d2: Option<f64>) -> f64 {
    inner::time_difference::partial(base, first, second, d1, d2)
}

#[inline(never)]
fn original_factorize(m: &mut [f64], pivots: &mut [usize], n: usize) -> Result<(), SolveError> {
    original_linear::factorize(m, pivots, n)
}
#[inline(never)]
fn original_solve(factors: &[f64], pivots: &[usize], x: &mut [f64], n: usize) {
    original_linear::solve_factorized(factors, pivots, x, n)
}

/// factorize, raw as the original's, and solve; both sides copy their input first.
fn linear(random: &mut Random) {
    for n in [1, 2, 4, 8, 16, 32] {
        let count = (INPUTS / (n * n)).max(16);
        let matrices: Vec<Vec<f64>> = (0..count)
            .map(|_| (0..n * n).map(|_| random.unit() * 2.0 - 1.0).collect())
            .collect();
        let (mut m, mut pivots) = (vec![0.0; n * n], vec![0; n]);
        let (mut l, mut q) = (vec![0.0; n * n], vec![0; n]);
        beside(
            &format!("factorize {n}"),
            &matrices,
            |a| {
                m.copy_from_slice(a);
                wiqhano::linear::factorize_raw(&mut m, &mut pivots, n)
            },
            |a| {
                l.copy_from_slice(a);
                original_factorize(&mut l, &mut q, n)
            },
        );
        let factored: Vec<(Vec<f64>, Vec<usize>, Vec<f64>)> = matrices
            .iter()
            .map(|a| {
                let (mut f, mut p) = (a.clone(), vec![0; n]);
                wiqhano::linear::factorize(&mut f, &mut p, n).expect("a random matrix has factors");
                (f, p, (0..n).map(|_| random.unit()).collect())
            })
            .collect();
        let (mut x, mut y) = (vec![0.0; n], vec![0.0; n]);
        beside(
            &format!("solve {n}"),
            &factored,
            |(f, p, b)| {
                x.copy_from_slice(b);
                wiqhano::linear::solve(f, p, &mut x, n)
            },
            |(f, p, b)| {
                y.copy_from_slice(b);
                original_solve(f, p, &mut y, n)
            },
        );
    }
}

#[inline(never)]
fn original_assess(
    controller: &mut original::AdaptiveController,
    step: f64,
    error: f64,
) -> Result<original::StepDecision, original::ControllerError> {
    controller.assess(step, error)
}
#[inline(never)]
fn port_assess(
    controller: &mut wiqhano::controller::AdaptiveController,
    step: f64,
    error: f64,
) -> Result<wiqhano::controller::StepDecision, wiqhano::controller::ControllerError> {
    controller.assess(step, error)
}
#[inline(never)]
fn original_initial_step(
    [state, derivative, scales]: [&[f64]; 3],
    direction: f64,
    maximum: f64,
) -> Result<f64, original::StepFailure> {
    original::initial_step(state, derivative, scales, direction, maximum)
}
#[inline(never)]
fn original_interpolate(
    ends: [f64; 2],
    states: [&[f64]; 3],
    order: usize,
    time: f64,
    out: &mut [f64],
) -> bool {
    let [start, end] = ends;
    let [y, z, c] = states;
    let segment = BorrowedStiffSegment::new(start, end, y, z, c, order);
    segment.is_ok_and(|s| s.interpolate(time, out).is_ok())
}

/// assess with its powers, the norm, the first step, and interpolation.
fn beside_the_stepper(random: &mut Random) {
    let errors: Vec<[f64; 2]> = (0..INPUTS)
        .map(|_| [0.01 + random.unit(), random.unit() * 1.5])
        .collect();
    for (name, order) in [("assess P", 4), ("assess PI", 0)] {
        let mut port = match order {
            0 => wiqhano::controller::ControllerConfig::pi(0.14, 0.08),
            n => wiqhano::controller::ControllerConfig::proportional(n).expect("an order"),
        };
        port.minimum_step = 0.0;
        let mut port = wiqhano::controller::AdaptiveController::new(port, 1.0).expect("settings");
        let like = match order {
            0 => original::ControllerConfig::pi(0.14, 0.08),
            n => original::ControllerConfig::proportional(n as usize).expect("an order"),
        };
        let mut like = original::AdaptiveController::new(like, 1.0).expect("settings");
        beside(
            name,
            &errors,
            |&[step, error]| port_assess(&mut port, step, error),
            |&[step, error]| original_assess(&mut like, step, error),
        );
    }
    let options = original_norm::SolveOptions {
        absolute_tolerance: 1e-6,
        relative_tolerance: 1e-3,
    };
    for n in [1, 2, 4, 8, 16, 32] {
        let count = (INPUTS / n).max(64);
        let mut vector = |k: usize| -> Vec<f64> { (0..k).map(|_| random.unit() - 0.5).collect() };
        let states: Vec<[Vec<f64>; 3]> = (0..count)
            .map(|_| [vector(n), vector(n), vector(3 * n)])
            .collect();
        beside(
            &format!("norm {n}"),
            &states,
            |[y, z, e]| wiqhano::scaled_error_norm(y, z, &e[..n], 1e-6, 1e-3),
            |[y, z, e]| original_norm::norm(y, z, &e[..n], &options),
        );
        let scales = vec![1e-3; n];
        beside(
            &format!("initial_step {n}"),
            &states,
            |[y, z, _]| wiqhano::initial_step(y, z, &scales, 1.0, 10.0),
            |[y, z, _]| original_initial_step([y, z, &scales], 1.0, 10.0),
        );
        let (mut a, mut b) = (vec![0.0; n], vec![0.0; n]);
        beside(
            &format!("interpolate {n}"),
            &states,
            |[y, z, c]| {
                let segment = wiqhano::StiffSegment {
                    start_time: 0.0,
                    end_time: 1.0,
                    start_state: y,
                    end_state: z,
                    corrections: c,
                    order: 3,
                };
                segment.interpolate(0.25, &mut a)
            },
            |[y, z, c]| original_interpolate([0.0, 1.0], [y, z, c], 3, 0.25, &mut b),
        );
    }
}

/// What an attempt is handed and is answered.
struct Attempt {
    step: f64,
    derivative: Vec<f64>,
    jacobian: Vec<f64>,
    time_partial: Vec<f64>,
}

fn copying(values: &[f64]) -> impl FnMut(f64, &[f64], &mut [f64]) -> Result<(), ()> {
    |_, _, out| {
        out.copy_from_slice(values);
        Ok(())
    }
}

/// The same for both sides: the attempt, and whether it showed its step.
macro_rules! attempted {
    ($stepper:expr, $input:expr) => {{
        let mut rhs = copying(&$input.derivative);
        let mut jacobian = copying(&$input.jacobian);
        let mut partial = copying(&$input.time_partial);
        let hooks = (Some(&mut jacobian as _), Some(&mut partial as _));
        $stepper
            .attempt($input.step, &mut rhs, hooks.0, hooks.1)
            .is_ok()
    }};
}

fn rows(lower: &[f64], s: usize) -> Vec<Vec<f64>> {
    let row = |i: usize| {
        (0..s).map(move |j| {
            if j < i {
                lower[i * (i - 1) / 2 + j]
            } else {
                0.0
            }
        })
    };
    (0..s).map(|i| row(i).collect()).collect()
}

/// What a supply's tests take: one value too many is refused after the record, the lengths and the
/// file have been looked at, and nothing is written.
fn supply_tests(file: &[u8], s: usize) {
    use wiqhano::rosenbrock::calls;
    let mut memory = calls::Memory::new(&[1.0; 4], s);
    let policy = wiqhano::TimeDifferencePolicy::default().into();
    let mut record = calls::new(file, policy, 0.0, memory.lend()).expect("a stepper");
    let modes = calls::Modes {
        host_jacobian: true,
        host_time_partial: true,
    };
    let opened = calls::attempt_in_place(&mut record, file, 0.125, modes, memory.lend());
    assert_eq!(opened, Ok(calls::Told::Asked));
    alone(
        &format!("supply refused s {s}"),
        &[[0.0; 5]; INPUTS],
        |values| {
            let answer = calls::supply_in_place(&mut record, file, values, memory.lend());
            assert_eq!(answer, Err(wiqhano::Failure::Dimension));
        },
    );
}

/// Whole attempts: accepted, so that everything is asked for; and rejected and repeated, with the
/// derivative, the Jacobian and the time partial kept.
fn steppers(random: &mut Random) {
    for s in [1, 4, 8] {
        let mut some = |k: usize| -> Vec<f64> { (0..k).map(|_| random.unit() - 0.5).collect() };
        let (a, coupling, b, btilde) = (
            some(s * (s - 1) / 2),
            some(s * (s - 1) / 2),
            some(s),
            some(s),
        );
        let (mut c, d) = (some(s), some(s));
        c[0] = 0.0;
        let like: &'static _ =
            Box::leak(Box::new(original_tableau::RosenbrockTableau::oracle_new(
                original_tableau::RosenbrockErrorEstimator::Embedded,
                original_tableau::RosenbrockKind::Rosenbrock,
                4,
                0.25,
                rows(&a, s),
                rows(&coupling, s),
                c.clone(),
                d.clone(),
                b.clone(),
                Some(btilde.clone()),
                Vec::new(),
            )));
        let file = wiqhano::tableau::Coefficients {
            hybrid: false,
            step_doubling: false,
            gamma: 0.25,
            a,
            coupling,
            c,
            d,
            b,
            btilde: Some(btilde),
        }
        .file();
        supply_tests(&file, s);
        for n in [1, 2, 4, 8, 16, 32] {
            let mut some = |k: usize| -> Vec<f64> { (0..k).map(|_| random.unit() - 0.5).collect() };
            let state = some(n);
            // forth and back, so that neither time nor state runs away
            let inputs: Vec<Attempt> = (0..(INPUTS / (n * n * s)).max(8) * 2)
                .map(|k| Attempt {
                    step: if k % 2 == 0 { 0.125 } else { -0.125 },
                    derivative: some(n),
                    jacobian: some(n * n),
                    time_partial: some(n),
                })
                .collect();
            let mut port = wiqhano::RosenbrockStepper::new(&file, 0.0, &state).expect("a stepper");
            let mut other = original::RosenbrockStepper::new(like, 0.0, &state).expect("a stepper");
            beside(
                &format!("accepted s {s} n {n}"),
                &inputs,
                |input| (attempted!(port, input), port.accept().is_ok()),
                |input| (attempted!(other, input), other.accept().is_ok()),
            );
            assert_eq!(port.state(), other.state());
            beside(
                &format!("rejected s {s} n {n}"),
                &inputs,
                |input| (attempted!(port, input), port.reject().is_ok()),
                |input| (attempted!(other, input), other.reject().is_ok()),
            );
        }
    }
}

fn main() {
    let mut random = Random::new(1);
    // A time, an end after it, a step, a scale, and a value: what a stepper meets.
    let inputs: Vec<[f64; 5]> = (0..INPUTS)
        .map(|_| {
            let time = random.unit() * 100.0;
            let step = 0.001 + random.unit();
            [
                time,
                time + random.unit() * 3.0,
                step,
                0.5 + random.unit(),
                random.unit() - 0.5,
            ]
        })
        .collect();

    beside(
        "sqrt",
        &inputs,
        |&[x, ..]| wiqhano::sqrt(x),
        |&[x, ..]| original_sqrt(x),
    );
    beside(
        "endpoint_step",
        &inputs,
        |&[time, end, step, ..]| wiqhano::endpoint_step(time, end, step),
        |&[time, end, step, ..]| original_endpoint_step(time, end, step),
    );
    for (name, bounded) in [("probes", false), ("probes bounded", true)] {
        let bounds = |time: f64, end: f64| bounded.then_some((time - 1.0, end));
        let port = wiqhano::TimeDifferencePolicy::default();
        let like = original::TimeDifferencePolicy::default();
        beside(
            name,
            &inputs,
            |&[time, end, step, scale, _]| {
                let mut policy = port;
                (policy.scale, policy.bounds) = (scale, bounds(time, end));
                policy.probes(time, step)
            },
            |&[time, end, step, scale, _]| {
                let mut policy = like;
                (policy.scale, policy.bounds) = (scale, bounds(time, end));
                original_probes(policy, time, step)
            },
        );
    }
    for (name, two) in [("partial one", false), ("partial two", true)] {
        let option = |x: f64| two.then_some(x);
        beside(
            name,
            &inputs,
            |&[base, first, d1, d2, second]| {
                wiqhano::partial(base, first, option(second), d1, option(d2))
            },
            |&[base, first, d1, d2, second]| {
                original_partial(base, first, option(second), d1, option(d2))
            },
        );
    }
    linear(&mut random);
    beside_the_stepper(&mut random);
    steppers(&mut random);
}
