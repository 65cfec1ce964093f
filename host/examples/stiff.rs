//! Integrates two stiff problems with published answers, to be copied by who embeds the stepper: a first
//! step, attempts up to the endpoint, the error norm, the controller's decision, accept or reject. The method
//! is RODAS of order 4 (Hairer and Wanner, Solving Ordinary Differential Equations II, IV.7).
//!
//! After ./test or tools/archives:
//!
//!   cargo run --release --manifest-path host/Cargo.toml --example stiff [-- --chart FILE]
//!
//! It prints, for four tolerances, the worst relative error beside the published answer, and what the run took.
//! FILE becomes an SVG of van der Pol's first component, drawn by interpolation within the steps.
use std::error::Error;
use wiqhano::controller::{AdaptiveController, ControllerConfig, StepDecision};
use wiqhano::tableau::Coefficients;
use wiqhano::{Failure, RosenbrockStepper, StepError, StepStatistics, StiffSegment};
use wiqhano::{initial_step, scaled_error_norm};

type Hook = fn(f64, &[f64], &mut [f64]) -> Result<(), Failure>;

/// y' = rhs(t, y) from time 0. The answer at the end is the one that the Test Set for Initial Value Problem Solvers
/// publishes.
pub struct Problem {
    pub name: &'static str,
    pub start: &'static [f64],
    /// After 0.
    pub end: f64,
    pub answer: &'static [f64],
    pub rhs: Hook,
    /// By rows. Without it the Jacobian is probed: component k rises by 2⁻²⁶ · max(|y_k|, 1).
    pub jacobian: Option<Hook>,
    /// The absolute tolerance is this times the relative one.
    pub absolute: f64,
}

/// Three reactions. It wants its Jacobian: the second component stays below 4·10⁻⁵, so a probe's rise of 2⁻²⁶ is no
/// small change of it. With probed Jacobians the run at a tolerance of 1e-5 takes 35,972 steps where 267 do, and its
/// answer is wrong by 160 %.
pub const ROBERTSON: Problem = Problem {
    name: "Robertson",
    start: &[1.0, 0.0, 0.0],
    end: 1e11,
    answer: &[
        0.2083340149701255e-7,
        0.8333360770334713e-13,
        0.9999999791665050,
    ],
    rhs: |_, y, dy| {
        dy[0] = -0.04 * y[0] + 1e4 * y[1] * y[2];
        dy[2] = 3e7 * y[1] * y[1];
        dy[1] = -dy[0] - dy[2];
        Ok(())
    },
    jacobian: Some(|_, y, rows| {
        rows.copy_from_slice(
            &[
                [-0.04, 1e4 * y[2], 1e4 * y[1]],
                [0.04, -1e4 * y[2] - 6e7 * y[1], -1e4 * y[1]],
                [0.0, 6e7 * y[1], 0.0],
            ]
            .concat(),
        );
        Ok(())
    }),
    absolute: 1e-8,
};

/// An oscillator with a small parameter.
pub const VAN_DER_POL: Problem = Problem {
    name: "van der Pol",
    start: &[2.0, 0.0],
    end: 2.0,
    answer: &[1.706167732170483, -0.8928097010247975],
    rhs: |_, y, dy| {
        dy[0] = y[1];
        dy[1] = ((1.0 - y[0] * y[0]) * y[1] - y[0]) / 1e-6;
        Ok(())
    },
    jacobian: None,
    absolute: 1e-3,
};

pub fn rodas() -> Coefficients {
    let d3 = -0.03620000000000023;
    let [m1, m2, m3, m4] = [
        1.221224509226641,
        6.019134481288629,
        12.53708332932087,
        -0.6878860361058950,
    ];
    Coefficients {
        hybrid: false,
        step_doubling: false,
        gamma: 0.25,
        a: vec![
            1.544, //
            0.9466785280815826,
            0.2557011698983284, //
            3.314825187068521,
            2.896124015972201,
            0.9986419139977817, //
            m1,
            m2,
            m3,
            m4, //
            m1,
            m2,
            m3,
            m4,
            1.0,
        ],
        coupling: vec![
            -5.6688, //
            -2.430093356833875,
            -0.2063599157091915, //
            -0.1073529058151375,
            -9.594562251023355,
            -20.47028614809616, //
            7.496443313967647,
            -10.24680431464352,
            -33.99990352819905,
            11.70890893206160, //
            8.083246795921522,
            -7.981132988064893,
            -31.52159432874371,
            16.31930543123136,
            -6.058818238834054,
        ],
        c: vec![0.0, 0.386, 0.21, 0.63, 1.0, 1.0],
        d: vec![0.25, -0.1043, 0.1035, d3, 0.0, 0.0],
        b: vec![m1, m2, m3, m4, 1.0, 1.0],
        btilde: Some(vec![0.0, 0.0, 0.0, 0.0, 0.0, 1.0]),
    }
}

/// An attempt that was shown, and what became of it.
pub struct Attempt<'a> {
    pub proposal: f64,
    pub start: f64,
    pub end: f64,
    pub previous: &'a [f64],
    pub candidate: &'a [f64],
    pub error: &'a [f64],
    /// Stage after stage, solved.
    pub stages: &'a [f64],
    pub norm: f64,
    pub decision: StepDecision,
}

pub struct Run {
    pub state: Vec<f64>,
    pub statistics: StepStatistics,
}

/// From 0 to the problem's end. Each attempt that was shown is handed to `seen`.
pub fn integrate(
    problem: &Problem,
    relative: f64,
    seen: &mut dyn FnMut(&Attempt<'_>),
) -> Result<Run, Box<dyn Error>> {
    let absolute = problem.absolute * relative;
    let (start, end) = (problem.start, problem.end);
    let mut stepper = RosenbrockStepper::new(&rodas().file(), 0.0, start)?;

    let mut derivative = vec![0.0; start.len()];
    (problem.rhs)(0.0, start, &mut derivative)?;
    let scales: Vec<f64> = start
        .iter()
        .map(|y| absolute + relative * y.abs())
        .collect();
    let first = initial_step(start, &derivative, &scales, 1.0, end)?;
    // the estimate has order 3, so the error goes with the fourth power of the step
    let settings = ControllerConfig::proportional(4).map_err(|e| format!("{e:?}"))?;
    let mut controller = AdaptiveController::new(settings, first).map_err(|e| format!("{e:?}"))?;

    while stepper.time() < end {
        if stepper.statistics().attempts > 1_000_000 {
            return Err("too many attempts".into());
        }
        let (time, proposal) = (stepper.time(), controller.next_step());
        let mut rhs = problem.rhs;
        let mut jacobian = problem.jacobian;
        // neither problem depends on time
        let mut no_partial = |_: f64, _: &[f64], partial: &mut [f64]| {
            partial.fill(0.0);
            Ok(())
        };
        let attempted = stepper.attempt_to(
            end,
            proposal,
            &mut rhs,
            jacobian.as_mut().map(|hook| hook as _),
            Some(&mut no_partial),
        );
        let accepted = match attempted {
            Ok(view) => {
                let error = view.component_error.ok_or("no error is estimated")?;
                let (previous, candidate) = (view.previous_state, view.candidate);
                let norm = scaled_error_norm(previous, candidate, error, absolute, relative)?;
                let decision = controller
                    .assess(view.end_time - view.start_time, norm)
                    .map_err(|e| format!("at {time}: {e:?}"))?;
                seen(&Attempt {
                    proposal,
                    start: view.start_time,
                    end: view.end_time,
                    previous,
                    candidate,
                    error,
                    stages: view.solved_stages,
                    norm,
                    decision,
                });
                decision.accepted
            }
            // too long a step: nothing is pending, and a shorter one is tried
            Err(StepError::Solver(Failure::NonFinite | Failure::Singular)) => {
                let step = proposal.min(end - time);
                controller
                    .assess(step, f64::INFINITY)
                    .map_err(|e| format!("at {time}: {e:?}"))?;
                continue;
            }
            Err(failure) => return Err(format!("at {time}: {failure}").into()),
        };
        if accepted {
            stepper.accept()?;
        } else {
            stepper.reject()?;
        }
    }
    Ok(Run {
        state: stepper.state().to_vec(),
        statistics: stepper.statistics(),
    })
}

/// The worst relative error beside the published answer.
pub fn worst_error(problem: &Problem, state: &[f64]) -> f64 {
    let pairs = state.iter().zip(problem.answer);
    let errors = pairs.map(|(y, answer)| ((y - answer) / answer).abs());
    // a NaN stays, where a maximum would lose it
    errors.fold(0.0, |worst, e| {
        if worst.is_nan() || e <= worst {
            worst
        } else {
            e
        }
    })
}

/// The two rows of RODAS's continuous output, over its first five stages: as in its authors' program.
const CONTINUOUS: [[f64; 5]; 2] = [
    [
        10.12623508344586,
        -7.487995877610167,
        -34.80091861555747,
        -7.992771707568823,
        1.025137723295662,
    ],
    [
        -0.6762803392801253,
        6.087714651680015,
        16.43084320892478,
        24.76722511418386,
        -6.594389125716872,
    ],
];

/// Points of a component over time, by the method's own continuous output. A cubic through both states with both
/// derivatives would not do: a stiff derivative magnifies the error of the state.
pub fn points(
    problem: &Problem,
    relative: f64,
    k: usize,
) -> Result<Vec<(f64, f64)>, Box<dyn Error>> {
    let n = problem.start.len();
    let mut points = vec![(0.0, problem.start[k])];
    let mut refused = None;
    integrate(problem, relative, &mut |attempt| {
        if !attempt.decision.accepted {
            return;
        }
        let combined = |row: [f64; 5], i: usize| -> f64 {
            (0..5)
                .map(|stage| row[stage] * attempt.stages[stage * n + i])
                .sum()
        };
        let rows = CONTINUOUS
            .into_iter()
            .flat_map(|row| (0..n).map(move |i| (row, i)));
        let segment = StiffSegment {
            start_time: attempt.start,
            end_time: attempt.end,
            start_state: attempt.previous,
            end_state: attempt.candidate,
            corrections: &rows.map(|(row, i)| combined(row, i)).collect::<Vec<_>>(),
            order: 2,
        };
        let (h, mut y) = (attempt.end - attempt.start, vec![0.0; n]);
        for part in 1..=8 {
            let time = if part == 8 {
                attempt.end
            } else {
                attempt.start + h * f64::from(part) / 8.0
            };
            match segment.interpolate(time, &mut y) {
                Ok(()) => points.push((time, y[k])),
                Err(failure) => {
                    refused.get_or_insert(failure);
                }
            }
        }
    })?;
    refused.map_or(Ok(points), |failure| Err(failure.to_string().into()))
}

fn svg(points: &[(f64, f64)]) -> String {
    let last = points.last().map_or(1.0, |p| p.0);
    let (low, high) = points
        .iter()
        .fold((f64::MAX, f64::MIN), |(l, h), p| (l.min(p.1), h.max(p.1)));
    let at = |(t, y): &(f64, f64)| {
        format!(
            "{:.2},{:.2}",
            20.0 + 760.0 * t / last,
            380.0 - 360.0 * (y - low) / (high - low)
        )
    };
    let line = points.iter().map(at).collect::<Vec<_>>().join(" ");
    format!(
        "<svg xmlns=\"http://www.w3.org/2000/svg\" viewBox=\"0 0 800 400\">\n\
         <rect width=\"800\" height=\"400\" fill=\"white\"/>\n\
         <polyline fill=\"none\" stroke=\"black\" points=\"{line}\"/>\n\
         <text x=\"24\" y=\"396\" font-size=\"12\">time 0 to {last}; {low:.4} to {high:.4}</text>\n\
         </svg>\n"
    )
}

#[allow(dead_code)] // where a test takes in this file
fn main() -> Result<(), Box<dyn Error>> {
    let words: Vec<String> = std::env::args().skip(1).collect();
    for problem in [ROBERTSON, VAN_DER_POL] {
        for relative in [1e-3, 1e-5, 1e-7, 1e-9] {
            let run = integrate(&problem, relative, &mut |_| {})?;
            let (error, s) = (worst_error(&problem, &run.state), run.statistics);
            println!(
                "{:<12} tolerance {relative:.0e}  error {error:.1e}  steps {}  rejections {}  evaluations {}  Jacobians {}",
                problem.name,
                s.accepted_steps,
                s.rejected_steps,
                s.rhs_evaluations,
                s.jacobian_evaluations
            );
        }
    }
    match &words[..] {
        [] => Ok(()),
        [flag, file] if flag == "--chart" => {
            Ok(std::fs::write(file, svg(&points(&VAN_DER_POL, 1e-5, 0)?))?)
        }
        _ => Err("usage: stiff [--chart FILE]".into()),
    }
}
