//! The example's core: the error falls as the tolerance does, and every call that it makes is made of the original,
//! too (WIQHANO_ORACLE names the oracle's program), and has the same bits there.
mod oracle;
#[path = "../examples/stiff.rs"]
mod stiff;

use oracle::original;
use stiff::{Attempt, Problem, ROBERTSON, VAN_DER_POL, integrate, rodas, worst_error};
use wiqhano::protocol::Host;
use wiqhano::protocol::text::{double, to_double, to_vector, vector};
use wiqhano::{Failure, initial_step};

const TOLERANCES: [f64; 4] = [1e-3, 1e-5, 1e-7, 1e-9];

#[test]
fn the_error_falls_as_the_tolerance_does() {
    // the errors as they were measured; half as much more is allowed
    for (problem, errors) in [
        (ROBERTSON, [4.6e-4, 1.2e-6, 1.2e-8, 1.2e-10]),
        (VAN_DER_POL, [1.1e-4, 1.5e-6, 8.8e-9, 5.4e-12]),
    ] {
        let mut last = f64::INFINITY;
        for (relative, near) in TOLERANCES.into_iter().zip(errors) {
            let run = integrate(&problem, relative, &mut |_| {}).expect("a run");
            let error = worst_error(&problem, &run.state);
            println!(
                "{} {relative:e}: {error:.2e} {:?}",
                problem.name, run.statistics
            );
            assert!(
                error < 1.5 * near,
                "{} {relative:e}: {error:e}",
                problem.name
            );
            assert!(
                error < last,
                "{} {relative:e}: {error:e} after {last:e}",
                problem.name
            );
            last = error;
        }
    }
}

#[test]
fn a_chart_runs_through_the_accepted_states() {
    let points = stiff::points(&VAN_DER_POL, 1e-3, 0).expect("points");
    let mut accepted = Vec::new();
    integrate(&VAN_DER_POL, 1e-3, &mut |attempt| {
        if attempt.decision.accepted {
            accepted.push((attempt.end, attempt.candidate[0]));
        }
    })
    .expect("a run");
    let ends: Vec<(f64, f64)> = points[1..].chunks(8).map(|step| step[7]).collect();
    assert_eq!(ends, accepted);
}

/// y' = -y², with the answer 1 / (1 + t).
const DECLINE: Problem = Problem {
    name: "decline",
    start: &[1.0],
    end: 10.0,
    answer: &[1.0 / 11.0],
    rhs: |_, y, dy| {
        dy[0] = -y[0] * y[0];
        Ok(())
    },
    jacobian: Some(|_, y, rows| {
        rows[0] = -2.0 * y[0];
        Ok(())
    }),
    absolute: 1e-3,
};

#[test]
fn a_chart_follows_the_solution_within_the_steps() {
    for (t, y) in stiff::points(&DECLINE, 1e-6, 0).expect("points") {
        assert!((y * (1.0 + t) - 1.0).abs() < 1e-5, "{t}: {y}");
    }
}

/// A pond that drains through a hole: y' = -√y, with the answer (1 - t/2)². Below 0 there is no root, and so loose a
/// tolerance lets stages go there.
const DRAIN: Problem = Problem {
    name: "drain",
    start: &[1.0],
    end: 1.99,
    answer: &[0.000025],
    rhs: |_, y, dy| {
        dy[0] = -y[0].sqrt();
        Ok(())
    },
    jacobian: Some(|_, y, rows| {
        rows[0] = -0.5 / y[0].sqrt();
        Ok(())
    }),
    absolute: 1.0,
};

#[test]
fn an_attempt_that_is_not_finite_is_tried_shorter() {
    let mut shown = 0;
    let run = integrate(&DRAIN, 0.1, &mut |_| shown += 1).expect("a run");
    let attempts = run.statistics.attempts;
    println!("drain: {shown} of {attempts} attempts were shown");
    assert!(shown < attempts);
    assert!(
        (run.state[0] - DRAIN.answer[0]).abs() < 1e-3,
        "{:?}",
        run.state
    );
}

/// The run again as lines of the protocol, with the port's answers: the driver's own calls in their order, each
/// request answered by the problem's functions.
struct Script {
    host: Host,
    lines: Vec<String>,
    answers: Vec<String>,
}

impl Script {
    fn line(&mut self, line: String) -> String {
        let answer = self.host.answer(&line);
        self.lines.push(line);
        self.answers.push(answer.clone());
        answer
    }

    fn values(&self, problem: &Problem, need: &str) -> Result<Vec<f64>, Failure> {
        let words: Vec<&str> = need.split(' ').collect();
        let of = |word: &str| word.split_once('=').expect("key=value").1.to_string();
        let time = to_double(&of(words[2])).expect("a time");
        let state = to_vector(&of(words[3])).expect("a state");
        let n = state.len();
        match words[1] {
            "jac" => {
                let mut rows = vec![0.0; n * n];
                problem.jacobian.expect("a Jacobian")(time, &state, &mut rows).map(|()| rows)
            }
            "tp" => Ok(vec![0.0; n]),
            _ => {
                let mut dy = vec![0.0; n];
                (problem.rhs)(time, &state, &mut dy).map(|()| dy)
            }
        }
    }

    fn attempt(&mut self, problem: &Problem, relative: f64, attempt: &Attempt<'_>) {
        let jacobian = if problem.jacobian.is_some() { "h" } else { "p" };
        let (end, proposal) = (double(problem.end), double(attempt.proposal));
        let mut answer = self.line(format!("attempt_to {end} {proposal} {jacobian} h"));
        while answer.starts_with("need ") {
            let values = self.values(problem, &answer).expect("values");
            answer = self.line(format!("give {}", vector(&values)));
        }
        for (key, value) in [
            ("prev", vector(attempt.previous)),
            ("start", double(attempt.start)),
            ("end", double(attempt.end)),
            ("cand", vector(attempt.candidate)),
            ("err", vector(attempt.error)),
        ] {
            assert!(
                answer.contains(&format!("{key}={value}")),
                "{key}={value}: {answer}"
            );
        }
        let absolute = problem.absolute * relative;
        let vectors = [attempt.previous, attempt.candidate, attempt.error].map(vector);
        let norm = self.line(format!(
            "norm {} {} {}",
            double(absolute),
            double(relative),
            vectors.join(" ")
        ));
        assert_eq!(norm, format!("ok {}", double(attempt.norm)));
        let (step, norm) = (double(attempt.end - attempt.start), double(attempt.norm));
        let decision = self.line(format!("ctl assess {step} {norm}"));
        let accepted = attempt.decision.accepted;
        assert!(
            decision.starts_with(&format!("ok accepted={} ", u8::from(accepted))),
            "{decision}"
        );
        self.line(if accepted { "accept" } else { "reject" }.into());
    }
}

#[test]
fn the_original() {
    let Ok(oracle) = std::env::var("WIQHANO_ORACLE") else {
        println!("the original is absent: nothing was compared with it in this run");
        return;
    };
    let (mut compared, mut differing) = (0, 0);
    for problem in [ROBERTSON, VAN_DER_POL] {
        for relative in [1e-3, 1e-6] {
            let mut script = Script {
                host: Host::default(),
                lines: Vec::new(),
                answers: Vec::new(),
            };
            let digits: Vec<String> = rodas().file().iter().map(|b| format!("{b:02x}")).collect();
            script.line(format!("tabfile {}", digits.concat()));
            script.line(format!("make {} {}", double(0.0), vector(problem.start)));
            let mut derivative = vec![0.0; problem.start.len()];
            (problem.rhs)(0.0, problem.start, &mut derivative).expect("a derivative");
            let absolute = problem.absolute * relative;
            let scales = problem.start.iter().map(|y| absolute + relative * y.abs());
            let scales: Vec<f64> = scales.collect();
            let vectors = [problem.start, &derivative, &scales].map(vector).join(" ");
            script.line(format!(
                "initial_step {vectors} {} {}",
                double(1.0),
                double(problem.end)
            ));
            let first = initial_step(problem.start, &derivative, &scales, 1.0, problem.end);
            let first = double(first.expect("a first step"));
            script.line(format!("ctl new step={first} order=4"));
            let mut attempts = 0;
            let run = integrate(&problem, relative, &mut |attempt| {
                script.attempt(&problem, relative, attempt);
                attempts += 1;
            });
            let run = run.expect("a run");
            // none ended without being shown: it would be missing in the script
            assert_eq!(attempts, run.statistics.attempts);
            let answers = original(&oracle, script.lines.iter());
            assert_eq!(answers.len(), script.lines.len(), "the oracle's answers");
            for ((line, port), other) in script.lines.iter().zip(&script.answers).zip(&answers) {
                // the original shows its two norms beside the first step
                let other = match line.starts_with("initial_step") {
                    true => other.split(" d0=").next().unwrap_or_default(),
                    false => other,
                };
                compared += 1;
                if port != other {
                    differing += 1;
                    if differing <= 10 {
                        println!("{}: {line}\n  port  {port}\n  other {other}", problem.name);
                    }
                }
            }
        }
    }
    println!("compared with the original {compared} differing {differing}");
    assert_eq!(differing, 0);
}
