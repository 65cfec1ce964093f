//! The stepper in the original's shape, and the protocol's lines that the original cannot answer.
use std::panic::{AssertUnwindSafe, catch_unwind};
use wiqhano::protocol::text::{double, to_double, to_vector, vector};
use wiqhano::protocol::{Host, entries};
use wiqhano::random::{self, Random, power};
use wiqhano::tableau::Coefficients;
use wiqhano::{DerivativeHook, Failure, RosenbrockStepView, RosenbrockStepper, StepError};
use wiqhano::{StepStatistics, TimeDifferencePolicy};

type Hook<'a> = &'a mut DerivativeHook<'a, String>;

fn decay(_: f64, y: &[f64], out: &mut [f64]) -> Result<(), String> {
    out.iter_mut().zip(y).for_each(|(out, y)| *out = -y);
    Ok(())
}

fn stepper(state: &[f64]) -> RosenbrockStepper {
    RosenbrockStepper::new(&Coefficients::pond().file(), 0.0, state).unwrap()
}

#[test]
fn two_steps_of_the_pond() {
    let mut stepper = stepper(&[1.0]);
    let mut jacobian = |_: f64, _: &[f64], out: &mut [f64]| -> Result<(), String> {
        out[0] = -1.0;
        Ok(())
    };
    // nothing is written: it is 0
    let mut partial = |_: f64, _: &[f64], _: &mut [f64]| -> Result<(), String> { Ok(()) };
    for (k, expected) in [(1.0, 0.5), (2.0, 0.25)] {
        let view = stepper
            .attempt(1.0, &mut decay, Some(&mut jacobian), Some(&mut partial))
            .unwrap();
        assert_eq!((view.start_time, view.end_time), (k - 1.0, k));
        assert_eq!(
            (view.previous_state[0], view.candidate[0]),
            (expected * 2.0, expected)
        );
        assert_eq!(
            (view.jacobian, view.time_partial),
            (&[-1.0][..], &[0.0][..])
        );
        assert_eq!(view.stage(0), Some(&[-expected][..]));
        assert_eq!(view.rhs_stage(0), Some(&[-2.0 * expected][..]));
        assert_eq!((view.stage(1), view.rhs_stage(usize::MAX)), (None, None));
        assert_eq!(view.component_error, None);
        assert_eq!(stepper.accept(), Ok(()));
        assert_eq!((stepper.time(), stepper.state()), (k, &[expected][..]));
    }
    let statistics = StepStatistics {
        attempts: 2,
        rhs_evaluations: 2,
        accepted_steps: 2,
        rejected_steps: 0,
        jacobian_evaluations: 2,
        factorizations: 2,
        linear_solves: 2,
    };
    assert_eq!(stepper.statistics(), statistics);
    assert_eq!(stepper.tableau(), Coefficients::pond().file());
}

#[test]
fn what_is_not_written_stays_until_a_reset() {
    let mut stepper = stepper(&[1.0, 2.0]);
    // an attempt whose Jacobian writes its diagonal and, if it is handed one, one entry beside it
    let mut shown = |entry: Option<f64>, reset: bool| -> (Vec<f64>, Vec<f64>) {
        let mut jacobian = |_: f64, _: &[f64], out: &mut [f64]| -> Result<(), String> {
            (out[0], out[3]) = (-1.0, -1.0);
            out[1] = entry.unwrap_or(out[1]);
            Ok(())
        };
        let mut partial = |_: f64, _: &[f64], out: &mut [f64]| -> Result<(), String> {
            out[0] += 1.0;
            Ok(())
        };
        if reset {
            stepper.reset(0.0, &[1.0, 2.0]).unwrap();
        }
        let view = stepper
            .attempt(0.5, &mut decay, Some(&mut jacobian), Some(&mut partial))
            .unwrap();
        let shown = (view.jacobian.to_vec(), view.time_partial.to_vec());
        stepper.accept().unwrap();
        shown
    };
    let diagonal = vec![-1.0, 0.0, 0.0, -1.0];
    let beside = vec![-1.0, 0.25, 0.0, -1.0];
    assert_eq!(shown(None, false), (diagonal.clone(), vec![1.0, 0.0]));
    assert_eq!(shown(Some(0.25), false), (beside.clone(), vec![2.0, 0.0]));
    assert_eq!(shown(None, false), (beside, vec![3.0, 0.0]));
    assert_eq!(shown(None, true), (diagonal, vec![1.0, 0.0]));
}

#[test]
fn a_zero_step_shows_no_stages() {
    let file = Coefficients {
        btilde: Some(vec![1.0]),
        ..Coefficients::pond()
    }
    .file();
    let mut stepper = RosenbrockStepper::new(&file, 1.0, &[3.0, 4.0]).unwrap();
    let view = stepper
        .attempt_to(1.0, -1.0, &mut decay, None, None)
        .unwrap();
    assert_eq!(
        (view.candidate, view.component_error),
        (&[3.0, 4.0][..], Some(&[0.0, 0.0][..]))
    );
    assert!(view.solved_stages.is_empty() && view.stage_derivatives.is_empty());
    assert!(view.jacobian.is_empty() && view.time_partial.is_empty());
    assert_eq!((view.stage(0), view.rhs_stage(0)), (None, None));
    let pending = stepper.attempt(1.0, &mut decay, None, None).unwrap_err();
    assert_eq!(pending, StepError::Solver(Failure::PendingCandidate));
    assert_eq!(
        (stepper.reject(), stepper.reject()),
        (Ok(()), Err(Failure::NoCandidate))
    );
}

#[test]
fn an_error_is_handed_back_and_closes_the_attempt() {
    let mut stepper = stepper(&[1.0]);
    let mut fails = |_: f64, _: &[f64], _: &mut [f64]| Err("no".to_string());
    for _ in 0..2 {
        let error = stepper.attempt(1.0, &mut fails, None, None).unwrap_err();
        assert_eq!(error, StepError::User("no".into()));
        assert_eq!(stepper.accept(), Err(Failure::NoCandidate));
    }
    let error = stepper.attempt(1.0, &mut decay, Some(&mut fails), None);
    assert_eq!(error.unwrap_err(), StepError::User("no".into()));
    // the derivative stays, and the Jacobian is asked for again
    assert_eq!(stepper.current_derivative(), Some(&[-1.0][..]));
    let view = stepper.attempt(1.0, &mut decay, None, None).unwrap();
    let statistics = view.statistics;
    assert_eq!(
        (statistics.attempts, statistics.jacobian_evaluations),
        (4, 2)
    );
    assert_eq!(stepper.accept(), Ok(()));
    assert_eq!(stepper.current_derivative(), None);
    let spoilt = |_: f64, _: &[f64], out: &mut [f64]| -> Result<(), String> {
        out[0] = f64::NAN;
        Ok(())
    };
    let error = stepper
        .attempt(1.0, &mut { spoilt }, None, None)
        .unwrap_err();
    assert_eq!(error, StepError::Solver(Failure::NonFinite));
    assert_eq!(error.to_string(), Failure::NonFinite.to_string());
}

#[test]
fn a_panic_closes_the_attempt() {
    let mut stepper = stepper(&[1.0]);
    let caught = catch_unwind(AssertUnwindSafe(|| {
        let mut panics = |_: f64, _: &[f64], _: &mut [f64]| -> Result<(), String> { panic!("no") };
        stepper.attempt(1.0, &mut panics, None, None).is_ok()
    }));
    assert!(caught.is_err());
    assert_eq!(stepper.accept(), Err(Failure::NoCandidate));
    assert_eq!(stepper.statistics().attempts, 1);
    assert!(stepper.attempt(1.0, &mut decay, None, None).is_ok());
}

#[test]
fn what_a_making_refuses() {
    let made = |file: &[u8], state: &[f64]| RosenbrockStepper::new(file, 0.0, state).err();
    let file = Coefficients::pond().file();
    assert_eq!(file.len(), 80);
    assert_eq!(made(&file, &[1.0; 32]), None);
    assert_eq!(made(&file, &[1.0; 33]), Some(Failure::Dimension));
    assert_eq!(made(&file, &[1.0; 100_000]), Some(Failure::Dimension));
    assert_eq!(made(&file, &[]), Some(Failure::Dimension));
    assert_eq!(made(&file, &[f64::NAN]), Some(Failure::NonFinite));
    assert_eq!(made(&file[1..], &[]), Some(Failure::TableauFile));
    assert_eq!(made(&[], &[]), Some(Failure::TableauFile));
    let hybrid = Coefficients {
        hybrid: true,
        ..Coefficients::pond()
    };
    assert_eq!(
        made(&hybrid.file(), &[1.0]),
        Some(Failure::UnsupportedTableau)
    );
    // a bad policy is judged where it is used
    let policy = TimeDifferencePolicy {
        maximum_fraction: 2.0,
        ..TimeDifferencePolicy::default()
    };
    let mut stepper = RosenbrockStepper::with_policy(&file, policy, 0.0, &[1.0]).unwrap();
    let mut zero = |_: f64, _: &[f64], _: &mut [f64]| -> Result<(), String> { Ok(()) };
    let error = stepper.attempt(1.0, &mut decay, None, None).unwrap_err();
    assert_eq!(error, StepError::Solver(Failure::Direction));
    assert!(
        stepper
            .attempt(1.0, &mut decay, None, Some(&mut zero))
            .is_ok()
    );
}

#[test]
fn state_derivative_and_reset() {
    let mut stepper = stepper(&[1.0, 2.0]);
    let mut out = [0.0; 2];
    assert_eq!(stepper.copy_state_into(&mut out), Ok(()));
    assert_eq!(out, [1.0, 2.0]);
    assert_eq!(
        stepper.copy_state_into(&mut out[1..]),
        Err(Failure::Dimension)
    );
    assert_eq!(stepper.inject_derivative(&[1.0]), Err(Failure::Dimension));
    assert_eq!(
        stepper.inject_derivative(&[1.0, f64::NAN]),
        Err(Failure::NonFinite)
    );
    assert_eq!(stepper.current_derivative(), None);
    assert_eq!(stepper.inject_derivative(&[5.0, 6.0]), Ok(()));
    assert_eq!(stepper.current_derivative(), Some(&[5.0, 6.0][..]));
    assert!(stepper.attempt(1.0, &mut decay, None, None).is_ok());
    assert_eq!(
        stepper.inject_derivative(&[5.0]),
        Err(Failure::PendingCandidate)
    );
    assert_eq!(stepper.reset(f64::NAN, &[0.0; 2]), Err(Failure::NonFinite));
    assert_eq!(stepper.reset(9.0, &[0.0; 3]), Err(Failure::Dimension));
    assert_eq!(stepper.reset(9.0, &[7.0, 8.0]), Ok(()));
    assert_eq!((stepper.time(), stepper.state()), (9.0, &[7.0, 8.0][..]));
    assert_eq!(stepper.accept(), Err(Failure::NoCandidate));
    assert_eq!(stepper.current_derivative(), None);
}

/// y' = A y + t v, so that the Jacobian is A and the time partial v.
struct System {
    n: usize,
    a: Vec<f64>,
    v: Vec<f64>,
}

impl System {
    fn rhs(&self, time: f64, y: &[f64], out: &mut [f64]) {
        for (row, out) in out.iter_mut().enumerate() {
            let products = (0..self.n).map(|k| self.a[row * self.n + k] * y[k]);
            *out = products.sum::<f64>() + time * self.v[row];
        }
    }

    /// The answer to a `need` line.
    fn given(&self, need: &str) -> String {
        let word = |key: &str| need.split(' ').find_map(|w| w.strip_prefix(key)).unwrap();
        let time = to_double(word("time=")).unwrap();
        let state = to_vector(word("state=")).unwrap();
        let mut out = vec![0.0; self.n];
        match need.split(' ').nth(1) {
            Some("rhs") => self.rhs(time, &state, &mut out),
            Some("jac") => out.clone_from(&self.a),
            _ => out.clone_from(&self.v),
        }
        format!("give {}", vector(&out))
    }
}

fn text(view: Result<RosenbrockStepView<'_>, StepError<String>>) -> String {
    match view {
        Ok(view) => format!("ok {} ", entries(&view)),
        Err(StepError::Solver(failure)) => format!("err {} ", failure.number()),
        Err(StepError::User(error)) => error,
    }
}

/// The closures answer as the protocol's lines do.
#[test]
fn as_the_protocol_answers() {
    let seed = random::seed();
    println!("seed {seed}");
    let r = &mut Random::new(seed);
    for _ in 0..300 {
        let n = 1 + r.below(5) as usize;
        let s = 1 + r.below(4) as usize;
        let mut some = |k: usize| -> Vec<f64> { (0..k).map(|_| r.unit() * 2.0 - 1.0).collect() };
        let tableau = Coefficients {
            hybrid: false,
            step_doubling: false,
            gamma: 0.5,
            a: some(s * (s - 1) / 2),
            coupling: some(s * (s - 1) / 2),
            c: some(s),
            d: some(s),
            b: some(s),
            btilde: Some(some(s)),
        };
        let (state, a, v) = (some(n), some(n * n), some(n));
        let system = System { n, a, v };
        let mut stepper = RosenbrockStepper::new(&tableau.file(), 0.0, &state).unwrap();
        let mut host = Host::default();
        let digits: String = tableau.file().iter().map(|b| format!("{b:02x}")).collect();
        host.answer(&format!("tabfile {digits}"));
        host.answer(&format!("make =0 {}", vector(&state)));
        for _ in 0..10 {
            let mut rhs = |t: f64, y: &[f64], out: &mut [f64]| {
                system.rhs(t, y, out);
                Ok(())
            };
            let mut jac = |_: f64, _: &[f64], out: &mut [f64]| {
                out.copy_from_slice(&system.a);
                Ok(())
            };
            let mut tp = |_: f64, _: &[f64], out: &mut [f64]| {
                out.copy_from_slice(&system.v);
                Ok(())
            };
            let (j, t) = (r.chance(50), r.chance(50));
            let modes = [j, t].map(|on| if on { "h" } else { "p" }).join(" ");
            let jac: Option<Hook<'_>> = if j { Some(&mut jac) } else { None };
            let tp: Option<Hook<'_>> = if t { Some(&mut tp) } else { None };
            let (step, end) = (power(-(r.below(4) as i64)) * r.sign(), r.unit() * 4.0 - 2.0);
            let (line, view) = if r.chance(50) {
                let line = format!("attempt {} {modes}", double(step));
                (line, stepper.attempt(step, &mut rhs, jac, tp))
            } else {
                let line = format!("attempt_to {} {} {modes}", double(end), double(step));
                (line, stepper.attempt_to(end, step, &mut rhs, jac, tp))
            };
            let view = text(view);
            let mut answer = host.answer(&line);
            while answer.starts_with("need ") {
                answer = host.answer(&system.given(&answer));
            }
            assert!(answer.starts_with(&view), "{line}\n{view}\n{answer}");
            // the wrapper decides in place
            let (line, _) = match r.below(3) {
                0 => ("accept", stepper.accept()),
                _ => ("reject", stepper.reject()),
            };
            let answer = host.answer(line);
            let now = format!(
                "time={} state={}",
                double(stepper.time()),
                vector(stepper.state())
            );
            assert!(answer.ends_with(&now), "{line}\n{now}\n{answer}");
        }
    }
}

fn answers(lines: &[&str]) -> Vec<String> {
    let mut host = Host::default();
    lines.iter().map(|line| host.answer(line)).collect()
}

#[test]
fn what_no_file_can_hold_is_refused_by_make() {
    for tableau in [
        "tableau gamma==nan",
        "tableau c=[=inf]",
        "tableau btilde=[=-inf]",
        "tableau b=[]",
        "tableau b=[=1,=1,=1,=1,=1,=1,=1,=1,=1]",
        "tabfile 00",
        "tabfile 0100000002000000000000000000000030",
    ] {
        let told = answers(&[tableau, "make =0 [=1]", "show"]);
        assert!(told[0].starts_with("ok stages="), "{tableau}: {told:?}");
        assert_eq!(
            told[1..],
            ["err 12 TableauFile", "bad no stepper"],
            "{tableau}"
        );
    }
}

#[test]
fn calls_out_of_turn_and_commands_that_are_left_out() {
    let told = answers(&[
        "attempt =1 h h",
        "tableau",
        "make =0 [=1]",
        "give [=1]",
        "fail",
        "attempt =1 h h",
        "attempt =1 h h",
        "attempt_to =1 =1 h h",
        "accept",
        "reject",
        "inject []",
        "reset =0 []",
        "show",
        "dump",
        "setstats [1,2,3,4,5,6,7]",
        "give [=1,=2]",
        "give [=1]",
        "fail [=1]",
    ]);
    let now = "stats=0,0,0,0,0,0,0 time=0000000000000000 state=[3ff0000000000000]";
    assert_eq!(told[0], "bad no stepper");
    assert_eq!(told[2], format!("ok {now}"));
    assert_eq!(told[3], format!("err 17 NoRequest {now}"));
    assert_eq!(told[4], format!("err 17 NoRequest {now}"));
    let need = "time=0000000000000000 state=[3ff0000000000000]";
    assert_eq!(told[5], format!("need rhs {need}"));
    for answer in &told[6..15] {
        assert_eq!(answer, "err 18 AttemptOpen");
    }
    assert_eq!(told[15], "bad length, wants 1");
    assert_eq!(told[16], format!("need jac {need}"));
    let stats = "stats=1,1,0,0,1,0,0";
    assert_eq!(told[17], format!("err 19 User {stats} {need}"));
    for line in ["policy", "invalidate", "clear", "residual", "rodas"] {
        assert_eq!(answers(&[line])[0], format!("bad command {line}"));
    }
}
