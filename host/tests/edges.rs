//! Cases at the edge beside those of the table of starred cases, and what docs/BELIEFS.md says of what
//! new people believe: run on the library, and beside the original (WIQHANO_ORACLE names its program) where that has the same rule.
mod oracle;

use wiqhano::linear::{factorize, solve};
use wiqhano::protocol::Host;
use wiqhano::script::compared;
use wiqhano::tableau::Coefficients;
use wiqhano::{Failure, RosenbrockStepper, StepError, StiffSegment, float};

/// The library's answers, a line each.
fn port(lines: &[&str]) -> Vec<String> {
    let mut host = Host::default();
    lines.iter().map(|line| host.answer(line)).collect()
}

/// The original's answers, where it is at hand.
fn original(lines: &[&str]) -> Option<Vec<String>> {
    let Ok(program) = std::env::var("WIQHANO_ORACLE") else {
        println!("the original is absent: nothing was compared with it in this run");
        return None;
    };
    let lines: Vec<String> = lines.iter().map(|line| line.to_string()).collect();
    Some(oracle::original(&program, lines.iter()))
}

/// The library's answers, which are the original's.
fn both(lines: &[&str]) -> Vec<String> {
    let answers = port(lines);
    if let Some(expected) = original(lines) {
        assert_eq!(answers.len(), expected.len(), "{lines:?}");
        for ((line, port), other) in lines.iter().zip(&answers).zip(&expected) {
            assert_eq!(compared(line, port), compared(line, other), "{line}");
        }
        println!("compared with the original {} differing 0", lines.len());
    }
    answers
}

// ---- n = 33 and n = 0: 1, in a segment 10

fn ones(n: usize) -> String {
    format!("[{}]", vec!["=1"; n].join(","))
}

fn unit_matrix(n: usize) -> Vec<f64> {
    let entry = |k: usize| if k / n == k % n { 1.0 } else { 0.0 };
    (0..n * n).map(entry).collect()
}

/// A line for each call that takes n components, and the number that it is refused with.
fn of_size(n: usize) -> Vec<(String, u32)> {
    let one = ones(n);
    let entries: Vec<String> = unit_matrix(n).iter().map(|x| format!("={x}")).collect();
    let unit = format!("[{}]", entries.join(","));
    let rows: Vec<String> = (0..n).map(|k| k.to_string()).collect();
    let pivots = format!("[{}]", rows.join(","));
    vec![
        (format!("lu {n} {unit}"), 1),
        (format!("rawlu {n} {pivots} {unit}"), 1),
        (format!("lusolve {n} {unit} {one}"), 1),
        (format!("rawsolve {n} {unit} {pivots} {one}"), 1),
        (format!("norm =1e-6 =1e-3 {one} {one} {one}"), 1),
        (format!("initial_step {one} {one} {one} =1 =10"), 1),
        (
            format!("segment =0 =1 {one} {one} {} 2 =0.5 {one}", ones(2 * n)),
            10,
        ),
        (format!("make =0 {one}"), 1),
    ]
}

#[test]
fn no_components_and_33_are_refused() {
    for n in [0, 1, 2, 32, 33] {
        for (line, number) in of_size(n) {
            let answer = &port(&["tableau", &line])[1];
            let expected = match n {
                0 | 33 => format!("err {number} "),
                _ => "ok ".into(),
            };
            assert!(answer.starts_with(&expected), "n = {n}: {answer}");
        }
    }
}

#[test]
fn a_refused_size_changes_nothing() {
    for n in [0, 33] {
        let (mut matrix, mut pivots) = (unit_matrix(n), vec![7; n]);
        let answer = factorize(&mut matrix, &mut pivots, n);
        assert_eq!(answer, Err(Failure::Dimension));
        assert_eq!((&matrix, &pivots), (&unit_matrix(n), &vec![7; n]));
        let mut x = vec![3.0; n];
        let rows: Vec<usize> = (0..n).collect();
        let answer = solve(&matrix, &rows, &mut x, n);
        assert_eq!((answer, x), (Err(Failure::Dimension), vec![3.0; n]));
        let segment = StiffSegment {
            start_time: 0.0,
            end_time: 2.0,
            start_state: &vec![1.0; n],
            end_state: &vec![3.0; n],
            corrections: &vec![2.0; 2 * n],
            order: 2,
        };
        let mut output = vec![9.0; n];
        let answer = segment.interpolate(1.0, &mut output);
        assert_eq!((answer, output), (Err(Failure::SegmentData), vec![9.0; n]));
    }
}

/// The original refuses no components where these do, and takes 33 in all: docs/DIFFERENCES.md.
#[test]
fn the_original_on_these_sizes() {
    let answers = both(&[
        "segment =0 =1 [] [] [] 2 =0.5 []",
        "initial_step [] [] [] =1 =10",
        "tableau",
        "make =0 []",
    ]);
    for (answer, number) in answers.iter().zip(["err 10 ", "err 1 ", "ok ", "err 1 "]) {
        assert!(answer.starts_with(number), "{answer}");
    }
    let lines = of_size(33);
    let lines: Vec<&str> = lines.iter().map(|(line, _)| line.as_str()).collect();
    let lines = [&["tableau"], &lines[..]].concat();
    for answer in original(&lines).into_iter().flatten() {
        assert!(answer.starts_with("ok "), "{answer}");
    }
}

// ---- believed, and false

/// Believed: after a reject, the time partial is worked out anew for the shorter step. Here y' = 3t - y.
#[test]
fn after_a_reject_no_time_partial_is_asked_for() {
    let mut lines = vec!["tableau d=[=1]", "make =0 [=1]", "attempt =1 h h"];
    lines.extend(["give [=-1]", "give [=-1]", "give [=3]"]);
    lines.extend(["reject", "attempt =0.5 h h"]);
    lines.extend(["accept", "attempt =0.5 h h", "fail"]);
    let answers = both(&lines);
    assert!(answers[4].starts_with("need tp "));
    assert!(answers[5].contains(" end=3ff0000000000000 "));
    assert!(answers[6].starts_with("ok stats=1,1,0,1,"));
    // the shorter step is there at once, with the partial that was handed over before
    assert!(answers[7].starts_with("ok prev="), "{}", answers[7]);
    assert!(answers[7].contains(" end=3fe0000000000000 "));
    assert!(answers[7].contains(" tp=[4008000000000000] "));
    // after an accept all is asked for again
    assert!(answers[8].starts_with("ok stats=2,1,1,1,"));
    assert!(answers[9].starts_with("need rhs "));
}

/// The same for a partial that is probed: for this shorter step the probes would lie elsewhere.
#[test]
fn after_a_reject_no_time_is_probed() {
    let mut lines = vec!["tableau d=[=1]", "make =0 [=1]", "attempt =1 p p"];
    lines.extend(["give [=1]", "give [=1.5]", "give [=3]", "give [=4]"]);
    lines.extend(["reject", "attempt 3eb0000000000000 p p"]);
    let answers = both(&lines);
    assert!(answers[7].starts_with("ok stats=1,4,0,1,"));
    let partial = " tp=[411932cbb7f0cf2c] ";
    for answer in [&answers[6], &answers[8]] {
        assert!(answer.starts_with("ok prev=") && answer.contains(partial));
    }
    lines.truncate(2);
    lines.push("attempt 3eb0000000000000 p p");
    lines.extend(["give [=1]", "give [=1.5]", "fail"]);
    let (first, anew) = (&answers[4], &both(&lines)[4]);
    assert!(first.starts_with("need rhs ") && anew.starts_with("need rhs "));
    assert_ne!(first, anew);
}

/// Believed: backward substitution may run its columns downward. The bits change.
#[test]
fn back_substitution_takes_its_columns_upward() {
    let big = 2.0_f64.powi(53);
    let upper = [1.0, 1.0, 2.0, 0.0, 1.0, 0.0, 0.0, 0.0, 1.0];
    let (upward, downward) = ((big + 1.0) - 2.0, (big - 2.0) + 1.0);
    assert_ne!(upward, downward);
    let mut x = [big, -1.0, 1.0];
    assert_eq!(solve(&upper, &[0, 1, 2], &mut x, 3), Ok(()));
    assert_eq!(x, [upward, -1.0, 1.0]);
    let system = "3 [=1,=1,=2,=0,=1,=0,=0,=0,=1]";
    let lines = [
        format!("lusolve {system} [4340000000000000,=-1,=1]"),
        format!("rawsolve {system} [0,1,2] [4340000000000000,=-1,=1]"),
    ];
    let lines: Vec<&str> = lines.iter().map(String::as_str).collect();
    for answer in both(&lines) {
        let first = answer.split(['[', ',']).nth(1).unwrap();
        assert_eq!(first, format!("{:016x}", upward.to_bits()));
    }
}

/// Believed: the new time may be copied from the view's end. It is time plus effective step.
#[test]
fn the_new_time_is_not_always_the_views_end() {
    let (time, step): (f64, f64) = (-0.09, 0.34);
    let end = time + step;
    let new_time = time + (end - time);
    assert_ne!(new_time, end);
    let mut stepper = RosenbrockStepper::new(&Coefficients::pond().file(), time, &[1.0]).unwrap();
    let mut still = |_: f64, _: &[f64], out: &mut [f64]| -> Result<(), StepError<()>> {
        out[0] = 0.0;
        Ok(())
    };
    let view = stepper.attempt(step, &mut still, None, None).unwrap();
    assert_eq!((view.end_time, view.candidate), (end, &[1.0][..]));
    assert_eq!(stepper.accept(), Ok(()));
    assert_eq!(stepper.time(), new_time);

    let mut lines = vec!["tableau d=[=1]", "make =-0.09 [=1]", "attempt =0.34 h h"];
    lines.extend(["give [=0]", "give [=0]", "give [=0]", "accept"]);
    let answers = both(&lines);
    assert!(answers[5].contains(&format!(" end={:016x} ", end.to_bits())));
    assert!(answers[6].contains(&format!(" time={:016x} ", new_time.to_bits())));
}

/// Believed: a NaN in a maximum wins.
#[test]
fn a_nan_in_a_maximum_loses() {
    for x in [0.0, -1.0, 2.5, f64::INFINITY, f64::NEG_INFINITY] {
        for nan in [f64::NAN, -f64::NAN] {
            assert_eq!(float::max(nan, x), x);
            assert_eq!(float::max(x, nan), x);
            assert_eq!((nan.max(x), x.max(nan)), (x, x));
        }
    }
    // the largest magnitude of the matrix is 4, so its first step is done, with row 0
    let answers = both(&["rawlu 2 [7,7] [=1,=2,=nan,=4]", "rawlu 1 [7] [=nan]"]);
    assert!(answers[0].ends_with(" [0,7]"), "{}", answers[0]);
    assert!(answers[1].ends_with(" [7]"), "{}", answers[1]);
}
