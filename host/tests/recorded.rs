//! Answers of the original, recorded: NAME.script is what it was given, NAME.answers what it
//! answered (tools/record). The port answers the same, line for line.
use wiqhano::protocol::run;
use wiqhano::script::compared;

fn replayed(name: &str) {
    let read = |kind: &str| {
        let path = format!("tests/recorded/{name}.{kind}");
        std::fs::read_to_string(&path).unwrap_or_else(|e| panic!("{path}: {e}"))
    };
    let (script, recorded) = (read("script"), read("answers"));
    let mut out = Vec::new();
    run(script.as_bytes(), &mut out, true).unwrap();
    let out = String::from_utf8(out).unwrap();
    let lines: Vec<&str> = out.lines().collect();
    let mut differing = 0;
    for (pair, was) in lines.chunks(2).zip(recorded.lines()) {
        let line = pair[0].strip_prefix("> ").expect("an echoed line");
        if compared(line, pair[1]) != compared(line, was) {
            differing += 1;
            println!("{line}\n  port     {}\n  recorded {was}", pair[1]);
        }
    }
    assert_eq!(lines.len() / 2, recorded.lines().count(), "answers");
    println!("replayed {name} {} differing {differing}", lines.len() / 2);
    assert_eq!(differing, 0);
}

/// The original's edges and the starred cases, and lines that are wrong.
#[test]
fn edges() {
    replayed("edges");
}

/// Inputs whose answers show a fused multiply-add, a flush to zero or an extended precision.
#[test]
fn telling() {
    replayed("telling");
}

/// The same for linear systems: edges, starred cases, telling inputs.
#[test]
fn linear() {
    replayed("linear");
}

/// The step size controller, the first step, the norm and the segment: edges.
#[test]
fn control() {
    replayed("control");
}

/// The stepper: edges, and telling inputs.
#[test]
fn stepper() {
    replayed("stepper");
}

/// Random lines.
#[test]
fn random() {
    replayed("random");
}

/// Random lists of the stepper's calls.
#[test]
fn lists() {
    replayed("lists");
}
