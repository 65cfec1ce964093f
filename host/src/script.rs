//! Random lines of the protocol for each command, and the kinds of answer that they must reach.
use crate::protocol::text::{double, numbers, option, vector};
use crate::random::{Random, power, ulp};

pub struct Command {
    pub name: &'static str,
    pub line: fn(&mut Random) -> String,
    /// The kinds of answer, as `class` tells them apart.
    pub classes: &'static [&'static str],
}

pub const COMMANDS: &[Command] = &[
    Command {
        name: "endpoint_step",
        line: endpoint_step,
        classes: &[
            "ok normal",
            "ok subnormal",
            "ok zero",
            "err 2",
            "err 4",
            "err 5",
        ],
    },
    Command {
        name: "checked_time",
        line: checked_time,
        classes: &["ok normal", "ok subnormal", "ok zero", "err 2", "err 5"],
    },
    Command {
        name: "probes",
        line: probes,
        classes: &["ok two", "ok one", "err 2", "err 4", "err 5"],
    },
    Command {
        name: "partial",
        line: partial,
        classes: &[
            "one normal",
            "one subnormal",
            "one zero",
            "one infinite",
            "one NaN",
            "two normal",
            "two subnormal",
            "two zero",
            "two infinite",
            "two NaN",
        ],
    },
    Command {
        name: "lu",
        line: lu,
        classes: &["ok", "err 1", "err 2", "err 6"],
    },
    Command {
        name: "lusolve",
        line: lusolve,
        classes: &["ok", "err 1", "err 2", "err 6"],
    },
    Command {
        name: "rawlu",
        line: rawlu,
        classes: &["ok", "err 6"],
    },
    Command {
        name: "rawsolve",
        line: rawsolve,
        classes: &["ok"],
    },
    Command {
        name: "norm",
        line: norm,
        classes: &["ok normal", "ok zero", "ok infinite"],
    },
    Command {
        name: "initial_step",
        line: first_step,
        classes: &[
            "ok normal",
            "ok subnormal",
            "err 1",
            "err 2",
            "err 4",
            "err 9",
        ],
    },
    Command {
        name: "segment",
        line: segment,
        classes: &[
            "ok", "backward", "infinite", "NaN", "err 1", "err 10", "err 11",
        ],
    },
    Command {
        name: "ctl new",
        line: ctl_new,
        classes: &["ok", "err 7"],
    },
    Command {
        name: "ctl assess",
        line: ctl_assess,
        classes: &[
            "ok",
            "accepted",
            "forced",
            "rejected",
            "err 7",
            "err 16",
            "product NaN",
            "product infinite",
            "product zero",
        ],
    },
    Command {
        name: "ctl restore",
        line: ctl_restore,
        classes: &["ok", "err 7"],
    },
    Command {
        name: "ctl reset",
        line: ctl_reset,
        classes: &["ok", "err 7"],
    },
];

/// What is compared of an answer. A segment's refusal has other names in the original, and its
/// first step shows its two norms; where these lead it to logarithms, the port answers 9.
pub fn compared(line: &str, answer: &str) -> String {
    let words: Vec<&str> = answer.split(' ').collect();
    match (line.split(' ').next(), &words[..]) {
        (Some("segment"), ["err", number, _, output]) => format!("err {number} {output}"),
        (Some("initial_step"), [told @ .., d0, d1]) if d0.starts_with("d0=") => {
            let norm = |word: &str| {
                let bits = u64::from_str_radix(&word[3..], 16);
                f64::from_bits(bits.expect("a norm"))
            };
            let (d0, d1) = (norm(d0), norm(d1));
            let logarithms = d0 >= 1e-5 && d1 >= 1e-5 && d0.max(d1).is_infinite();
            match (told, logarithms) {
                (["ok", _] | ["err", "5", _], true) => "err 9 FirstStep".into(),
                _ => told.join(" "),
            }
        }
        _ => answer.into(),
    }
}

/// The kind of an answer: the refusal's number, how many values, or what the one value is.
pub fn class(line: &str, answer: &str) -> String {
    let words: Vec<&str> = answer.split(' ').collect();
    let product = words.iter().find_map(|word| word.strip_prefix("product="));
    match product {
        Some("7ff8000000000000") => return "product NaN".into(),
        Some("7ff0000000000000") => return "product infinite".into(),
        Some("0000000000000000") => return "product zero".into(),
        _ => {}
    }
    let kind = match words[..] {
        ["err", number, ..] => return format!("err {number}"),
        ["ok", "accepted=1", "forced=1", ..] => return "forced".into(),
        ["ok", "accepted=1", ..] => return "accepted".into(),
        ["ok", "accepted=0", ..] => return "rejected".into(),
        ["ok", x] if line.starts_with("segment") => return interpolated(line, x).into(),
        ["ok", x, ..] if x.starts_with('[') || x.starts_with("errs=") => return "ok".into(),
        ["ok", _, "-"] => "one",
        ["ok", _, _] => "two",
        ["ok", x] => u64::from_str_radix(x, 16).map_or("no number", |x| kind(f64::from_bits(x))),
        _ => "no answer",
    };
    match (line.starts_with("partial"), line.contains('-')) {
        (false, _) => format!("ok {kind}"),
        (true, false) => format!("two {kind}"),
        (true, true) => format!("one {kind}"),
    }
}

/// Whether a component is NaN, or infinite, or else the segment goes backward.
fn interpolated(line: &str, output: &str) -> &'static str {
    let double = |word: &str| u64::from_str_radix(word, 16).map(f64::from_bits);
    let mut output = output.trim_matches(['[', ']']).split(',').flat_map(double);
    let mut times = line.split(' ').skip(1).take(2).flat_map(double);
    let (start, end) = (times.next(), times.next());
    if output.clone().any(f64::is_nan) {
        "NaN"
    } else if output.any(f64::is_infinite) {
        "infinite"
    } else if end < start {
        "backward"
    } else {
        "ok"
    }
}

fn kind(x: f64) -> &'static str {
    use std::num::FpCategory::*;
    match x.classify() {
        Normal => "normal",
        Subnormal => "subnormal",
        Zero => "zero",
        Infinite => "infinite",
        Nan => "NaN",
    }
}

/// Mostly finite; subnormal and near the largest oftener than their share.
fn time(r: &mut Random) -> f64 {
    match r.below(20) {
        0 => r.double(),
        1 => r.pick(&[f64::NAN, f64::INFINITY, f64::NEG_INFINITY]),
        2 => r.near(f64::MAX) * r.sign(),
        3 => r.pick(&[0.0, -0.0]),
        4 | 5 => r.subnormal(),
        _ => r.finite(),
    }
}

/// A step about as long as the time's resolution: some move the time, some do not.
fn unresolved(r: &mut Random, time: f64) -> f64 {
    if !time.is_finite() {
        return r.double();
    }
    let step = ulp(time) * r.pick(&[0.25, 0.5, 0.75, 1.0, 1.5, 2.0, 3.0, 4.0]) * r.sign();
    if r.chance(50) { r.near(step) } else { step }
}

fn endpoint_step(r: &mut Random) -> String {
    let time = time(r);
    let endpoint = match r.below(8) {
        0 => r.double(),
        1 => time,
        2 => r.near(time),
        3 => -time,
        4 => time + unresolved(r, time),
        _ => time + r.finite(),
    };
    let rest = endpoint - time;
    let proposal = match r.below(8) {
        0 => r.double(),
        1 => rest,
        2 => r.near(rest),
        3 => -rest,
        4 => rest * r.unit(),
        5 => unresolved(r, time).copysign(rest),
        6 => r.finite().copysign(rest),
        _ => r.pick(&[0.0, -0.0, f64::MAX, -f64::MAX, power(-1074), -power(-1074)]),
    };
    format!(
        "endpoint_step {} {} {}",
        double(time),
        double(endpoint),
        double(proposal)
    )
}

fn checked_time(r: &mut Random) -> String {
    let time = time(r);
    let step = match r.below(8) {
        0 => r.double(),
        1 | 2 => unresolved(r, time),
        3 => -time,
        4 => r.near(-time),
        5 => time * power(-(r.below(8) as i64) - 48),
        6 => r.pick(&[0.0, -0.0, power(-1074), f64::MAX, -f64::MAX]),
        _ => r.finite(),
    };
    format!("checked_time {} {}", double(time), double(step))
}

fn probes(r: &mut Random) -> String {
    let time = time(r);
    let step = match r.below(8) {
        0 => r.double(),
        1 | 2 => unresolved(r, time),
        3 => f64::from_bits(1 + r.below(6)) * r.sign(),
        4 => time * power(-(r.below(8) as i64) - 48),
        5 => r.pick(&[0.0, -0.0, -time, time, f64::MAX]),
        _ => r.finite(),
    };
    let mut line = format!("probes {} {}", double(time), double(step));
    let mut set = |key: &str, x: f64| line += &format!(" {key}={}", double(x));
    if r.chance(40) {
        set("scale", setting(r));
    }
    if r.chance(40) {
        set(
            "rel",
            if r.chance(50) {
                power(-(r.below(60) as i64))
            } else {
                setting(r)
            },
        );
    }
    if r.chance(40) {
        let fraction = match r.below(10) {
            0 => r.double(),
            1 => r.pick(&[0.0, -0.0, -0.5, 1.0, power(-1074)]),
            2 | 3 => r.near(0.5),
            4 => 0.5,
            _ => r.unit() / 2.0,
        };
        set("frac", fraction);
    }
    if r.chance(50) {
        let (lo, hi) = bounds(r, time, step);
        set("lo", lo);
        set("hi", hi);
    }
    line
}

/// Mostly finite and positive.
pub(crate) fn setting(r: &mut Random) -> f64 {
    if r.chance(5) {
        r.double()
    } else {
        r.positive()
    }
}

pub(crate) fn bounds(r: &mut Random, time: f64, step: f64) -> (f64, f64) {
    let end = time + step;
    let (low, high) = (time.min(end), time.max(end));
    match r.below(12) {
        0 => (r.double(), r.double()),
        1 => (time, time),
        2 => (high, low),
        3 => (r.near(low), r.near(high)),
        4 => (time, r.near(time)),
        5 => (r.near(time), time),
        6 => (r.edge(), high),
        7 => (low, r.edge()),
        8 => (-f64::MAX, f64::MAX),
        9 => (low + step.abs() * r.unit(), high),
        10 => (low, high - step.abs() * r.unit()),
        _ => (low - r.positive(), high + r.positive()),
    }
}

fn partial(r: &mut Random) -> String {
    let base = time(r);
    let first = beside(r, base);
    let d1 = match r.below(6) {
        0 => r.double(),
        1 => first - base,
        2 => power(r.below(2098) as i64 - 1074) * r.sign(),
        3 => 6.055e-6 * r.unit() * r.sign(),
        _ => r.finite(),
    };
    let second = (!r.chance(35)).then(|| beside(r, base));
    let d2 = (second.is_some() != r.chance(10)).then(|| match r.below(8) {
        0 => r.double(),
        1 => d1,
        2 => r.near(d1),
        3 => -d1,
        _ => d1 * 2.0,
    });
    format!(
        "partial {} {} {} {} {}",
        double(base),
        double(first),
        option(second),
        double(d1),
        option(d2)
    )
}

fn beside(r: &mut Random, base: f64) -> f64 {
    match r.below(6) {
        0 => r.double(),
        1 => base,
        2 => r.near(base),
        3 => base * (1.0 + 1e-5 * r.unit()),
        4 => r.subnormal(),
        _ => r.finite(),
    }
}

// ---- matrices

/// Mostly small: a line of n = 32 is some 17,000 characters.
fn dimension(r: &mut Random) -> usize {
    let most = if r.chance(95) { 6 } else { 32 };
    1 + r.below(most) as usize
}

/// An n by n matrix of one kind, by rows.
fn matrix(r: &mut Random, n: usize) -> Vec<f64> {
    let mut m: Vec<f64> = match r.below(9) {
        // whole numbers: ties, zeros, singular ones
        0 => (0..n * n).map(|_| r.below(5) as f64 - 2.0).collect(),
        // the two zeros among them
        1 => (0..n * n)
            .map(|_| r.pick(&[0.0, -0.0, 1.0, -1.0]))
            .collect(),
        2 => (0..n * n).map(|_| r.subnormal()).collect(),
        // overflow inside the elimination
        3 => (0..n * n)
            .map(|_| r.sign() * r.unit() * power(1020 + r.below(4) as i64))
            .collect(),
        4 => (0..n * n).map(|_| r.finite()).collect(),
        // the identity and a little, as a stepper has it
        5 => (0..n * n)
            .map(|k| (k % (n + 1) == 0) as u64 as f64 - (r.unit() - 0.5) * power(-3))
            .collect(),
        _ => (0..n * n).map(|_| r.unit() * 2.0 - 1.0).collect(),
    };
    let row = |r: &mut Random| r.below(n as u64) as usize * n;
    match r.below(8) {
        // one row is another, or nearly
        0 | 1 => {
            let (from, to) = (row(r), row(r));
            let gap = r.pick(&[0.0, power(-53), power(-51), power(-48), power(-40)]);
            for k in 0..n {
                m[to + k] = m[from + k] * (1.0 + gap * r.unit());
            }
        }
        // a column is nothing, or nearly
        2 => {
            let (column, by) = (
                row(r) / n,
                r.pick(&[0.0, power(-52), power(-50), power(-1000)]),
            );
            m.iter_mut().skip(column).step_by(n).for_each(|x| *x *= by);
        }
        _ => {}
    }
    m
}

/// With an entry that is not finite.
fn spoilt(r: &mut Random, mut m: Vec<f64>) -> Vec<f64> {
    let k = r.below(m.len() as u64) as usize;
    m[k] = r.pick(&[f64::NAN, f64::INFINITY, f64::NEG_INFINITY]);
    m
}

fn doubles(r: &mut Random, n: usize) -> Vec<f64> {
    (0..n).map(|_| r.double()).collect()
}

/// A matrix for the forms that test it, wrong in a few of a hundred.
fn tested(r: &mut Random, n: usize) -> Vec<f64> {
    let mut m = matrix(r, n);
    match r.below(20) {
        0 => spoilt(r, m),
        1 => {
            m.truncate(r.below(m.len() as u64) as usize);
            m
        }
        _ => m,
    }
}

fn lu(r: &mut Random) -> String {
    let n = dimension(r);
    format!("lu {n} {}", vector(&tested(r, n)))
}

fn lusolve(r: &mut Random) -> String {
    let n = dimension(r);
    let m = tested(r, n);
    let rhs = if r.chance(97) { n } else { n - 1 };
    format!("lusolve {n} {} {}", vector(&m), vector(&doubles(r, rhs)))
}

fn rawlu(r: &mut Random) -> String {
    let n = dimension(r);
    let mut m = matrix(r, n);
    if r.chance(30) {
        m = spoilt(r, m);
    }
    let before: Vec<usize> = (0..n).map(|_| r.below(40) as usize).collect();
    format!("rawlu {n} {} {}", numbers(&before), vector(&m))
}

/// Any factors, and any pivots in range.
fn rawsolve(r: &mut Random) -> String {
    let n = dimension(r);
    let factors = if r.chance(50) {
        matrix(r, n)
    } else {
        doubles(r, n * n)
    };
    let pivots: Vec<usize> = (0..n).map(|_| r.below(n as u64) as usize).collect();
    let x = doubles(r, n);
    format!(
        "rawsolve {n} {} {} {}",
        vector(&factors),
        numbers(&pivots),
        vector(&x)
    )
}

// ---- norm, first step, segment

/// Finite doubles of one size, or of any.
fn finites(r: &mut Random, n: usize) -> Vec<f64> {
    let by = power(r.below(2000) as i64 - 1000);
    match r.below(4) {
        0 => (0..n).map(|_| r.finite()).collect(),
        1 => (0..n).map(|_| r.pick(&[0.0, -0.0, by, -by])).collect(),
        _ => (0..n).map(|_| (r.unit() - 0.5) * by).collect(),
    }
}

/// The original tests nothing here: what the port would refuse is left out.
fn norm(r: &mut Random) -> String {
    let n = dimension(r);
    let state = finites(r, n);
    let candidate = if r.chance(50) {
        finites(r, n)
    } else {
        state.clone()
    };
    let error = match r.below(4) {
        0 => vec![0.0; n],
        1 => (0..n).map(|_| r.subnormal()).collect(),
        _ => finites(r, n),
    };
    let (absolute, relative) = match r.below(3) {
        0 => (1e-6, 1e-3),
        _ => (r.positive(), r.positive()),
    };
    format!(
        "norm {} {} {} {} {}",
        double(absolute),
        double(relative),
        vector(&state),
        vector(&candidate),
        vector(&error)
    )
}

fn first_step(r: &mut Random) -> String {
    let n = dimension(r);
    let mut parts = [
        finites(r, n),
        finites(r, n),
        (0..n).map(|_| r.positive()).collect(),
    ];
    if r.chance(50) {
        // ordinary norms
        parts = parts.map(|p| p.iter().map(|_| 0.1 + r.unit() * 10.0).collect());
    }
    let (mut direction, mut maximum) = (r.sign(), r.positive());
    let which = r.below(3) as usize;
    let k = r.below(n as u64) as usize;
    match r.below(16) {
        0 => drop(parts[which].pop()),
        1 => parts[which][k] = r.pick(&[f64::NAN, f64::INFINITY]),
        2 => parts[2][k] = r.pick(&[0.0, -0.0, -1.0]),
        3 => direction = r.double(),
        4 => maximum = r.double(),
        5 | 6 => {
            // a ratio that overflows
            parts[which % 2][k] = 1e300;
            parts[2][k] = 1e-300;
        }
        _ => {}
    }
    let [state, derivative, scales] = parts.map(|p| vector(&p));
    format!(
        "initial_step {state} {derivative} {scales} {} {}",
        double(direction),
        double(maximum)
    )
}

/// Evenly spread over the whole range, so nearly always huge.
fn wide(r: &mut Random) -> f64 {
    f64::MAX * (r.unit() * 2.0 - 1.0)
}

fn segment(r: &mut Random) -> String {
    let n = dimension(r);
    let mut order = 2 + r.below(3) as usize;
    let mut start = r.finite();
    let mut end = match r.below(4) {
        0 => r.finite(),
        1 => r.near(start),
        _ => start + r.sign() * r.positive(),
    };
    let mut states = [
        finites(r, n),
        finites(r, n),
        finites(r, n * order),
        vec![7.0; n],
    ];
    if r.chance(20) {
        states[2] = (0..n * order).map(|_| wide(r)).collect();
    }
    // both times over the whole range: their distance may overflow
    let huge = r.chance(25);
    if huge {
        (start, end) = (wide(r), wide(r));
        if r.chance(60) {
            // from one end of the range to the other
            let far = |r: &mut Random| f64::MAX * (1.0 - r.unit() / 2.0);
            (start, end) = (far(r).copysign(start), far(r).copysign(-start));
        }
    }
    let time = match r.below(8) {
        0 => start,
        1 => end,
        2 => r.double(),
        3 => {
            let x = r.pick(&[start, end]);
            r.near(x)
        }
        _ if huge => {
            let part = r.unit();
            start * (1.0 - part) + end * part
        }
        _ => start + (end - start) * r.unit(),
    };
    let which = r.below(4) as usize;
    let k = r.below(n as u64) as usize;
    match r.below(16) {
        0 => drop(states[which].pop()),
        1 => states[which % 3][k] = r.pick(&[f64::NAN, f64::INFINITY]),
        2 => order = r.pick(&[0, 1, 5, 6]),
        3 => end = start,
        4 if r.chance(50) => start = f64::NAN,
        4 => end = f64::INFINITY,
        5 => states[3].push(7.0),
        _ => {}
    }
    let [start_state, end_state, corrections, output] = states.map(|p| vector(&p));
    format!(
        "segment {} {} {start_state} {end_state} {corrections} {order} {} {output}",
        double(start),
        double(end),
        double(time)
    )
}

// ---- the controller

const STEPS: &[f64] = &[0.001, 0.01, 0.5, 1.0, 2.0, 10.0];

fn step(r: &mut Random) -> f64 {
    match r.below(12) {
        0 => r.double(),
        1 => r.subnormal(),
        2 => r.positive() * r.sign(),
        _ => {
            let x = r.pick(STEPS) * r.sign();
            if r.chance(30) { r.near(x) } else { x }
        }
    }
}

/// `key=` and a value, mostly one that is valid.
fn assigned(r: &mut Random, key: &str, valid: &[f64]) -> String {
    let x = match r.below(60) {
        0 => r.double(),
        1 => {
            let x = r.pick(valid);
            r.near(x)
        }
        _ => r.pick(valid),
    };
    format!(" {key}={}", double(x))
}

fn settings(r: &mut Random) -> String {
    let mut text = String::new();
    let exponents = [0.5, 0.25, 1.0 / 3.0, 0.7, 2.0, 400.0];
    let others = [0.0, -0.2, 0.4, -0.08, 300.0, -300.0];
    match r.below(8) {
        0 | 1 => text += &format!(" order={}", 1 + r.below(8)),
        2 | 3 => {
            // infinite powers and zero ones, whose product may be NaN by logarithms too
            let huge = [1e308, -1e308];
            let beta = [1e308, r.pick(&huge), r.pick(&[0.0, 1e308, -1e308])];
            text += &format!(" beta={}", vector(&beta));
        }
        _ => {
            let mut beta = [r.pick(&exponents), r.pick(&others), r.pick(&others)];
            if r.chance(3) {
                beta[r.below(3) as usize] = r.double();
            }
            text += &format!(" beta={}", vector(&beta));
        }
    }
    for (key, valid) in [
        ("safety", &[0.9, 0.8, 1.0, 2.0][..]),
        ("minf", &[0.2, 0.1, 0.5, 1.0]),
        ("maxf", &[5.0, 10.0, 1.0, 1e300]),
        ("rejmax", &[0.5, 0.9, 1.0, 0.25]),
        ("accmax", &[1.0, 0.5, 2.0, 1e300]),
        ("minstep", &[0.0, 0.001, 0.5, 1.0, 5e-324]),
        ("maxstep", &[10.0, 1.0, 2.0, f64::MAX]),
        ("floor", &[1e-4, 1.0, f64::MIN_POSITIVE, 5e-324]),
    ] {
        if r.chance(50) {
            text += &assigned(r, key, valid);
        }
    }
    if r.chance(30) {
        let history = [r.positive(), r.pick(&[1.0, 1e-300, 1e300])];
        text += &format!(" hist={}", vector(&history));
    }
    if r.chance(30) {
        text += &assigned(r, "rejexp", &[0.2, 0.5, 1.0]);
    }
    if r.chance(30) {
        text += &assigned(r, "repmax", &[0.1, 0.25, 0.5, 1.0]);
    }
    if r.chance(60) {
        text += " policy=force";
    }
    if r.chance(50) {
        text += " eq=0";
    }
    text
}

fn ctl_new(r: &mut Random) -> String {
    let settings = settings(r);
    format!("ctl new step={}{settings}", double(step(r)))
}

fn error(r: &mut Random) -> f64 {
    match r.below(16) {
        0 => r.double(),
        1 => r.pick(&[0.0, -0.0, f64::INFINITY]),
        2 => r.subnormal().abs(),
        3..=6 => r.near(1.0),
        7..=9 => r.unit(),
        10..=12 => 1.0 + r.unit() * 10.0,
        _ => r.positive(),
    }
}

fn ctl_assess(r: &mut Random) -> String {
    match r.below(30) {
        0 => ctl_new(r),
        1 => "ctl state".into(),
        _ => {
            let step = step(r);
            format!("ctl assess {} {}", double(step), double(error(r)))
        }
    }
}

fn ctl_restore(r: &mut Random) -> String {
    if r.chance(5) {
        return ctl_new(r);
    }
    let errors = [
        r.positive(),
        if r.chance(90) {
            r.positive()
        } else {
            r.double()
        },
    ];
    let count = r.below(3);
    let marked = if r.chance(85) { count > 0 } else { count == 0 };
    format!(
        "ctl restore errs={} rej={} next={} count={count}",
        vector(&errors),
        u8::from(marked),
        double(step(r))
    )
}

fn ctl_reset(r: &mut Random) -> String {
    match r.below(10) {
        0 => ctl_new(r),
        1 | 2 => ctl_restore(r),
        _ => format!("ctl reset {}", double(step(r))),
    }
}
