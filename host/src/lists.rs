//! Random lists of the stepper's calls in the protocol: a tableau, a making, then calls in any
//! order, each request answered. What the next line can be depends on the last answer, so a list is
//! written while the port answers it.
use crate::protocol::Host;
use crate::protocol::text::{double, vector};
use crate::random::{Random, power, ulp};
use crate::rosenbrock::Ask;
use crate::rosenbrock::calls::Record;
use crate::script;
use crate::tableau::Coefficients;
use std::collections::VecDeque;

/// One list. `next` gives its lines.
pub struct List {
    n: usize,
    gamma: f64,
    /// Lines to come first.
    first: VecDeque<String>,
    /// Lines to come, apart from answers to requests.
    left: u64,
    /// Of a hundred answers to requests: how many are wrong, and how many are of any size.
    wrong: u64,
    wild: u64,
    /// Steps of a few units in the last place of the time.
    tiny: bool,
    /// The original's scratch is the port's: there was no reset, and no failure that wrote.
    same_scratch: bool,
    rejected: bool,
}

const SPOILT: &[f64] = &[f64::NAN, f64::INFINITY, f64::NEG_INFINITY];

impl List {
    pub fn new(r: &mut Random) -> Self {
        let n = match r.below(100) {
            0..40 => 1 + r.below(2),
            40..96 => 1 + r.below(6),
            _ => 1 + r.below(32),
        } as usize;
        let tableau = tableau(r);
        let mut list = Self {
            n,
            gamma: tableau.gamma,
            first: VecDeque::new(),
            left: 4 + r.below(30),
            wrong: r.pick(&[0, 2, 5, 15]),
            wild: r.pick(&[0, 0, 0, 4, 50]),
            tiny: r.chance(15),
            same_scratch: true,
            rejected: false,
        };
        let time = time(r);
        if r.chance(12) {
            list.refused_makings(r, time);
        }
        list.first.push_back(line_of(r, &tableau));
        let making = list.making(r, time);
        list.first.push_back(making);
        list
    }

    /// So many lines more, apart from answers to requests.
    pub fn go_on(&mut self, lines: u64) {
        self.left = lines;
        self.rejected = false;
    }

    /// Makings of which most are refused.
    fn refused_makings(&mut self, r: &mut Random, time: f64) {
        let mut tableau = tableau(r);
        for hybrid in [false, true] {
            tableau.hybrid = hybrid;
            self.first.push_back(line_of(r, &tableau));
            for _ in 0..1 + r.below(3) {
                let (mut time, mut state) = (time, self.state(r));
                match r.below(4) {
                    0 => state.clear(),
                    1 => spoil(r, &mut state),
                    2 => time = r.pick(SPOILT),
                    _ => {}
                }
                let (time, state) = (double(time), vector(&state));
                self.first.push_back(format!("{} {time} {state}", word(r)));
            }
        }
    }

    fn making(&self, r: &mut Random, time: f64) -> String {
        let (word, policy) = (word(r), policy(r, time, self.tiny));
        format!("{word} {} {}{policy}", double(time), vector(&self.state(r)))
    }

    fn state(&self, r: &mut Random) -> Vec<f64> {
        let mut state = self.values(r, self.n);
        if r.chance(4) {
            let k = r.below(self.n as u64) as usize;
            state[k] = f64::MAX * r.sign();
        }
        state
    }

    fn values(&self, r: &mut Random, k: usize) -> Vec<f64> {
        if r.chance(self.wild) {
            return (0..k).map(|_| r.finite()).collect();
        }
        match r.below(10) {
            0 => (0..k).map(|_| r.pick(&[0.0, -0.0, 1.0, -1.0])).collect(),
            1 => vec![r.pick(&[0.0, -0.0]); k],
            2 => (0..k).map(|_| r.below(9) as f64 - 4.0).collect(),
            3 => (0..k).map(|_| r.subnormal()).collect(),
            _ => (0..k).map(|_| r.unit() * 4.0 - 2.0).collect(),
        }
    }

    /// The next line, none at the end. `host` has answered the lines before.
    pub fn next(&mut self, r: &mut Random, host: &Host) -> Option<String> {
        if let Some(line) = self.first.pop_front() {
            return Some(line);
        }
        let record = host.record().expect("a stepper was made");
        if let Some(ask) = Ask::of(record) {
            return Some(self.answer(r, record, ask));
        }
        if self.left == 0 {
            return None;
        }
        self.left -= 1;
        let rejected = std::mem::take(&mut self.rejected);
        Some(if record.progress.request == 1 {
            match r.below(100) {
                0..45 => formed(r, "accept"),
                45..76 => {
                    self.rejected = true;
                    formed(r, "reject")
                }
                76..80 => self.attempt(r, record, false),
                80..86 => self.attempt_to(r, record),
                86..90 => self.inject(r),
                90..94 => self.reset(r, record),
                _ => self.other(r),
            }
        } else {
            match r.below(100) {
                0..45 => self.attempt(r, record, rejected),
                45..70 => self.attempt_to(r, record),
                70..74 => {
                    let word = r.pick(&["accept", "reject"]);
                    formed(r, word)
                }
                74..84 => self.inject(r),
                84..91 => self.reset(r, record),
                _ => self.other(r),
            }
        })
    }

    // ---- calls

    fn attempt(&self, r: &mut Random, record: &Record, rejected: bool) -> String {
        let (time, last) = (record.progress.time, record.progress.step);
        let step = match r.below(12) {
            0..9 if rejected => last * 0.5,
            _ => self.step(r, time),
        };
        let line = format!("attempt {}{}", double(step), modes(r));
        formed(r, &line)
    }

    fn attempt_to(&self, r: &mut Random, record: &Record) -> String {
        let time = record.progress.time;
        let step = self.step(r, time);
        let endpoint = match r.below(12) {
            0 => time,
            1 => r.double(),
            2 => r.pick(SPOILT),
            _ => time + step * r.pick(&[0.5, 1.0, 1.0, 2.0, 100.0]),
        };
        let proposal = match r.below(12) {
            0 => -step,
            1 => r.pick(&[0.0, -0.0, f64::MAX, -f64::MAX]),
            2 => r.double(),
            3 => endpoint - time,
            _ => step,
        };
        let (endpoint, proposal) = (double(endpoint), double(proposal));
        let line = format!("attempt_to {endpoint} {proposal}{}", modes(r));
        formed(r, &line)
    }

    fn step(&self, r: &mut Random, time: f64) -> f64 {
        if self.tiny && r.chance(70) {
            return ulp(time) * (1 + r.below(6)) as f64 * r.sign();
        }
        match r.below(32) {
            0 | 1 => r.pick(&[0.0, -0.0]),
            2 => ulp(time) * r.pick(&[0.25, 0.5, 0.75, 1.0]) * r.sign(),
            3 => r.pick(SPOILT),
            4 => r.pick(&[f64::MAX, -f64::MAX, power(1020), -time]),
            5 => r.subnormal(),
            6 => r.double(),
            7..20 => power(3 - r.below(11) as i64) * r.sign(),
            _ => (r.unit() + 0.01) * r.sign(),
        }
    }

    fn inject(&self, r: &mut Random) -> String {
        let mut derivative = self.values(r, self.n);
        match r.below(8) {
            0 => spoil(r, &mut derivative),
            1 => resize(r, &mut derivative),
            _ => {}
        }
        format!("inject {}", vector(&derivative))
    }

    fn reset(&mut self, r: &mut Random, record: &Record) -> String {
        let mut state = self.state(r);
        let mut time = if r.chance(50) {
            record.progress.time
        } else {
            time(r)
        };
        match r.below(8) {
            0 => spoil(r, &mut state),
            1 => resize(r, &mut state),
            2 => time = r.pick(SPOILT),
            _ => self.same_scratch = false,
        }
        format!("reset {} {}", double(time), vector(&state))
    }

    fn other(&self, r: &mut Random) -> String {
        match r.below(10) {
            0..6 if self.same_scratch => "dump".into(),
            // far from where the counters end: the original's go round
            6 => {
                let counters: Vec<String> = (0..7).map(|_| (r.bits() >> 1).to_string()).collect();
                format!("setstats [{}]", counters.join(","))
            }
            7 => {
                let line = format!("give {}", vector(&self.values(r, self.n)));
                formed(r, &line)
            }
            8 => "fail".into(),
            _ => "show".into(),
        }
    }

    // ---- answers to requests

    fn answer(&mut self, r: &mut Random, record: &Record, ask: Ask) -> String {
        let wanted = match ask {
            Ask::Jacobian => self.n * self.n,
            _ => self.n,
        };
        let mut values = match ask {
            Ask::Jacobian => self.jacobian(r, record.progress.step),
            _ => self.values(r, wanted),
        };
        if r.chance(self.wrong) {
            match r.below(12) {
                0..4 => spoil(r, &mut values),
                4 | 5 => return "fail".into(),
                6 => {
                    self.same_scratch = false;
                    return format!("fail {}", vector(&values));
                }
                7 | 8 => resize(r, &mut values),
                9 => {
                    let k = r.below(wanted as u64) as usize;
                    values[k] = r.near(f64::MAX.next_down()) * r.sign();
                }
                _ => return self.call_while_open(r, record),
            }
        }
        formed(r, &format!("give {}", vector(&values)))
    }

    /// Now and then one whose matrix is singular, for this step or half of it.
    fn jacobian(&self, r: &mut Random, step: f64) -> Vec<f64> {
        let n = self.n;
        let mut values = self.values(r, n * n);
        if r.chance(12) {
            let row = r.below(n as u64) as usize;
            let by = r.pick(&[1.0, 1.0, 2.0]) / (step * self.gamma);
            if by.is_finite() {
                values[row * n..][..n].fill(0.0);
                values[row * n + row] = by;
            }
        }
        values
    }

    fn call_while_open(&self, r: &mut Random, record: &Record) -> String {
        match r.below(8) {
            0 => self.attempt(r, record, false),
            1 => self.attempt_to(r, record),
            2 => formed(r, "accept"),
            3 => formed(r, "reject"),
            4 => self.inject(r),
            5 => {
                let (time, state) = (record.progress.time, self.state(r));
                format!("reset {} {}", double(time), vector(&state))
            }
            6 => "show".into(),
            _ => "dump".into(),
        }
    }
}

fn word(r: &mut Random) -> &'static str {
    r.pick(&["make", "makeb"])
}

/// By value, or in place: the original does not look at the last word.
fn formed(r: &mut Random, line: &str) -> String {
    format!("{line}{}", r.pick(&["", " in_place"]))
}

fn modes(r: &mut Random) -> String {
    let mode = |r: &mut Random| r.pick(&["h", "p"]);
    format!(" {} {}", mode(r), mode(r))
}

fn spoil(r: &mut Random, values: &mut [f64]) {
    let k = r.below(values.len() as u64) as usize;
    values[k] = r.pick(SPOILT);
}

/// Another length.
fn resize(r: &mut Random, values: &mut Vec<f64>) {
    match r.below(4) {
        0 => values.clear(),
        1 => drop(values.pop()),
        2 => values.extend_from_within(..),
        _ => values.push(1.0),
    }
}

fn time(r: &mut Random) -> f64 {
    match r.below(12) {
        0..4 => r.pick(&[0.0, -0.0]),
        4 => r.finite(),
        5 => r.subnormal(),
        6 => -3.0 * power(970),
        7 => r.sign() * power(52) + r.below(100) as f64,
        _ => r.unit() * 20.0 - 10.0,
    }
}

/// Coefficients with zeros of both signs among them, and the smallest double.
fn tableau(r: &mut Random) -> Coefficients {
    let s = 1 + r.below(8) as usize;
    let (s, zeros) = (if r.chance(30) { 1 } else { s }, r.pick(&[0, 20, 60]));
    let some = |r: &mut Random, k: usize| -> Vec<f64> {
        (0..k)
            .map(|_| match r.below(100) {
                x if x < zeros => r.pick(&[0.0, -0.0, 0.0, -0.0, power(-1074)]),
                x if x >= 97 => r.finite(),
                _ => r.unit() * 4.0 - 2.0,
            })
            .collect()
    };
    let (a, coupling) = (some(r, s * (s - 1) / 2), some(r, s * (s - 1) / 2));
    let (mut c, d, b) = (some(r, s), some(r, s), some(r, s));
    if r.chance(65) {
        c[0] = r.pick(&[0.0, 0.0, -0.0]);
    }
    Coefficients {
        hybrid: false,
        step_doubling: r.chance(25),
        gamma: match r.below(10) {
            0 => r.pick(&[0.0, -0.0]),
            1 => r.finite(),
            2..6 => r.pick(&[1.0, 0.5, 0.25, 2.0]),
            _ => r.unit(),
        },
        btilde: r.chance(70).then(|| some(r, s)),
        a,
        coupling,
        c,
        d,
        b,
    }
}

/// As `tableau` or as `tabfile`.
fn line_of(r: &mut Random, t: &Coefficients) -> String {
    if r.chance(30) {
        let digits: Vec<String> = t.file().iter().map(|b| format!("{b:02x}")).collect();
        return format!("tabfile {}", digits.concat());
    }
    let [a, coupling, c, d, b] = [&t.a, &t.coupling, &t.c, &t.d, &t.b].map(|v| vector(v));
    format!(
        "tableau gamma={} a={a} C={coupling} c={c} d={d} b={b} btilde={} est={} kind={}",
        double(t.gamma),
        t.btilde.as_deref().map_or("-".into(), vector),
        if t.step_doubling { "rich" } else { "emb" },
        if t.hybrid { "hybrid" } else { "ros" }
    )
}

/// The default in half of the lists; else one that may be bad.
fn policy(r: &mut Random, time: f64, tiny: bool) -> String {
    if r.chance(50) {
        return String::new();
    }
    let mut text = String::new();
    let mut set = |key: &str, x: f64| text += &format!(" {key}={}", double(x));
    if r.chance(40) {
        set("scale", script::setting(r));
    }
    if r.chance(40) {
        let step = power(-(r.below(60) as i64));
        set(
            "rel",
            if r.chance(80) {
                step
            } else {
                script::setting(r)
            },
        );
    }
    if r.chance(40) {
        let fractions = [0.5, 0.25, 1.0, 0.0, f64::NAN, power(-1074)];
        set(
            "frac",
            if r.chance(70) {
                r.unit() / 2.0
            } else {
                r.pick(&fractions)
            },
        );
    }
    if r.chance(60) {
        let reach = if tiny { ulp(time) * 4.0 } else { 2.0 };
        let (lo, hi) = match r.below(4) {
            0 => script::bounds(r, time, reach),
            1 => (time, time),
            _ => (time - reach * r.unit(), time + reach * r.unit()),
        };
        set("lo", lo);
        set("hi", hi);
    }
    text
}

// ---- classes

/// Every kind of call with every kind of its answers, as `class` tells them apart.
pub fn classes() -> Vec<String> {
    let mut all = Vec::new();
    let mut of = |call: &str, answers: &[&str]| {
        all.extend(answers.iter().map(|answer| format!("{call}: {answer}")));
    };
    of("tableau", &["ok"]);
    of("tabfile", &["ok"]);
    of("make", &["ok", "err 1", "err 2", "err 3"]);
    of("makeb", &["ok", "err 1", "err 2", "err 3"]);
    of("attempt_to", &["err 4"]);
    for attempt in ["attempt", "attempt_to"] {
        of(attempt, &["err 2", "err 5", "err 14", "err 18"]);
        of(attempt, &["err 2, opened", "err 6, opened"]);
        of(
            attempt,
            &["asks derivative", "asks jacobian", "asks column"],
        );
        of(attempt, &["asks stage", "shows", "shows, error"]);
        of(attempt, &["shows a step 0", "shows a step 0, error"]);
    }
    // after the Jacobian: the time partial or its probes
    let partial = ["asks time partial", "asks first probe", "err 4", "err 5"];
    // after the time partial: the stages, of which the first may need no derivative
    let stages = ["asks stage", "shows", "shows, error", "err 6"];
    of("give at derivative", &["asks jacobian", "asks column"]);
    of("give at jacobian", &partial);
    of("give at column", &partial);
    of("give at column", &["asks column"]);
    of("give at time partial", &stages);
    of("give at first probe", &stages);
    of("give at first probe", &["asks second probe"]);
    of("give at second probe", &stages);
    of("give at stage", &["asks stage", "shows", "shows, error"]);
    for ask in [
        "derivative",
        "jacobian",
        "time partial",
        "first probe",
        "second probe",
        "column",
        "stage",
    ] {
        let give = format!("give at {ask}");
        of(&give, &["err 2", "err 2 of the values", "bad length"]);
        of(&format!("fail at {ask}"), &["err 19"]);
    }
    of("give", &["err 17"]);
    of("fail", &["err 17"]);
    for decision in ["accept", "reject", "accept in_place", "reject in_place"] {
        of(decision, &["ok", "ok at step 0", "err 15", "err 18"]);
    }
    of("inject", &["ok", "err 1", "err 2", "err 14", "err 18"]);
    of(
        "reset",
        &["ok", "ok, a candidate dropped", "err 1", "err 2", "err 18"],
    );
    of("setstats", &["ok"]);
    of("show", &["ok", "err 18"]);
    of("dump", &["ok", "err 18"]);
    all
}

/// The kind of a call and of its answer. `before` and `after`: the records around it.
pub fn class(line: &str, before: Option<&Record>, after: Option<&Record>, answer: &str) -> String {
    let name = if decides(line) {
        line
    } else {
        line.split(' ').next().unwrap_or_default()
    };
    let words: Vec<&str> = answer.split(' ').collect();
    let counted = |record: Option<&Record>| record.map(|r| r.statistics.attempts);
    let asked = before.and_then(Ask::of);
    let pending = before.filter(|r| r.progress.request == 1);
    let told = match words[..] {
        ["err", "17" | "18", ..] => return format!("{name}: err {}", words[1]),
        ["need", ..] => format!(
            "asks {}",
            after.and_then(Ask::of).map_or("nothing", word_of)
        ),
        ["ok", previous, ..] if previous.starts_with("prev=") => {
            let zero = words.contains(&"solved=[]");
            let error = !words.contains(&"err=-");
            format!(
                "shows{}{}",
                if zero { " a step 0" } else { "" },
                if error { ", error" } else { "" }
            )
        }
        ["ok", ..] => match (name, pending) {
            ("reset", Some(_)) => "ok, a candidate dropped".into(),
            (_, Some(r)) if decides(name) && r.progress.step == 0.0 => "ok at step 0".into(),
            _ => "ok".into(),
        },
        ["err", number, ..] => {
            let opened = name.starts_with("attempt") && counted(before) != counted(after);
            let spoilt = SPOILT.iter().any(|x| line.contains(&double(*x)));
            let values = name == "give" && spoilt;
            format!(
                "err {number}{}{}",
                if opened { ", opened" } else { "" },
                if values { " of the values" } else { "" }
            )
        }
        ["bad", "length,", ..] => "bad length".into(),
        _ => "no answer".into(),
    };
    match asked {
        Some(ask) => format!("{name} at {}: {told}", word_of(ask)),
        None => format!("{name}: {told}"),
    }
}

/// The name and form of a call that has two forms.
pub fn form(line: &str) -> Option<String> {
    let name = line.split(' ').next().unwrap_or_default();
    let two = ["attempt", "attempt_to", "give", "accept", "reject"];
    let form = match line.ends_with(" in_place") {
        true => "in place",
        false => "by value",
    };
    two.contains(&name).then(|| format!("{name} {form}"))
}

fn decides(name: &str) -> bool {
    name.starts_with("accept") || name.starts_with("reject")
}

fn word_of(ask: Ask) -> &'static str {
    match ask {
        Ask::Derivative => "derivative",
        Ask::Jacobian => "jacobian",
        Ask::TimePartial => "time partial",
        Ask::FirstProbe => "first probe",
        Ask::SecondProbe => "second probe",
        Ask::Column(_) => "column",
        Ask::Stage(_) => "stage",
    }
}
