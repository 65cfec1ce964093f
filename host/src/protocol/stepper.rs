//! The stepper's commands. A call that the library refuses because an attempt is open, or because
//! none is, is answered `err 18` or `err 17`; the oracle has `bad` there.
use super::Answer;
use super::text::{Args, double, numbers, option, to_numbers, vector};
use crate::Failure;
use crate::rosenbrock::calls::{self, Lent, Memory, Modes, Record, Told};
use crate::rosenbrock::direct::{self, Part};
use crate::rosenbrock::reading::{self, Asked};
use crate::rosenbrock::{RosenbrockStepView, StepStatistics};
use crate::tableau::{self, Coefficients};

/// The last tableau file, and the stepper.
#[derive(Default)]
pub struct Steppers {
    tableau: Option<Vec<u8>>,
    stepper: Option<Stepper>,
}

// a call in one of its two forms
type Attempt = fn(&mut Record, &[u8], f64, Modes, Lent<'_>) -> calls::Answer;
type AttemptTo = fn(&mut Record, &[u8], f64, f64, Modes, Lent<'_>) -> calls::Answer;
type Supply = fn(&mut Record, &[u8], &[f64], Lent<'_>) -> calls::Answer;
type Decide = fn(&mut Record, Lent<'_>) -> calls::Answer;

/// A stepper with the file that it was made with.
struct Stepper {
    file: Vec<u8>,
    record: Record,
    memory: Memory,
}

impl Steppers {
    pub fn system(&self) -> Option<(&Record, &Memory)> {
        self.stepper.as_ref().map(|s| (&s.record, &s.memory))
    }

    /// None for a command that is not the stepper's.
    pub fn command(&mut self, name: &str, args: &Args<'_>) -> Option<Answer> {
        Some(match name {
            "tableau" => coefficients(args).map(|c| self.tableau(c.b.len(), c.file())),
            "tabfile" => file(args).map(|file| self.tableau(tableau::stages(&file), file)),
            "make" | "makeb" => self.make(args),
            "attempt" => self.attempt(args),
            "attempt_to" => self.attempt_to(args),
            "give" => self.give(args),
            "fail" => self.unit(|s| calls::fail(&mut s.record, s.memory.lend())),
            "accept" => self.decide(args, calls::accept, calls::accept_in_place),
            "reject" => self.decide(args, calls::reject, calls::reject_in_place),
            "inject" => self.inject(args),
            "reset" => self.reset(args),
            "show" => self.reader(|_| "ok".into()),
            "setstats" => self.set_statistics(args),
            "dump" => self.reader(|s| s.dump()),
            _ => return None,
        })
    }

    fn tableau(&mut self, stages: usize, file: Vec<u8>) -> String {
        self.tableau = Some(file);
        format!("ok stages={stages}")
    }

    fn make(&mut self, args: &Args<'_>) -> Answer {
        let file = self.tableau.clone().ok_or("no tableau")?;
        let (time, state) = (args.double(1)?, args.vector(2)?);
        let policy = args.policy(); // where it is wrong, a refusal still comes first
        let mut memory = Memory::new(&state, tableau::stages(&file));
        let judged_later = policy.clone().unwrap_or_default().into();
        let record = match calls::new(&file, judged_later, time, memory.lend()) {
            Ok(record) => record,
            Err(failure) => return Ok(refusal(failure)),
        };
        policy?;
        let stepper = self.stepper.insert(Stepper {
            file,
            record,
            memory,
        });
        Ok(stepper.told(Ok(Told::Done)))
    }

    fn stepper(&mut self) -> Result<&mut Stepper, String> {
        self.stepper.as_mut().ok_or("no stepper".into())
    }

    fn unit(&mut self, call: impl FnOnce(&mut Stepper) -> calls::Answer) -> Answer {
        let stepper = self.stepper()?;
        let answer = call(stepper);
        Ok(stepper.told(answer))
    }

    fn decide(&mut self, args: &Args<'_>, by_value: Decide, in_place: Decide) -> Answer {
        let decide = form(args, 1, by_value, in_place);
        self.unit(|s| decide(&mut s.record, s.memory.lend()))
    }

    fn reader(&mut self, read: impl FnOnce(&Stepper) -> String) -> Answer {
        let stepper = self.stepper()?;
        Ok(match stepper.now() {
            Ok(now) => format!("{} {now}", read(stepper)),
            Err(failure) => refusal(failure),
        })
    }

    fn attempt(&mut self, args: &Args<'_>) -> Answer {
        let (step, modes) = (args.double(1)?, modes(args, 2)?);
        let attempt = form(args, 4, calls::attempt as Attempt, calls::attempt_in_place);
        self.unit(|s| attempt(&mut s.record, &s.file, step, modes, s.memory.lend()))
    }

    fn attempt_to(&mut self, args: &Args<'_>) -> Answer {
        let (endpoint, proposal) = (args.double(1)?, args.double(2)?);
        let modes = modes(args, 3)?;
        let (by_value, in_place) = (calls::attempt_to as AttemptTo, calls::attempt_to_in_place);
        let attempt_to = form(args, 5, by_value, in_place);
        self.unit(|s| {
            let (record, lent) = (&mut s.record, s.memory.lend());
            attempt_to(record, &s.file, endpoint, proposal, modes, lent)
        })
    }

    fn give(&mut self, args: &Args<'_>) -> Answer {
        let values = args.vector(1)?;
        let supply = form(args, 2, calls::supply as Supply, calls::supply_in_place);
        let s = self.stepper()?;
        let answer = supply(&mut s.record, &s.file, &values, s.memory.lend());
        // in the original's words
        match (answer, reading::request(&s.record, &s.memory)) {
            (Err(Failure::Dimension), Ok(request)) if request.wanted() != values.len() => {
                Err(format!("length, wants {}", request.wanted()))
            }
            _ => Ok(s.told(answer)),
        }
    }

    fn inject(&mut self, args: &Args<'_>) -> Answer {
        let derivative = args.vector(1)?;
        self.unit(|s| calls::inject_derivative(&mut s.record, &derivative, s.memory.lend()))
    }

    fn reset(&mut self, args: &Args<'_>) -> Answer {
        let (time, state) = (args.double(1)?, args.vector(2)?);
        self.unit(|s| calls::reset(&mut s.record, time, &state, s.memory.lend()))
    }

    fn set_statistics(&mut self, args: &Args<'_>) -> Answer {
        let counters = to_numbers(args.token(1)?)?;
        let counters: Vec<u64> = counters.into_iter().map(|x| x as u64).collect();
        let [
            attempts,
            rhs,
            accepted,
            rejected,
            jacobian,
            factorizations,
            solves,
        ] = counters[..]
        else {
            return Err("seven counters".into());
        };
        let stepper = self.stepper()?;
        if stepper.now().is_ok() {
            stepper.record.statistics = StepStatistics {
                attempts,
                rhs_evaluations: rhs,
                accepted_steps: accepted,
                rejected_steps: rejected,
                jacobian_evaluations: jacobian,
                factorizations,
                linear_solves: solves,
            };
        }
        self.reader(|_| "ok".into())
    }
}

impl Stepper {
    /// The answer of a call: what is needed, or the answer and what is accepted now. While an
    /// attempt is open, what is accepted is not shown.
    fn told(&self, answer: calls::Answer) -> String {
        let text = match answer {
            Ok(Told::Asked) => return self.need(),
            Ok(Told::Shown) => {
                let shown = reading::view(&self.record, &self.memory).expect("a pending step");
                format!(
                    "ok {} view_{}",
                    entries(&shown),
                    statistics(shown.statistics)
                )
            }
            Ok(Told::Done) => "ok".into(),
            Err(failure) => refusal(failure),
        };
        match self.now() {
            Ok(now) => format!("{text} {now}"),
            Err(_) => text,
        }
    }

    fn need(&self) -> String {
        let request = reading::request(&self.record, &self.memory).expect("a request");
        let kind = match request.asked {
            Asked::Derivative => "rhs",
            Asked::Jacobian => "jac",
            Asked::TimePartial => "tp",
        };
        let (time, state) = (double(request.time), vector(request.state));
        format!("need {kind} time={time} state={state}")
    }

    /// What is accepted; refused while an attempt is open.
    fn now(&self) -> Result<String, Failure> {
        let (record, memory) = (&self.record, &self.memory);
        Ok(format!(
            "{} time={} state={}",
            statistics(reading::statistics(record, memory)?),
            double(reading::time(record, memory)?),
            vector(reading::state(record, memory)?)
        ))
    }

    fn dump(&self) -> String {
        let progress = &self.record.progress;
        let derivative = reading::derivative(&self.record, &self.memory);
        let pending = (progress.request == 1).then_some(progress.step);
        let mut text = format!(
            "ok derivative={} differentiation={} pending={}",
            u8::from(derivative.is_ok_and(|d| d.is_some())),
            u8::from(progress.memo.differentiation_valid),
            option(pending)
        );
        for (name, which) in [
            ("candidate", Part::Candidate),
            ("error", Part::Error),
            ("stages", Part::Stages),
            ("rhs_stages", Part::RhsStages),
            ("stage_state", Part::StageState),
            ("current", Part::Current),
            ("jacobian", Part::Jacobian),
            ("factors", Part::Factors),
            ("time_partial", Part::TimePartial),
            ("probe_state", Part::ProbeState),
            ("probe_rhs", Part::ProbeRhs),
            ("linear_rhs", Part::LinearRhs),
        ] {
            let values = vector(direct::part(&self.record, &self.memory, which));
            text += &format!(" {name}={values}");
        }
        format!("{text} pivots={}", numbers(&self.memory.pivots))
    }
}

/// With the word `in_place` there, on the record where it stands; else by value.
fn form<T>(args: &Args<'_>, i: usize, by_value: T, in_place: T) -> T {
    match args.token(i) {
        Ok("in_place") => in_place,
        _ => by_value,
    }
}

fn modes(args: &Args<'_>, i: usize) -> Result<Modes, String> {
    Ok(Modes {
        host_jacobian: args.host(i)?,
        host_time_partial: args.host(i + 1)?,
    })
}

/// In the original's words, where these are others.
fn refusal(failure: Failure) -> String {
    let name = match failure {
        Failure::Singular => "SingularSystem",
        Failure::HostFailure => "User",
        failure => failure.name(),
    };
    format!("err {} {name}", failure.number())
}

fn statistics(s: StepStatistics) -> String {
    format!(
        "stats={},{},{},{},{},{},{}",
        s.attempts,
        s.rhs_evaluations,
        s.accepted_steps,
        s.rejected_steps,
        s.jacobian_evaluations,
        s.factorizations,
        s.linear_solves
    )
}

/// The step's entries, counters apart.
pub fn entries(v: &RosenbrockStepView<'_>) -> String {
    format!(
        "prev={} start={} end={} cand={} err={} solved={} rhs={} jac={} tp={}",
        vector(v.previous_state),
        double(v.start_time),
        double(v.end_time),
        vector(v.candidate),
        v.component_error.map_or("-".into(), vector),
        vector(v.solved_stages),
        vector(v.stage_derivatives),
        vector(v.jacobian),
        vector(v.time_partial)
    )
}

/// gamma= a= C= c= d= b= btilde= est= kind=, each 0 where it is left out, but gamma and b 1.
fn coefficients(args: &Args<'_>) -> Result<Coefficients, String> {
    let b = args.named_vector("b", &[1.0])?;
    let s = b.len();
    // 9 stages make no file, however many they are
    let part = |key: &str, length: usize, wants: &str| {
        let part = args.named_vector(key, &vec![0.0; length.min(36)])?;
        match args.named(key) {
            Some(_) if part.len() != length => Err(format!("{key}: wants {wants} entries")),
            _ => Ok(part),
        }
    };
    let lower = |key: &str| part(key, s * s.saturating_sub(1) / 2, "s(s-1)/2");
    let whole = |key: &str| part(key, s, "s");
    let btilde = match args.named("btilde") {
        None | Some("-") => None,
        Some(_) => Some(whole("btilde")?),
    };
    args.named_vector("h", &[])?; // of residual control, which is left out
    Ok(Coefficients {
        step_doubling: match args.named("est") {
            None | Some("emb") => false,
            Some("rich") => true,
            _ => return Err("est".into()),
        },
        hybrid: match args.named("kind") {
            None | Some("ros") => false,
            Some("hybrid") => true,
            _ => return Err("kind".into()),
        },
        gamma: args.named_double("gamma", 1.0)?,
        a: lower("a")?,
        coupling: lower("C")?,
        c: whole("c")?,
        d: whole("d")?,
        b,
        btilde,
    })
}

fn file(args: &Args<'_>) -> Result<Vec<u8>, String> {
    let digits = args.token(1)?;
    let pairs = (0..digits.len() / 2).map(|i| digits.get(2 * i..2 * i + 2).unwrap_or_default());
    let bytes = pairs.map(|pair| u8::from_str_radix(pair, 16));
    bytes.collect::<Result<_, _>>().map_err(|_| "bytes".into())
}
