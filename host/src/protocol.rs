//! The oracle's protocol, answered by the port: a command a line, an answer a line; what an attempt
//! needs is the answer to the line after which it needs it. A command that the port does not have is
//! answered `bad command NAME`.
mod stepper;
pub mod text;

use crate::controller::{
    AdaptiveController, ControllerConfig, ControllerError, ControllerState, MinimumStepPolicy,
};
use crate::linear::{self, DenseLu};
use crate::rosenbrock::calls::{Memory, Record};
use crate::{
    Failure, StiffSegment, TimeDifferencePolicy, checked_time, endpoint_step, initial_step,
    partial, scaled_error_norm, sqrt,
};
use std::io::{self, BufRead, Write};
use stepper::Steppers;
pub use stepper::entries;
use text::{Args, double, numbers, option, vector};

/// What a command answers; `Err` where the line is wrong and nothing was called.
pub type Answer = Result<String, String>;

/// What is kept from one line to the next.
#[derive(Default)]
pub struct Host {
    controller: Option<AdaptiveController>,
    steppers: Steppers,
}

impl Host {
    /// The stepper's record.
    pub fn record(&self) -> Option<&Record> {
        self.system().map(|(record, _)| record)
    }

    /// The record with the memory that is lent to it.
    pub fn system(&self) -> Option<(&Record, &Memory)> {
        self.steppers.system()
    }

    /// The answer to one command, comments and spaces around it taken off.
    pub fn answer(&mut self, line: &str) -> String {
        self.command(&Args::new(line))
            .unwrap_or_else(|text| format!("bad {text}"))
    }

    fn command(&mut self, args: &Args<'_>) -> Answer {
        let Ok(name) = args.token(0) else {
            return Err("no command".into());
        };
        match name {
            "constants" => self.constants(),
            "endpoint_step" => self.endpoint_step(args),
            "checked_time" => self.checked_time(args),
            "probes" => self.probes(args),
            "partial" => self.partial(args),
            "lu" => self.lu(args),
            "lusolve" => self.lusolve(args),
            "rawlu" => self.rawlu(args),
            "rawsolve" => self.rawsolve(args),
            "norm" => self.norm(args),
            "initial_step" => self.initial_step(args),
            "segment" => self.segment(args),
            "ctl" => self.control(args),
            _ => {
                let answer = self.steppers.command(name, args);
                answer.unwrap_or_else(|| Err(format!("command {name}")))
            }
        }
    }

    fn constants(&mut self) -> Answer {
        let cbrt_eps = TimeDifferencePolicy::default().relative_step;
        Ok(format!(
            "ok cbrt_eps={} sqrt_eps={}",
            double(cbrt_eps),
            double(sqrt(f64::EPSILON))
        ))
    }

    fn endpoint_step(&mut self, args: &Args<'_>) -> Answer {
        let answer = endpoint_step(args.double(1)?, args.double(2)?, args.double(3)?);
        Ok(told(answer, double))
    }

    fn checked_time(&mut self, args: &Args<'_>) -> Answer {
        let answer = checked_time(args.double(1)?, args.double(2)?);
        Ok(told(answer, double))
    }

    fn probes(&mut self, args: &Args<'_>) -> Answer {
        let answer = args.policy()?.probes(args.double(1)?, args.double(2)?);
        Ok(told(answer, |(first, second)| {
            format!("{} {}", double(first), option(second))
        }))
    }

    fn partial(&mut self, args: &Args<'_>) -> Answer {
        let value = partial(
            args.double(1)?,
            args.double(2)?,
            args.option(3)?,
            args.double(4)?,
            args.option(5)?,
        );
        Ok(format!("ok {}", double(value)))
    }

    fn lu(&mut self, args: &Args<'_>) -> Answer {
        let (n, matrix) = (args.number(1)?, args.vector(2)?);
        Ok(match DenseLu::factorize(n, &matrix) {
            Ok(lu) => format!("ok {} {}", vector(lu.factors()), numbers(lu.pivots())),
            Err(failure) => not_factored(failure, n * n, matrix.len()),
        })
    }

    fn lusolve(&mut self, args: &Args<'_>) -> Answer {
        let (n, matrix, mut x) = (args.number(1)?, args.vector(2)?, args.vector(3)?);
        Ok(match DenseLu::factorize(n, &matrix) {
            Ok(lu) => match lu.solve(&mut x) {
                Ok(()) => format!("ok {}", vector(&x)),
                Err(failure) => not_factored(failure, n, x.len()),
            },
            Err(failure) => not_factored(failure, n * n, matrix.len()),
        })
    }

    fn rawlu(&mut self, args: &Args<'_>) -> Answer {
        let (n, mut pivots, mut matrix) = (args.number(1)?, args.numbers(2)?, args.vector(3)?);
        let told = refused(linear::factorize_raw(&mut matrix, &mut pivots, n));
        Ok(format!("{told} {} {}", vector(&matrix), numbers(&pivots)))
    }

    fn rawsolve(&mut self, args: &Args<'_>) -> Answer {
        let (n, factors) = (args.number(1)?, args.vector(2)?);
        let (pivots, mut x) = (args.numbers(3)?, args.vector(4)?);
        let told = refused(linear::solve(&factors, &pivots, &mut x, n));
        Ok(format!("{told} {}", vector(&x)))
    }
}

impl Host {
    fn norm(&mut self, args: &Args<'_>) -> Answer {
        let (state, candidate, error) = (args.vector(3)?, args.vector(4)?, args.vector(5)?);
        let (absolute, relative) = (args.double(1)?, args.double(2)?);
        let answer = scaled_error_norm(&state, &candidate, &error, absolute, relative);
        Ok(told(answer, double))
    }

    fn initial_step(&mut self, args: &Args<'_>) -> Answer {
        let (state, derivative, scales) = (args.vector(1)?, args.vector(2)?, args.vector(3)?);
        let (direction, maximum) = (args.double(4)?, args.double(5)?);
        let answer = initial_step(&state, &derivative, &scales, direction, maximum);
        Ok(told(answer, double))
    }

    fn segment(&mut self, args: &Args<'_>) -> Answer {
        let (start_state, end_state) = (args.vector(3)?, args.vector(4)?);
        let (corrections, mut output) = (args.vector(5)?, args.vector(8)?);
        let segment = StiffSegment {
            start_time: args.double(1)?,
            end_time: args.double(2)?,
            start_state: &start_state,
            end_state: &end_state,
            corrections: &corrections,
            order: args.number(6)?,
        };
        let told = refused(segment.interpolate(args.double(7)?, &mut output));
        Ok(format!("{told} {}", vector(&output)))
    }

    fn control(&mut self, args: &Args<'_>) -> Answer {
        match args.token(1)? {
            "new" => {
                let made =
                    AdaptiveController::new(settings(args)?, args.named_double("step", 1.0)?);
                Ok(match made {
                    Ok(controller) => {
                        self.controller = Some(controller);
                        format!("ok {}", history(controller.state()))
                    }
                    Err(error) => uncontrolled(error),
                })
            }
            "state" => Ok(format!("ok {}", history(self.controller()?.state()))),
            "restore" => {
                let state = state(args)?;
                let controller = self.controller()?;
                let answer = controller.restore(state);
                Ok(settled(answer, controller))
            }
            "reset" => {
                let step = args.double(2)?;
                let controller = self.controller()?;
                let answer = controller.reset(step);
                Ok(settled(answer, controller))
            }
            "assess" => {
                let (step, error) = (args.double(2)?, args.double(3)?);
                let controller = self.controller()?;
                let product = option(controller.product(step, error));
                let told = match controller.assess(step, error) {
                    Ok(decision) => format!(
                        "ok accepted={} forced={} next_step={}",
                        u8::from(decision.accepted),
                        u8::from(decision.forced),
                        double(decision.next_step)
                    ),
                    Err(error) => uncontrolled(error),
                };
                Ok(format!(
                    "{told} product={product} {}",
                    history(controller.state())
                ))
            }
            name => Err(format!("ctl {name}")),
        }
    }

    fn controller(&mut self) -> Result<&mut AdaptiveController, String> {
        self.controller.as_mut().ok_or("no controller".into())
    }
}

fn settled(answer: Result<(), ControllerError>, controller: &AdaptiveController) -> String {
    let told = answer.map_or_else(uncontrolled, |()| "ok".into());
    format!("{told} {}", history(controller.state()))
}

fn uncontrolled(error: ControllerError) -> String {
    match error {
        ControllerError::Configuration => "err 7 Configuration".into(),
        ControllerError::MinimumStep { error } => {
            format!("err 16 MinimumStep error={}", double(error))
        }
    }
}

fn history(state: ControllerState) -> String {
    format!(
        "errs={} rej={} next={} count={}",
        vector(&state.accepted_errors),
        u8::from(state.rejected_since_acceptance),
        double(state.next_step),
        state.consecutive_rejections
    )
}

/// order= and the settings, each the default's where it is left out.
fn settings(args: &Args<'_>) -> Result<ControllerConfig, String> {
    let order = args
        .named("order")
        .map_or(Ok(1), |t| t.parse())
        .map_err(|_| "order")?;
    let default = ControllerConfig::proportional(order).map_err(uncontrolled)?;
    let beta = args.named_vector("beta", &default.beta)?;
    let history = args.named_vector("hist", &default.initial_error_history)?;
    Ok(ControllerConfig {
        beta: beta.try_into().map_err(|_| "three betas")?,
        safety: args.named_double("safety", default.safety)?,
        minimum_factor: args.named_double("minf", default.minimum_factor)?,
        maximum_factor: args.named_double("maxf", default.maximum_factor)?,
        rejection_maximum: args.named_double("rejmax", default.rejection_maximum)?,
        rejected_acceptance_maximum: args
            .named_double("accmax", default.rejected_acceptance_maximum)?,
        minimum_step: args.named_double("minstep", default.minimum_step)?,
        maximum_step: args.named_double("maxstep", default.maximum_step)?,
        minimum_step_policy: match args.named("policy") {
            None | Some("error") => MinimumStepPolicy::Error,
            Some("force") => MinimumStepPolicy::ForceAccept,
            _ => return Err("policy".into()),
        },
        initial_error_history: history.try_into().map_err(|_| "two errors")?,
        error_history_floor: args.named_double("floor", default.error_history_floor)?,
        accept_equal: args.named("eq").is_none_or(|t| t != "0"),
        rejection_exponent: args.named_option("rejexp")?,
        repeated_rejection_maximum: args.named_option("repmax")?,
    })
}

fn state(args: &Args<'_>) -> Result<ControllerState, String> {
    let errors = args.named_vector("errs", &[1.0, 1.0])?;
    Ok(ControllerState {
        accepted_errors: errors.try_into().map_err(|_| "two errors")?,
        rejected_since_acceptance: args.named("rej").is_some_and(|t| t != "0"),
        next_step: args.named_double("next", 1.0)?,
        consecutive_rejections: args
            .named("count")
            .map_or(Ok(0), |t| t.parse())
            .map_err(|_| "count")?,
    })
}

/// `ok`, or `err` and the refusal.
fn refused(answer: Result<(), Failure>) -> String {
    match answer {
        Ok(()) => "ok".into(),
        Err(failure) => format!("err {} {}", failure.number(), failure.name()),
    }
}

/// A refusal of `lu` and `lusolve`, in the original's words for a length and for an entry.
fn not_factored(failure: Failure, expected: usize, actual: usize) -> String {
    match failure {
        Failure::Dimension if expected != actual => {
            format!("err 1 LengthMismatch {{ expected: {expected}, actual: {actual} }}")
        }
        Failure::NonFinite => "err 2 NonFiniteCoefficient".into(),
        failure => refused(Err(failure)),
    }
}

/// `ok` and the values, or `err`, the refusal's number and its name.
fn told<T>(answer: Result<T, Failure>, values: impl FnOnce(T) -> String) -> String {
    match answer {
        Ok(value) => format!("ok {}", values(value)),
        Err(failure) => format!("err {} {}", failure.number(), failure.name()),
    }
}

/// A line without its comment and the spaces around it; none if nothing is left.
pub fn stripped(line: &str) -> Option<&str> {
    let line = line.split('#').next().unwrap_or_default().trim();
    (!line.is_empty()).then_some(line)
}

/// Answers every line up to the end or `quit`. With `echo` each line read is written after `> `.
pub fn run(input: impl BufRead, mut output: impl Write, echo: bool) -> io::Result<()> {
    let mut host = Host::default();
    for line in input.lines() {
        let line = line?;
        let Some(line) = stripped(&line) else {
            continue;
        };
        if echo {
            writeln!(output, "> {line}")?;
        }
        if line == "quit" {
            break;
        }
        writeln!(output, "{}", host.answer(line))?;
        output.flush()?;
    }
    output.flush()
}
