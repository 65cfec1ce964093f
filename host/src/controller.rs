//! The step size controller. The powers and logarithms of its product are worked out here; the
//! decision is the port's.
use crate::Failure;
use crate::ffi::{self, ControllerConfig as Config};

/// The calls as they are exported, on any record: hostile ones too.
pub mod calls {
    pub use crate::ffi::{
        AdaptiveController, AssessAnswer, ControllerConfig, ControllerState, Settings, Settled,
        wiqhano_controller_assess as assess, wiqhano_controller_new as new,
        wiqhano_controller_next_step as next_step, wiqhano_controller_pi as pi,
        wiqhano_controller_pid as pid, wiqhano_controller_proportional as proportional,
        wiqhano_controller_reset as reset, wiqhano_controller_restore as restore,
    };
}

/// What happens where a step at its minimum fails.
#[derive(Clone, Copy, Debug, PartialEq, Eq)]
pub enum MinimumStepPolicy {
    Error,
    ForceAccept,
}

#[derive(Clone, Copy, Debug, PartialEq)]
pub struct ControllerConfig {
    pub beta: [f64; 3],
    pub safety: f64,
    pub minimum_factor: f64,
    pub maximum_factor: f64,
    pub rejection_maximum: f64,
    pub rejected_acceptance_maximum: f64,
    pub minimum_step: f64,
    pub maximum_step: f64,
    pub minimum_step_policy: MinimumStepPolicy,
    pub initial_error_history: [f64; 2],
    pub error_history_floor: f64,
    pub accept_equal: bool,
    pub rejection_exponent: Option<f64>,
    pub repeated_rejection_maximum: Option<f64>,
}

#[derive(Clone, Copy, Debug, PartialEq)]
pub struct ControllerState {
    pub accepted_errors: [f64; 2],
    pub rejected_since_acceptance: bool,
    pub next_step: f64,
    pub consecutive_rejections: u64,
}

#[derive(Clone, Copy, Debug, PartialEq)]
pub struct StepDecision {
    pub accepted: bool,
    pub forced: bool,
    pub next_step: f64,
}

/// A refusal; a step that cannot be made shorter carries its error.
#[derive(Clone, Copy, Debug, PartialEq)]
pub enum ControllerError {
    Configuration,
    MinimumStep { error: f64 },
}

impl ControllerError {
    fn told(number: u32, error: f64) -> Self {
        match Failure::told(number) {
            Failure::MinimumStep => Self::MinimumStep { error },
            _ => Self::Configuration,
        }
    }
}

impl From<ControllerConfig> for Config {
    fn from(c: ControllerConfig) -> Self {
        Self {
            beta: c.beta,
            safety: c.safety,
            minimum_factor: c.minimum_factor,
            maximum_factor: c.maximum_factor,
            rejection_maximum: c.rejection_maximum,
            rejected_acceptance_maximum: c.rejected_acceptance_maximum,
            minimum_step: c.minimum_step,
            maximum_step: c.maximum_step,
            force_accept: c.minimum_step_policy == MinimumStepPolicy::ForceAccept,
            initial_error_history: c.initial_error_history,
            error_history_floor: c.error_history_floor,
            accept_equal: c.accept_equal,
            has_rejection_exponent: c.rejection_exponent.is_some(),
            rejection_exponent: c.rejection_exponent.unwrap_or_default(),
            has_repeated_rejection_maximum: c.repeated_rejection_maximum.is_some(),
            repeated_rejection_maximum: c.repeated_rejection_maximum.unwrap_or_default(),
        }
    }
}

impl From<Config> for ControllerConfig {
    fn from(c: Config) -> Self {
        let policies = [MinimumStepPolicy::Error, MinimumStepPolicy::ForceAccept];
        Self {
            beta: c.beta,
            safety: c.safety,
            minimum_factor: c.minimum_factor,
            maximum_factor: c.maximum_factor,
            rejection_maximum: c.rejection_maximum,
            rejected_acceptance_maximum: c.rejected_acceptance_maximum,
            minimum_step: c.minimum_step,
            maximum_step: c.maximum_step,
            minimum_step_policy: policies[usize::from(c.force_accept)],
            initial_error_history: c.initial_error_history,
            error_history_floor: c.error_history_floor,
            accept_equal: c.accept_equal,
            rejection_exponent: c.has_rejection_exponent.then_some(c.rejection_exponent),
            repeated_rejection_maximum: c
                .has_repeated_rejection_maximum
                .then_some(c.repeated_rejection_maximum),
        }
    }
}

impl ControllerConfig {
    pub fn proportional(error_order: u64) -> Result<Self, ControllerError> {
        let settings = ffi::wiqhano_controller_proportional(error_order);
        match settings.refusal {
            0 => Ok(settings.config.into()),
            number => Err(ControllerError::told(number, f64::NAN)),
        }
    }

    pub fn pi(beta1: f64, beta2: f64) -> Self {
        ffi::wiqhano_controller_pi(beta1, beta2).into()
    }

    pub fn pid([beta1, beta2, beta3]: [f64; 3]) -> Self {
        ffi::wiqhano_controller_pid(beta1, beta2, beta3).into()
    }
}

impl From<ControllerState> for ffi::ControllerState {
    fn from(s: ControllerState) -> Self {
        Self {
            accepted_errors: s.accepted_errors,
            rejected_since_acceptance: s.rejected_since_acceptance,
            next_step: s.next_step,
            consecutive_rejections: s.consecutive_rejections,
        }
    }
}

#[derive(Clone, Copy, Debug)]
pub struct AdaptiveController(ffi::AdaptiveController);

impl AdaptiveController {
    pub fn new(config: ControllerConfig, initial_step: f64) -> Result<Self, ControllerError> {
        let settled = ffi::wiqhano_controller_new(config.into(), initial_step);
        Self::settled(settled)
    }

    fn settled(settled: ffi::Settled) -> Result<Self, ControllerError> {
        match settled.refusal {
            0 => Ok(Self(settled.controller)),
            number => Err(ControllerError::told(number, f64::NAN)),
        }
    }

    pub fn config(&self) -> ControllerConfig {
        self.0.config.into()
    }

    pub fn state(&self) -> ControllerState {
        let s = self.0.state;
        ControllerState {
            accepted_errors: s.accepted_errors,
            rejected_since_acceptance: s.rejected_since_acceptance,
            next_step: s.next_step,
            consecutive_rejections: s.consecutive_rejections,
        }
    }

    pub fn restore(&mut self, state: ControllerState) -> Result<(), ControllerError> {
        *self = Self::settled(ffi::wiqhano_controller_restore(self.0, state.into()))?;
        Ok(())
    }

    pub fn reset(&mut self, next_step: f64) -> Result<(), ControllerError> {
        *self = Self::settled(ffi::wiqhano_controller_reset(self.0, next_step))?;
        Ok(())
    }

    pub fn next_step(&self) -> f64 {
        let answer = ffi::wiqhano_controller_next_step(self.0).value();
        answer.expect("a controller that was made is valid")
    }

    /// The factor before its limits, where a decision needs one.
    #[inline]
    pub fn product(&self, step: f64, error: f64) -> Option<f64> {
        let (c, s) = (&self.0.config, &self.0.state);
        if !step.is_finite() || step == 0.0 || error.is_nan() || error < 0.0 {
            return None;
        }
        let within = if c.accept_equal {
            error <= 1.0
        } else {
            error < 1.0
        };
        let at_minimum = step.abs() <= c.minimum_step;
        let accepted = within || at_minimum && c.force_accept;
        if !accepted && at_minimum {
            return None;
        }
        Some(if error == 0.0 {
            c.maximum_factor
        } else if error.is_infinite() {
            c.minimum_factor
        } else if !accepted && c.has_rejection_exponent {
            c.safety * error.powf(-c.rejection_exponent)
        } else {
            let [recent, older] = s.accepted_errors;
            // a power of exponent 0 is 1 for every number
            let power = |x: f64, exponent: f64| {
                if exponent == 0.0 {
                    1.0
                } else {
                    x.powf(exponent)
                }
            };
            let product = c.safety
                * power(error, -c.beta[0])
                * power(recent, c.beta[1])
                * power(older, -c.beta[2]);
            if product.is_nan() {
                // an infinite power met one that is 0: by logarithms there is a number
                (c.safety.ln() - c.beta[0] * error.ln() + c.beta[1] * recent.ln()
                    - c.beta[2] * older.ln())
                .exp()
            } else {
                product
            }
        })
    }

    #[inline]
    pub fn assess(&mut self, step: f64, error: f64) -> Result<StepDecision, ControllerError> {
        let product = self.product(step, error).unwrap_or(f64::NAN);
        let assessed = ffi::wiqhano_controller_assess(self.0, step, error, product);
        self.0.state = assessed.state;
        match assessed.number {
            0 => Ok(StepDecision {
                accepted: assessed.accepted,
                forced: assessed.forced,
                next_step: assessed.next_step,
            }),
            number => Err(ControllerError::told(number, assessed.error)),
        }
    }
}
