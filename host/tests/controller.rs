//! The controller's calls on records of every kind, valid or not, and products that the wrapper never
//! makes, beside a second reading of their rules (docs/RULES.md for the order of the tests,
//! docs/GUARANTEES.md for the rest). WIQHANO_SEED sets the seed, WIQHANO_COUNT the number of calls.
use std::collections::BTreeMap;
use wiqhano::controller::calls::{self, AdaptiveController, ControllerConfig, ControllerState};
use wiqhano::controller::{ControllerConfig as Config, MinimumStepPolicy};
use wiqhano::protocol::text::double as hex;
use wiqhano::random::{self, Random, power};

// ---- the second reading

const CONFIGURATION: u32 = 7;
const MINIMUM_STEP: u32 = 16;

fn some(x: f64) -> bool {
    x.is_finite() && x != 0.0
}

fn above_0(x: f64) -> bool {
    x.is_finite() && x > 0.0
}

fn settings_valid(c: &ControllerConfig) -> bool {
    let finite = [
        c.beta[1],
        c.beta[2],
        c.maximum_factor,
        c.minimum_step,
        c.maximum_step,
    ];
    let positive = [
        c.beta[0],
        c.safety,
        c.minimum_factor,
        c.rejection_maximum,
        c.rejected_acceptance_maximum,
        c.maximum_step,
        c.initial_error_history[0],
        c.initial_error_history[1],
        c.error_history_floor,
    ];
    finite.iter().all(|x| x.is_finite())
        && positive.iter().all(|x| above_0(*x))
        && c.minimum_factor <= 1.0
        && c.minimum_factor <= c.maximum_factor
        && c.rejection_maximum <= 1.0
        && 0.0 <= c.minimum_step
        && c.minimum_step <= c.maximum_step
        && (!c.has_rejection_exponent || above_0(c.rejection_exponent))
        && (!c.has_repeated_rejection_maximum
            || above_0(c.repeated_rejection_maximum) && c.repeated_rejection_maximum <= 1.0)
}

fn sound(k: &AdaptiveController) -> bool {
    settings_valid(&k.config) && k.state.accepted_errors.iter().all(|e| above_0(*e))
}

/// A lower and an upper limit, the lower first; a NaN passes both.
fn limited(x: f64, low: f64, high: f64) -> f64 {
    let x = if x < low { low } else { x };
    if x > high { high } else { x }
}

/// At most the cap, which takes a NaN's place.
fn capped(x: f64, cap: f64) -> f64 {
    if x < cap { x } else { cap }
}

fn started(c: &ControllerConfig, step: f64) -> ControllerState {
    ControllerState {
        accepted_errors: c.initial_error_history,
        rejected_since_acceptance: false,
        next_step: step,
        consecutive_rejections: 0,
    }
}

fn cut(c: &ControllerConfig, step: f64, magnitude: f64) -> f64 {
    step.signum() * limited(magnitude, c.minimum_step, c.maximum_step)
}

fn new(c: ControllerConfig, step: f64) -> (AdaptiveController, u32) {
    if settings_valid(&c) && some(step) {
        let state = started(&c, cut(&c, step, step.abs()));
        (AdaptiveController { config: c, state }, 0)
    } else {
        let state = started(&c, step);
        (AdaptiveController { config: c, state }, CONFIGURATION)
    }
}

fn reset(k: AdaptiveController, step: f64) -> (AdaptiveController, u32) {
    if sound(&k) && some(step) {
        new(k.config, step)
    } else {
        (k, CONFIGURATION)
    }
}

fn restore(k: AdaptiveController, state: ControllerState) -> (AdaptiveController, u32) {
    let within = (k.config.minimum_step..=k.config.maximum_step).contains(&state.next_step.abs());
    let counted = state.consecutive_rejections != 0;
    let held = some(state.next_step)
        && within
        && state.accepted_errors.iter().all(|e| above_0(*e))
        && state.rejected_since_acceptance == counted;
    if sound(&k) && held {
        let config = k.config;
        (AdaptiveController { config, state }, 0)
    } else {
        (k, CONFIGURATION)
    }
}

struct Assessed {
    state: ControllerState,
    number: u32,
    accepted: bool,
    forced: bool,
    next_step: f64,
    error: f64,
}

fn assess(k: &AdaptiveController, step: f64, error: f64, product: f64) -> Assessed {
    let (c, s) = (&k.config, &k.state);
    let refused = |number, error| Assessed {
        state: *s,
        number,
        accepted: false,
        forced: false,
        next_step: 0.0,
        error,
    };
    if !sound(k) || !some(step) || error.is_nan() || error < 0.0 {
        return refused(CONFIGURATION, 0.0);
    }
    let good = error < 1.0 || error == 1.0 && c.accept_equal;
    let shortest = step.abs() <= c.minimum_step;
    let forced = !good && shortest && c.force_accept;
    let accepted = good || forced;
    if !accepted && shortest {
        return refused(MINIMUM_STEP, error);
    }
    let start = if error == 0.0 {
        c.maximum_factor
    } else if error == f64::INFINITY {
        c.minimum_factor
    } else {
        product
    };
    let mut factor = limited(start, c.minimum_factor, c.maximum_factor);
    if !accepted {
        factor = capped(factor, c.rejection_maximum);
        if s.consecutive_rejections > 0 && c.has_repeated_rejection_maximum {
            factor = capped(factor, c.repeated_rejection_maximum);
        }
    } else if s.rejected_since_acceptance {
        factor = capped(factor, c.rejected_acceptance_maximum);
    }
    let next_step = cut(c, step, step.abs() * factor);
    if !some(next_step) {
        return refused(CONFIGURATION, 0.0);
    }
    if !accepted && next_step.abs() >= step.abs() {
        return refused(MINIMUM_STEP, error);
    }
    let state = if accepted {
        // at least the floor, at most the largest double
        let kept = if error < c.error_history_floor {
            c.error_history_floor
        } else {
            error
        };
        ControllerState {
            accepted_errors: [kept.min(f64::MAX), s.accepted_errors[0]],
            rejected_since_acceptance: false,
            next_step,
            consecutive_rejections: 0,
        }
    } else {
        ControllerState {
            accepted_errors: s.accepted_errors,
            rejected_since_acceptance: true,
            next_step,
            consecutive_rejections: s.consecutive_rejections.saturating_add(1),
        }
    };
    Assessed {
        state,
        number: 0,
        accepted,
        forced,
        next_step,
        error: 0.0,
    }
}

// ---- as text

fn config_text(c: &ControllerConfig) -> String {
    let numbers = [
        c.beta[0],
        c.beta[1],
        c.beta[2],
        c.safety,
        c.minimum_factor,
        c.maximum_factor,
        c.rejection_maximum,
        c.rejected_acceptance_maximum,
        c.minimum_step,
        c.maximum_step,
        c.initial_error_history[0],
        c.initial_error_history[1],
        c.error_history_floor,
        c.rejection_exponent,
        c.repeated_rejection_maximum,
    ];
    let flags = [
        c.force_accept,
        c.accept_equal,
        c.has_rejection_exponent,
        c.has_repeated_rejection_maximum,
    ];
    format!("{:?} {flags:?}", numbers.map(hex))
}

fn state_text(s: &ControllerState) -> String {
    let errors = s.accepted_errors.map(hex);
    let (marked, next, count) = (
        s.rejected_since_acceptance,
        hex(s.next_step),
        s.consecutive_rejections,
    );
    format!("{errors:?} {marked} {next} {count}")
}

fn controller_text(k: &AdaptiveController, number: u32) -> String {
    format!(
        "{number} {} | {}",
        config_text(&k.config),
        state_text(&k.state)
    )
}

fn assessed_text(a: &Assessed) -> String {
    let Assessed {
        state,
        number,
        accepted,
        forced,
        next_step,
        error,
    } = a;
    let (next, error) = (hex(*next_step), hex(*error));
    format!(
        "{number} {accepted} {forced} {next} {error} | {}",
        state_text(state)
    )
}

// ---- random records

const SPOILT: &[f64] = &[0.0, -0.0, -1.0, f64::NAN, f64::INFINITY, f64::NEG_INFINITY];

fn settings(r: &mut Random) -> ControllerConfig {
    let low = r.pick(&[0.2, 0.5, 1.0, power(-1074), 0.1]);
    let shortest = r.pick(&[0.0, -0.0, 0.001, 0.5, 1.0, power(-1074)]);
    let mut c = ControllerConfig {
        beta: [r.positive(), r.finite(), r.finite()],
        safety: r.pick(&[0.9, 1.0, 2.0]),
        minimum_factor: low,
        maximum_factor: r.pick(&[low, 1.0, 5.0, 1e300]).max(low),
        rejection_maximum: r.pick(&[0.5, 0.9, 1.0, 0.25, power(-1074)]),
        rejected_acceptance_maximum: r.pick(&[1.0, 0.5, 2.0, 1e300]),
        minimum_step: shortest,
        maximum_step: r
            .pick(&[shortest, 1.0, 2.0, 10.0, f64::MAX])
            .max(power(-1074)),
        force_accept: r.chance(50),
        initial_error_history: [r.positive(), r.positive()],
        error_history_floor: r.pick(&[1e-4, 1.0, f64::MIN_POSITIVE, power(-1074), f64::MAX]),
        accept_equal: r.chance(50),
        has_rejection_exponent: r.chance(40),
        rejection_exponent: r.pick(&[0.2, 1.0]),
        has_repeated_rejection_maximum: r.chance(40),
        repeated_rejection_maximum: r.pick(&[0.1, 0.5, 1.0]),
    };
    // one field that breaks its rule, or stands at its edge
    if r.chance(25) {
        let one = r.pick(&[1.0, 2.0]);
        let x = match r.below(3) {
            0 => r.pick(SPOILT),
            1 => r.near(one),
            _ => r.double(),
        };
        let [proportional, recent, older] = &mut c.beta;
        let [last, before] = &mut c.initial_error_history;
        let fields = [
            proportional,
            recent,
            older,
            &mut c.safety,
            &mut c.minimum_factor,
            &mut c.maximum_factor,
            &mut c.rejection_maximum,
            &mut c.rejected_acceptance_maximum,
            &mut c.minimum_step,
            &mut c.maximum_step,
            last,
            before,
            &mut c.error_history_floor,
            &mut c.rejection_exponent,
            &mut c.repeated_rejection_maximum,
        ];
        let k = r.below(fields.len() as u64) as usize;
        if let Some(field) = fields.into_iter().nth(k) {
            *field = x;
        }
    }
    c
}

fn past_error(r: &mut Random) -> f64 {
    if r.chance(6) {
        r.pick(SPOILT)
    } else {
        r.positive()
    }
}

fn step(r: &mut Random, c: &ControllerConfig) -> f64 {
    let x = match r.below(8) {
        0 => r.double(),
        1 => c.minimum_step,
        2 => c.maximum_step,
        3 => r.near(c.minimum_step),
        4 => r.subnormal(),
        5 => r.pick(SPOILT),
        _ => r.pick(&[0.01, 0.5, 1.0, 2.0, 10.0]),
    };
    x * r.sign()
}

fn state(r: &mut Random, c: &ControllerConfig) -> ControllerState {
    let count = match r.below(6) {
        0 => u64::MAX - r.below(3),
        1 => r.bits(),
        2 | 3 => 0,
        _ => 1 + r.below(3),
    };
    ControllerState {
        accepted_errors: [past_error(r), past_error(r)],
        rejected_since_acceptance: if r.chance(90) { count != 0 } else { count == 0 },
        next_step: step(r, c),
        consecutive_rejections: count,
    }
}

fn controller(r: &mut Random) -> AdaptiveController {
    let config = settings(r);
    let state = state(r, &config);
    AdaptiveController { config, state }
}

fn error(r: &mut Random) -> f64 {
    match r.below(10) {
        0 => r.double(),
        1 => r.pick(&[0.0, -0.0, f64::INFINITY, f64::NAN, -1.0]),
        2..=4 => r.near(1.0),
        5 => r.subnormal().abs(),
        _ => r.unit() * 3.0,
    }
}

/// Of every kind, those too that no power gives.
fn product(r: &mut Random) -> f64 {
    match r.below(6) {
        0 => r.pick(SPOILT),
        1 => -r.unit(),
        2 => r.double(),
        _ => r.unit() * 12.0,
    }
}

#[test]
fn random_records() {
    let (seed, count) = (random::seed(), random::count(200_000));
    println!("seed {seed}");
    let mut r = Random::new(seed);
    let mut met: BTreeMap<String, usize> = BTreeMap::new();
    let mut differing = 0;
    for _ in 0..count {
        let k = controller(&mut r);
        let step = step(&mut r, &k.config);
        let mut handed = hex(step);
        let (name, port, other) = match r.below(8) {
            0 => {
                let port = calls::new(k.config, step);
                let (other, number) = new(k.config, step);
                let port = controller_text(&port.controller, port.refusal);
                ("new", port, controller_text(&other, number))
            }
            1 => {
                let port = calls::reset(k, step);
                let (other, number) = reset(k, step);
                let port = controller_text(&port.controller, port.refusal);
                ("reset", port, controller_text(&other, number))
            }
            2 => {
                let state = state(&mut r, &k.config);
                handed = state_text(&state);
                let port = calls::restore(k, state);
                let (other, number) = restore(k, state);
                let port = controller_text(&port.controller, port.refusal);
                ("restore", port, controller_text(&other, number))
            }
            3 => {
                let port = calls::next_step(k);
                let other = if sound(&k) {
                    (0, k.state.next_step)
                } else {
                    (CONFIGURATION, 0.0)
                };
                let text = |number: u32, x: f64| format!("{number} {}", hex(x));
                (
                    "next_step",
                    text(port.number, port.value),
                    text(other.0, other.1),
                )
            }
            _ => {
                let (error, product) = (error(&mut r), product(&mut r));
                handed = format!("{handed} {} {}", hex(error), hex(product));
                let a = calls::assess(k, step, error, product);
                let port = Assessed {
                    state: a.state,
                    number: a.number,
                    accepted: a.accepted,
                    forced: a.forced,
                    next_step: a.next_step,
                    error: a.error,
                };
                let other = assess(&k, step, error, product);
                let kind = match (other.number, other.accepted, other.forced) {
                    (0, true, true) => "assess forced",
                    (0, true, false) => "assess accepted",
                    (0, false, _) => "assess rejected",
                    _ => "assess",
                };
                (kind, assessed_text(&port), assessed_text(&other))
            }
        };
        let number = other.split(' ').next().unwrap_or_default();
        *met.entry(format!("{name} {number}")).or_insert(0) += 1;
        if port != other {
            differing += 1;
            if differing <= 10 {
                println!("{name} {handed}\n  of    {}", controller_text(&k, 0));
                println!("  port  {port}\n  other {other}\n  seed  {seed}");
            }
        }
    }
    println!("{met:?}");
    println!("compared with a second reading {count} differing {differing}");
    assert_eq!(differing, 0);
    for kind in [
        "new 0",
        "new 7",
        "reset 0",
        "reset 7",
        "restore 0",
        "restore 7",
        "next_step 0",
        "next_step 7",
        "assess 7",
        "assess 16",
        "assess accepted 0",
        "assess forced 0",
        "assess rejected 0",
    ] {
        let times = met.remove(kind).unwrap_or(0);
        assert!(
            times >= count / 200,
            "{kind}: met {times} times, seed {seed}"
        );
    }
    assert!(met.is_empty(), "other answers {met:?}, seed {seed}");
}

/// The count of rejections stays at its largest value, and a rejection at it is a rejection all the same.
#[test]
fn rejections_at_the_largest_count() {
    let config = calls::pi(0.5, 0.25);
    let mut k = calls::new(config, 1.0).controller;
    k.state.consecutive_rejections = u64::MAX;
    k.state.rejected_since_acceptance = true;
    let a = calls::assess(k, 1.0, 2.0, 0.5);
    assert_eq!((a.number, a.accepted, a.next_step), (0, false, 0.5));
    assert_eq!(a.state.consecutive_rejections, u64::MAX);
}

// ---- the conventional settings

/// All fields but the exponents.
fn conventional(beta: [f64; 3]) -> Config {
    Config {
        beta,
        safety: 0.9,
        minimum_factor: 0.2,
        maximum_factor: 10.0,
        rejection_maximum: 1.0,
        rejected_acceptance_maximum: 1.0,
        minimum_step: 0.0,
        maximum_step: f64::MAX,
        minimum_step_policy: MinimumStepPolicy::Error,
        initial_error_history: [1.0, 1.0],
        error_history_floor: f64::MIN_POSITIVE,
        accept_equal: true,
        rejection_exponent: None,
        repeated_rejection_maximum: None,
    }
}

#[test]
fn conventional_settings() {
    use wiqhano::controller::{AdaptiveController, ControllerError};
    let (seed, count) = (random::seed(), random::count(200_000).div_ceil(100));
    println!("seed {seed}");
    let mut r = Random::new(seed);
    for _ in 0..count {
        let [p, i, d] = [r.double(), r.double(), r.double()];
        // the export itself: its flags are false, with 0 beside them
        let text = |beta| config_text(&conventional(beta).into());
        assert_eq!(config_text(&calls::pi(p, i)), text([p, i, 0.0]));
        assert_eq!(config_text(&calls::pid(p, i, d)), text([p, i, d]));
        assert_eq!(config_text(&Config::pi(p, i).into()), text([p, i, 0.0]));
        assert_eq!(config_text(&Config::pid([p, i, d]).into()), text([p, i, d]));
        let order = (r.bits() >> r.below(64)).max(1);
        let told = calls::proportional(order);
        assert_eq!(told.refusal, 0);
        assert_eq!(
            config_text(&told.config),
            text([1.0 / order as f64, 0.0, 0.0])
        );
    }
    assert_eq!(Config::proportional(0), Err(ControllerError::Configuration));
    // settings that no call takes
    let none = calls::proportional(0);
    assert_eq!((none.refusal, settings_valid(&none.config)), (7, false));
    assert_eq!(calls::new(none.config, 1.0).refusal, 7);
    let config = none.config;
    let state = started(&config, 1.0);
    let k = calls::AdaptiveController { config, state };
    assert_eq!(calls::reset(k, 1.0).refusal, 7);
    assert_eq!(calls::restore(k, state).refusal, 7);
    assert_eq!(calls::next_step(k).number, 7);
    assert_eq!(calls::assess(k, 1.0, 0.5, 1.0).number, 7);

    let config = Config::pid([0.5, 0.25, 0.125]);
    let mut k = AdaptiveController::new(config, -2.0).expect("valid settings");
    assert_eq!(k.config(), config);
    assert_eq!(k.state().next_step, -2.0);
    assert_eq!(k.state().accepted_errors, [1.0, 1.0]);
    k.assess(-2.0, 0.5).expect("a decision");
    assert_eq!(k.config(), config);
    assert_eq!(k.state().accepted_errors, [0.5, 1.0]);
    assert_eq!(k.state().next_step, k.next_step());
}
