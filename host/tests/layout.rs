//! The structs that cross the C interface: sizes and offsets, and that each field lands in its place
//! on the other side.
#[allow(dead_code)]
#[path = "../src/ffi.rs"]
mod ffi;

use ffi::{AdaptiveController, AssessAnswer, ControllerConfig, ControllerState, Settings, Settled};
use ffi::{Answer, Bounds, ProbeTimes, SameAnswer, TimeDifferencePolicy as Policy};
use ffi::{CallAnswer, StepperAnswer};
use ffi::{Fixed, MakingAnswer, Memo, Progress, RosenbrockStepper, StepStatistics};
use ffi::{ReadingAnswer, StatisticsAnswer};
use std::mem::{align_of, offset_of, size_of};
use wiqhano as _; // links the archive

#[test]
fn sizes_and_offsets() {
    assert_eq!((size_of::<Answer>(), align_of::<Answer>()), (16, 8));
    assert_eq!(offset_of!(Answer, number), 0);
    assert_eq!(offset_of!(Answer, value), 8);

    assert_eq!((size_of::<ProbeTimes>(), align_of::<ProbeTimes>()), (24, 8));
    assert_eq!(offset_of!(ProbeTimes, number), 0);
    assert_eq!(offset_of!(ProbeTimes, count), 4);
    assert_eq!(offset_of!(ProbeTimes, first), 8);
    assert_eq!(offset_of!(ProbeTimes, second), 16);

    assert_eq!((size_of::<SameAnswer>(), align_of::<SameAnswer>()), (8, 4));
    assert_eq!(offset_of!(SameAnswer, number), 0);
    assert_eq!(offset_of!(SameAnswer, same), 4);

    assert_eq!((size_of::<Bounds>(), align_of::<Bounds>()), (24, 8));
    assert_eq!(offset_of!(Bounds, present), 0);
    assert_eq!(offset_of!(Bounds, lo), 8);
    assert_eq!(offset_of!(Bounds, hi), 16);

    assert_eq!((size_of::<Policy>(), align_of::<Policy>()), (48, 8));
    assert_eq!(offset_of!(Policy, scale), 0);
    assert_eq!(offset_of!(Policy, relative_step), 8);
    assert_eq!(offset_of!(Policy, maximum_fraction), 16);
    assert_eq!(offset_of!(Policy, bounds), 24);
}

#[test]
fn sizes_and_offsets_of_the_controller() {
    type Config = ControllerConfig;
    assert_eq!((size_of::<Config>(), align_of::<Config>()), (144, 8));
    assert_eq!(offset_of!(Config, beta), 0);
    assert_eq!(offset_of!(Config, safety), 24);
    assert_eq!(offset_of!(Config, minimum_factor), 32);
    assert_eq!(offset_of!(Config, maximum_factor), 40);
    assert_eq!(offset_of!(Config, rejection_maximum), 48);
    assert_eq!(offset_of!(Config, rejected_acceptance_maximum), 56);
    assert_eq!(offset_of!(Config, minimum_step), 64);
    assert_eq!(offset_of!(Config, maximum_step), 72);
    assert_eq!(offset_of!(Config, force_accept), 80);
    assert_eq!(offset_of!(Config, initial_error_history), 88);
    assert_eq!(offset_of!(Config, error_history_floor), 104);
    assert_eq!(offset_of!(Config, accept_equal), 112);
    assert_eq!(offset_of!(Config, has_rejection_exponent), 113);
    assert_eq!(offset_of!(Config, rejection_exponent), 120);
    assert_eq!(offset_of!(Config, has_repeated_rejection_maximum), 128);
    assert_eq!(offset_of!(Config, repeated_rejection_maximum), 136);

    type State = ControllerState;
    assert_eq!((size_of::<State>(), align_of::<State>()), (40, 8));
    assert_eq!(offset_of!(State, accepted_errors), 0);
    assert_eq!(offset_of!(State, rejected_since_acceptance), 16);
    assert_eq!(offset_of!(State, next_step), 24);
    assert_eq!(offset_of!(State, consecutive_rejections), 32);

    assert_eq!(size_of::<AdaptiveController>(), 184);
    assert_eq!(offset_of!(AdaptiveController, config), 0);
    assert_eq!(offset_of!(AdaptiveController, state), 144);

    assert_eq!(size_of::<Settings>(), 152);
    assert_eq!(offset_of!(Settings, config), 0);
    assert_eq!(offset_of!(Settings, refusal), 144);

    assert_eq!(size_of::<Settled>(), 192);
    assert_eq!(offset_of!(Settled, controller), 0);
    assert_eq!(offset_of!(Settled, refusal), 184);

    assert_eq!(size_of::<AssessAnswer>(), 64);
    assert_eq!(offset_of!(AssessAnswer, state), 0);
    assert_eq!(offset_of!(AssessAnswer, number), 40);
    assert_eq!(offset_of!(AssessAnswer, accepted), 44);
    assert_eq!(offset_of!(AssessAnswer, forced), 45);
    assert_eq!(offset_of!(AssessAnswer, next_step), 48);
    assert_eq!(offset_of!(AssessAnswer, error), 56);
}

#[test]
fn sizes_and_offsets_of_the_stepper() {
    assert_eq!((size_of::<Memo>(), align_of::<Memo>()), (32, 8));
    assert_eq!(offset_of!(Memo, derivative_valid), 0);
    assert_eq!(offset_of!(Memo, differentiation_valid), 1);
    assert_eq!(offset_of!(Memo, error_shown), 2);
    assert_eq!(offset_of!(Memo, two_probes), 3);
    assert_eq!(offset_of!(Memo, first_probe), 8);
    assert_eq!(offset_of!(Memo, second_probe), 16);
    assert_eq!(offset_of!(Memo, request_time), 24);

    assert_eq!((size_of::<Fixed>(), align_of::<Fixed>()), (64, 8));
    assert_eq!(offset_of!(Fixed, n), 0);
    assert_eq!(offset_of!(Fixed, s), 8);
    assert_eq!(offset_of!(Fixed, policy), 16);

    assert_eq!((size_of::<Progress>(), align_of::<Progress>()), (72, 8));
    assert_eq!(offset_of!(Progress, time), 0);
    assert_eq!(offset_of!(Progress, step), 8);
    assert_eq!(offset_of!(Progress, end), 16);
    assert_eq!(offset_of!(Progress, host_jacobian), 24);
    assert_eq!(offset_of!(Progress, host_time_partial), 25);
    assert_eq!(offset_of!(Progress, request), 28);
    assert_eq!(offset_of!(Progress, stage), 32);
    assert_eq!(offset_of!(Progress, memo), 40);

    assert_eq!(size_of::<StepStatistics>(), 56);
    assert_eq!(offset_of!(StepStatistics, attempts), 0);
    assert_eq!(offset_of!(StepStatistics, rhs_evaluations), 8);
    assert_eq!(offset_of!(StepStatistics, accepted_steps), 16);
    assert_eq!(offset_of!(StepStatistics, rejected_steps), 24);
    assert_eq!(offset_of!(StepStatistics, jacobian_evaluations), 32);
    assert_eq!(offset_of!(StepStatistics, factorizations), 40);
    assert_eq!(offset_of!(StepStatistics, linear_solves), 48);

    type Stepper = RosenbrockStepper;
    assert_eq!((size_of::<Stepper>(), align_of::<Stepper>()), (192, 8));
    assert_eq!(offset_of!(Stepper, fixed), 0);
    assert_eq!(offset_of!(Stepper, progress), 64);
    assert_eq!(offset_of!(Stepper, statistics), 136);

    assert_eq!(size_of::<StepperAnswer>(), 200);
    assert_eq!(offset_of!(StepperAnswer, stepper), 0);
    assert_eq!(offset_of!(StepperAnswer, kind), 192);
    assert_eq!(offset_of!(StepperAnswer, number), 196);

    assert_eq!((size_of::<CallAnswer>(), align_of::<CallAnswer>()), (8, 4));
    assert_eq!(offset_of!(CallAnswer, kind), 0);
    assert_eq!(offset_of!(CallAnswer, number), 4);

    assert_eq!(size_of::<MakingAnswer>(), 200);
    assert_eq!(offset_of!(MakingAnswer, stepper), 0);
    assert_eq!(offset_of!(MakingAnswer, number), 192);

    type Reading = ReadingAnswer;
    assert_eq!((size_of::<Reading>(), align_of::<Reading>()), (40, 8));
    assert_eq!(offset_of!(Reading, kind), 0);
    assert_eq!(offset_of!(Reading, number), 4);
    assert_eq!(offset_of!(Reading, asked), 8);
    assert_eq!(offset_of!(Reading, value), 16);
    assert_eq!(offset_of!(Reading, at), 24);
    assert_eq!(offset_of!(Reading, count), 32);

    assert_eq!(size_of::<StatisticsAnswer>(), 64);
    assert_eq!(offset_of!(StatisticsAnswer, statistics), 0);
    assert_eq!(offset_of!(StatisticsAnswer, number), 56);
}

#[test]
fn the_default_policy_comes_back_field_by_field() {
    let policy = ffi::wiqhano_default_policy();
    assert_eq!(policy.scale, 1.0);
    assert_eq!(policy.relative_step.to_bits(), 0x3ed9_65fe_a53d_6e3d);
    assert_eq!(policy.maximum_fraction, 0.5);
    assert!(!policy.bounds.present);
    assert_eq!((policy.bounds.lo, policy.bounds.hi), (0.0, 0.0));
}

/// A probe's answer at time 0, as its four fields.
fn probes(policy: Policy, step: f64) -> (u32, u32, f64, f64) {
    let Policy {
        scale,
        relative_step,
        maximum_fraction,
        bounds: Bounds { present, lo, hi },
    } = policy;
    let a = ffi::wiqhano_probes(
        scale,
        relative_step,
        maximum_fraction,
        present,
        lo,
        hi,
        0.0,
        step,
    );
    (a.number, a.count, a.first, a.second)
}

#[test]
fn each_number_of_a_policy_goes_out_to_its_place() {
    let bounds = |present, lo, hi| Bounds { present, lo, hi };
    let plain = Policy {
        scale: 4.0,
        relative_step: 0.0625,
        maximum_fraction: 0.5,
        bounds: bounds(false, 3.0, 2.0),
    };
    // 0.0625 of the scale 4; the bounds, which are crossed, are not looked at
    assert_eq!(probes(plain, 1.0), (0, 2, 0.25, 0.5));
    let scale = Policy {
        scale: 2.0,
        ..plain
    };
    assert_eq!(probes(scale, 1.0), (0, 2, 0.125, 0.25));
    let relative_step = Policy {
        relative_step: 0.03125,
        ..plain
    };
    assert_eq!(probes(relative_step, 1.0), (0, 2, 0.125, 0.25));
    let maximum_fraction = Policy {
        maximum_fraction: 0.0625,
        ..plain
    };
    assert_eq!(probes(maximum_fraction, 1.0), (0, 2, 0.0625, 0.125));
    let crossed = Policy {
        bounds: bounds(true, 3.0, 2.0),
        ..plain
    };
    assert_eq!(probes(crossed, 1.0), (4, 0, 0.0, 0.0));
    let narrow = Policy {
        bounds: bounds(true, -0.25, 0.125),
        ..plain
    };
    assert_eq!(probes(narrow, 1.0), (0, 2, 0.0625, 0.125)); // hi
    assert_eq!(probes(narrow, -1.0), (0, 2, -0.125, -0.25)); // lo
}

#[test]
fn each_field_of_an_answer_comes_back_from_its_place() {
    let policy = ffi::wiqhano_default_policy();
    let tiny = f64::from_bits(1);
    assert_eq!(probes(policy, tiny), (0, 1, tiny, 0.0));
    assert_eq!(probes(policy, 0.0), (4, 0, 0.0, 0.0));
    assert_eq!(probes(policy, f64::NAN), (2, 0, 0.0, 0.0));
    let a = ffi::wiqhano_endpoint_step(0.0, 1.0, 2.0);
    assert_eq!((a.number, a.value), (0, 1.0));
    let a = ffi::wiqhano_checked_time(1.0, 1e-300);
    assert_eq!((a.number, a.value), (5, 0.0));
}

#[test]
fn a_bool_goes_out_and_comes_back() {
    // one slope is 3, the parabola through both gives 2
    assert_eq!(ffi::wiqhano_partial(0.0, 3.0, 8.0, 1.0, 2.0, false), 3.0);
    assert_eq!(ffi::wiqhano_partial(0.0, 3.0, 8.0, 1.0, 2.0, true), 2.0);
    assert!(ffi::wiqhano_is_nan(f64::NAN) && !ffi::wiqhano_is_nan(0.0));
    assert!(ffi::wiqhano_is_finite(0.0) && !ffi::wiqhano_is_finite(f64::NAN));
}

/// Another value in each field, n and s apart. Request and stage fit each other.
fn record(n: usize, s: usize, request: u32) -> RosenbrockStepper {
    RosenbrockStepper {
        fixed: Fixed {
            n,
            s,
            policy: Policy {
                scale: 4.0,
                relative_step: 0.0625,
                maximum_fraction: 0.5,
                bounds: Bounds {
                    present: true,
                    lo: -3.0,
                    hi: 99.0,
                },
            },
        },
        progress: Progress {
            time: 1.5,
            step: 0.25,
            end: 1.75,
            host_jacobian: true,
            host_time_partial: false,
            request,
            stage: 0,
            memo: Memo {
                derivative_valid: true,
                differentiation_valid: false,
                error_shown: true,
                two_probes: false,
                first_probe: 1.25,
                second_probe: 1.125,
                request_time: 1.0625,
            },
        },
        statistics: StepStatistics {
            attempts: 11,
            rhs_evaluations: 12,
            accepted_steps: 13,
            rejected_steps: 14,
            jacobian_evaluations: 15,
            factorizations: 16,
            linear_solves: 17,
        },
    }
}

fn text(record: RosenbrockStepper) -> String {
    format!("{record:?}")
}

/// For one component and one stage: 12 doubles of work, the first of them the candidate.
fn decided(record: RosenbrockStepper, accept: bool) -> (StepperAnswer, f64) {
    let (mut state, work, pivots) = ([5.0], [7.0; 12], [0]);
    let answer = unsafe {
        match accept {
            true => ffi::wiqhano_stepper_accept(
                record,
                state.as_mut_ptr(),
                1,
                work.as_ptr(),
                12,
                pivots.as_ptr(),
                1,
            ),
            false => ffi::wiqhano_stepper_reject(
                record,
                state.as_ptr(),
                1,
                work.as_ptr(),
                12,
                pivots.as_ptr(),
                1,
            ),
        }
    };
    (answer, state[0])
}

#[test]
fn a_record_goes_out_and_comes_back_field_by_field() {
    let given = record(1, 1, 1);
    let (answer, state) = decided(given, false);
    assert_eq!((answer.kind, answer.number, state), (3, 0, 5.0));
    let mut expected = given;
    expected.progress.request = 0;
    expected.statistics.rejected_steps = 15;
    assert_eq!(text(answer.stepper), text(expected));

    let (answer, state) = decided(given, true);
    assert_eq!((answer.kind, answer.number, state), (3, 0, 7.0));
    let mut expected = given;
    expected.progress.request = 0;
    expected.progress.time = 1.75;
    expected.progress.memo.derivative_valid = false;
    expected.statistics.accepted_steps = 14;
    assert_eq!(text(answer.stepper), text(expected));

    let given = record(1, 1, 0);
    let (answer, state) = decided(given, true);
    assert_eq!((answer.kind, answer.number, state), (0, 15, 5.0));
    assert_eq!(text(answer.stepper), text(given));
}

#[test]
fn a_making_puts_each_field_in_its_place() {
    // s = 2, gamma, and the offsets of a, coupling, c, d, b; no btilde
    let mut file = Vec::new();
    for number in [2, 0, 0, 0, 48, 56, 64, 72, 88, 104, 0, 120_u32] {
        file.extend(number.to_le_bytes());
    }
    file.extend(std::iter::repeat_n(0.5_f64.to_le_bytes(), 9).flatten());
    let policy = record(1, 1, 0).fixed.policy;
    let (state, mut work, mut pivots) = ([1.0, 2.0, 3.0], [7.0; 55], [9; 3]);
    let mut made = |file: &[u8]| unsafe {
        let (work, pivots) = (work.as_mut_ptr(), pivots.as_mut_ptr());
        let state = state.as_ptr();
        ffi::wiqhano_stepper_new(
            file.as_ptr(),
            file.len(),
            policy,
            1.5,
            state,
            3,
            work,
            55,
            pivots,
            3,
        )
    };
    // a refused making hands back zeros
    let refused = made(&file[1..]);
    let zeros = unsafe { std::mem::zeroed() };
    assert_eq!((refused.number, text(refused.stepper)), (12, text(zeros)));
    let mut expected: RosenbrockStepper = zeros;
    expected.fixed = Fixed { n: 3, s: 2, policy };
    expected.progress.time = 1.5;
    let answer = made(&file);
    assert_eq!((answer.number, text(answer.stepper)), (0, text(expected)));
    // 8 * 3 + 2 * 9 + 2 * 2 * 3 doubles are needed
    assert_eq!(work[..54], [0.0; 54]);
    assert_eq!((work[54], pivots), (7.0, [0; 3]));
}

/// A reader on a record with 3 components and 2 stages and the 54 doubles that it needs, or one fewer.
macro_rules! reading {
    ($export:ident, $record:expr, $work:expr $(, $index:expr)?) => {{
        let (state, work, pivots) = ([5.0; 3], [7.0; 54], [0_usize; 3]);
        let (state, work, pivots) = (state.as_ptr(), work.as_ptr(), pivots.as_ptr());
        unsafe { ffi::$export($record, $($index,)? state, 3, work, $work, pivots, 3) }
    }};
}

/// kind, number, asked, value, at and count. What is not told is 0.
fn fields(a: ReadingAnswer) -> (u32, u32, u32, f64, usize, usize) {
    (a.kind, a.number, a.asked, a.value, a.at, a.count)
}

#[test]
fn each_field_of_a_reading_comes_back_from_its_place() {
    let pending = record(3, 2, 1);
    let told = fields(reading!(wiqhano_stepper_start, pending, 54));
    assert_eq!(told, (1, 0, 0, 1.5, 0, 0));
    let told = fields(reading!(wiqhano_stepper_end, pending, 54));
    assert_eq!(told, (1, 0, 0, 1.75, 0, 0));
    let told = fields(reading!(wiqhano_stepper_time, pending, 54));
    assert_eq!(told, (1, 0, 0, 1.5, 0, 0));
    let told = fields(reading!(wiqhano_stepper_state, pending, 54));
    assert_eq!(told, (2, 0, 0, 0.0, 0, 0));
    let told = fields(reading!(wiqhano_stepper_candidate, pending, 54));
    assert_eq!(told, (3, 0, 0, 0.0, 0, 3));
    let told = fields(reading!(wiqhano_stepper_error, pending, 54));
    assert_eq!(told, (3, 0, 0, 0.0, 3, 3));
    let told = fields(reading!(wiqhano_stepper_derivative, pending, 54));
    assert_eq!(told, (3, 0, 0, 0.0, 9, 3));
    let told = fields(reading!(wiqhano_stepper_time_partial, pending, 54));
    assert_eq!(told, (3, 0, 0, 0.0, 12, 3));
    let told = fields(reading!(wiqhano_stepper_jacobian, pending, 54));
    assert_eq!(told, (3, 0, 0, 0.0, 24, 9));
    let told = fields(reading!(wiqhano_stepper_stages, pending, 54));
    assert_eq!(told, (3, 0, 0, 0.0, 42, 6));
    let told = fields(reading!(wiqhano_stepper_rhs_stages, pending, 54));
    assert_eq!(told, (3, 0, 0, 0.0, 48, 6));
    let told = fields(reading!(wiqhano_stepper_stage, pending, 54, 1));
    assert_eq!(told, (3, 0, 0, 0.0, 45, 3));
    let told = fields(reading!(wiqhano_stepper_rhs_stage, pending, 54, 1));
    assert_eq!(told, (3, 0, 0, 0.0, 51, 3));
    let told = fields(reading!(wiqhano_stepper_stage, pending, 54, 2));
    assert_eq!(told, (0, 1, 0, 0.0, 0, 0));
    let told = fields(reading!(wiqhano_stepper_request, pending, 54));
    assert_eq!(told, (0, 17, 0, 0.0, 0, 0));
    let told = fields(reading!(wiqhano_stepper_time, pending, 53));
    assert_eq!(told, (0, 1, 0, 0.0, 0, 0));
    let mut absent = pending;
    absent.progress.memo.error_shown = false;
    let told = fields(reading!(wiqhano_stepper_error, absent, 54));
    assert_eq!(told, (4, 0, 0, 0.0, 0, 0));
    // a derivative, a Jacobian, a time partial, two probes, a column, a stage
    let asked = [
        (2, (5, 0, 1, 1.0625, 0, 0)),
        (3, (5, 0, 2, 1.0625, 0, 0)),
        (4, (5, 0, 3, 1.0625, 0, 0)),
        (5, (5, 0, 1, 1.0625, 0, 0)),
        (6, (5, 0, 1, 1.0625, 0, 0)),
        (7, (6, 0, 1, 1.0625, 15, 3)),
        (8, (6, 0, 1, 1.0625, 6, 3)),
    ];
    for (request, expected) in asked {
        let open = record(3, 2, request);
        let told = fields(reading!(wiqhano_stepper_request, open, 54));
        assert_eq!(told, expected, "{request}");
        let told = fields(reading!(wiqhano_stepper_start, open, 54));
        assert_eq!(told, (0, 18, 0, 0.0, 0, 0), "{request}");
    }
    let told = fields(reading!(wiqhano_stepper_start, record(3, 2, 0), 54));
    assert_eq!(told, (0, 15, 0, 0.0, 0, 0));
    let told = reading!(wiqhano_stepper_statistics, pending, 54);
    assert_eq!((told.number, told.statistics), (0, pending.statistics));
    let told = reading!(wiqhano_stepper_statistics, record(3, 2, 8), 54);
    let none = StepStatistics::default();
    assert_eq!((told.number, told.statistics), (18, none));
}

#[test]
fn a_record_is_changed_where_it_stands() {
    for (accept, request) in [(true, 1), (false, 1), (true, 0), (false, 0), (true, 5)] {
        let mut lent = record(1, 1, request);
        let (by_value, left) = decided(lent, accept);
        let (mut state, work, pivots) = ([5.0], [7.0; 12], [0]);
        let number = unsafe {
            match accept {
                true => ffi::wiqhano_stepper_accept_in_place(
                    &mut lent,
                    state.as_mut_ptr(),
                    1,
                    work.as_ptr(),
                    12,
                    pivots.as_ptr(),
                    1,
                ),
                false => ffi::wiqhano_stepper_reject_in_place(
                    &mut lent,
                    state.as_ptr(),
                    1,
                    work.as_ptr(),
                    12,
                    pivots.as_ptr(),
                    1,
                ),
            }
        };
        assert_eq!((number, state[0]), (by_value.number, left));
        assert_eq!(text(lent), text(by_value.stepper));
    }
}

/// A call by value and in place, on a record with 1 component and 1 stage and on the same memory: the
/// answer, the record and the memory that are left.
macro_rules! both {
    ($by_value:ident, $in_place:ident, $record:expr, $($argument:expr),*) => {{
        let file = wiqhano::tableau::Coefficients::pond().file();
        let (mut work, mut pivots) = ([7.0; 12], [0_usize]);
        let mut place = $record;
        let (mut its_work, mut its_pivots) = (work, pivots);
        let state = [5.0];
        let (by_value, in_place) = unsafe {
            (
                ffi::$by_value(
                    $record, file.as_ptr(), file.len(), $($argument,)* state.as_ptr(), 1,
                    work.as_mut_ptr(), 12, pivots.as_mut_ptr(), 1,
                ),
                ffi::$in_place(
                    &mut place, file.as_ptr(), file.len(), $($argument,)* state.as_ptr(), 1,
                    its_work.as_mut_ptr(), 12, its_pivots.as_mut_ptr(), 1,
                ),
            )
        };
        assert_eq!((in_place.kind, in_place.number), (by_value.kind, by_value.number));
        assert_eq!(text(place), text(by_value.stepper));
        assert_eq!((its_work, its_pivots), (work, pivots));
        (in_place.kind, in_place.number)
    }};
}

#[test]
fn each_field_of_a_call_in_place_goes_to_its_place() {
    let values = [0.25];
    for request in 0..10 {
        let lent = record(1, 1, request);
        let (open, pending) = (request > 1, request == 1);
        for (jacobian, partial) in [(true, false), (false, true)] {
            let told = both!(
                wiqhano_stepper_attempt,
                wiqhano_stepper_attempt_in_place,
                lent,
                0.5,
                jacobian,
                partial
            );
            let expected = match request {
                9 => (0, 1),
                _ if open => (0, 18),
                _ if pending => (0, 14),
                _ => (1, 0),
            };
            assert_eq!(told, expected, "{request}");
            let told = both!(
                wiqhano_stepper_attempt_to,
                wiqhano_stepper_attempt_to_in_place,
                lent,
                2.0,
                0.5,
                jacobian,
                partial
            );
            assert_eq!(told, expected, "{request}");
        }
        let told = both!(
            wiqhano_stepper_supply,
            wiqhano_stepper_supply_in_place,
            lent,
            values.as_ptr(),
            1
        );
        match request {
            9 => assert_eq!(told, (0, 1)),
            _ if open => assert_ne!(told, (0, 17), "{request}"),
            _ => assert_eq!(told, (0, 17), "{request}"),
        }
    }
}
