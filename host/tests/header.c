/* The header's calls from C: some numbers, then pond's two steps, to the bit. Ends with the number of
   differences. */
#include "../wiqhano.h"

#include <stdio.h>
#include <string.h>

static int differences = 0;

static uint64_t bits(double x)
{
    uint64_t pattern;
    memcpy(&pattern, &x, sizeof pattern);
    return pattern;
}

static void same(const char *what, uint64_t answer, uint64_t expected)
{
    if (answer != expected) {
        printf("%s: %016llx, not %016llx\n", what, (unsigned long long)answer,
               (unsigned long long)expected);
        differences++;
    }
}

static void numbers(void)
{
    same("sqrt 2", bits(wiqhano_sqrt(2.0)), 0x3ff6a09e667f3bcd);
    same("sqrt -0", bits(wiqhano_sqrt(-0.0)), 0x8000000000000000);
    same("is_nan of sqrt -1", wiqhano_is_nan(wiqhano_sqrt(-1.0)), true);
    wiqhano_answer step = wiqhano_endpoint_step(0.0, 1.0, 2.0);
    same("endpoint_step", step.number, 0);
    same("endpoint_step's value", bits(step.value), bits(1.0));
    same("endpoint_step backwards", wiqhano_endpoint_step(0.0, 1.0, -1.0).number, 4);
    wiqhano_time_difference_policy policy = wiqhano_default_policy();
    same("relative step", bits(policy.relative_step), 0x3ed965fea53d6e3d);

    double matrix[4] = {0.0, 2.0, 4.0, 6.0}, rhs[2] = {4.0, 8.0};
    size_t pivots[2] = {0, 0};
    same("factorize", wiqhano_factorize(matrix, 4, pivots, 2, 2), 0);
    same("solve", wiqhano_solve(matrix, 4, pivots, 2, rhs, 2, 2), 0);
    same("x", bits(rhs[0]), bits(-1.0));
    same("y", bits(rhs[1]), bits(2.0));
    same("solve with a length", wiqhano_solve(matrix, 4, pivots, 2, rhs, 1, 2), 1);

    wiqhano_settings settings = wiqhano_controller_proportional(4);
    same("settings", settings.refusal, 0);
    wiqhano_settled settled = wiqhano_controller_new(settings.config, 0.5);
    same("controller", settled.refusal, 0);
    same("next step", bits(wiqhano_controller_next_step(settled.controller).value), bits(0.5));
    wiqhano_assess_answer assessed = wiqhano_controller_assess(settled.controller, 0.5, 0.25, 1.5);
    same("assess", assessed.number, 0);
    same("accepted", assessed.accepted, true);
    same("the step after it", bits(assessed.next_step), bits(0.75));
}

/* s = 1, gamma = d = b = 1, c = 0, no btilde */
static void pond_file(uint8_t file[80])
{
    const uint32_t counts[12] = {1, 0, 0, 0, 48, 56, 56, 56, 64, 72, 0, 80};
    const double coefficients[4] = {1.0, 0.0, 1.0, 1.0};
    memcpy(file, counts, sizeof counts);
    memcpy(file + sizeof counts, coefficients, sizeof coefficients);
}

static uint8_t file[80];
static double state[1] = {1.0}, work[12];
static size_t pivots[1];

/* A step of 1 of y' = -y, up to its candidate. */
static wiqhano_rosenbrock_stepper attempted(wiqhano_rosenbrock_stepper stepper)
{
    wiqhano_stepper_answer answer =
        wiqhano_stepper_attempt(stepper, file, 80, 1.0, true, true, state, 1, work, 12, pivots, 1);
    while (answer.kind == 1) {
        wiqhano_reading_answer asked =
            wiqhano_stepper_request(answer.stepper, state, 1, work, 12, pivots, 1);
        double y = asked.kind == 5 ? state[0] : work[asked.at];
        double value = asked.asked == 1 ? -y : asked.asked == 2 ? -1.0 : 0.0;
        same("kind of a request", asked.kind == 5 || asked.kind == 6, true);
        answer = wiqhano_stepper_supply(answer.stepper, file, 80, &value, 1, state, 1, work, 12,
                                        pivots, 1);
    }
    same("kind of an attempt", answer.kind, 2);
    same("number of an attempt", answer.number, 0);
    return answer.stepper;
}

/* The same on the record where it stands, by way of attempt or attempt_to. */
static void attempted_in_place(wiqhano_rosenbrock_stepper *stepper, bool to)
{
    wiqhano_call_answer answer =
        to ? wiqhano_stepper_attempt_to_in_place(stepper, file, 80, 2.0, 5.0, true, true, state, 1,
                                                 work, 12, pivots, 1)
           : wiqhano_stepper_attempt_in_place(stepper, file, 80, 1.0, true, true, state, 1, work, 12,
                                              pivots, 1);
    while (answer.kind == 1) {
        wiqhano_reading_answer asked =
            wiqhano_stepper_request(*stepper, state, 1, work, 12, pivots, 1);
        double y = asked.kind == 5 ? state[0] : work[asked.at];
        double value = asked.asked == 1 ? -y : asked.asked == 2 ? -1.0 : 0.0;
        answer = wiqhano_stepper_supply_in_place(stepper, file, 80, &value, 1, state, 1, work, 12,
                                                 pivots, 1);
    }
    same("kind of an attempt in place", answer.kind, 2);
    same("number of an attempt in place", answer.number, 0);
    answer = wiqhano_stepper_attempt_in_place(stepper, file, 80, 1.0, true, true, state, 1, work, 12,
                                              pivots, 1);
    same("kind of a second attempt", answer.kind, 0);
    same("number of a second attempt", answer.number, 14);
}

static void pond(void)
{
    pond_file(file);
    same("tableau check", wiqhano_tableau_check(file, 80), 0);
    same("tableau check of fewer bytes", wiqhano_tableau_check(file, 79), 12);
    same("stages", wiqhano_tableau_stages(file, 80), 1);

    wiqhano_making_answer made = wiqhano_stepper_new(file, 80, wiqhano_default_policy(), 0.0, state, 1,
                                                     work, 12, pivots, 1);
    same("making", made.number, 0);
    wiqhano_rosenbrock_stepper stepper = attempted(made.stepper);
    wiqhano_reading_answer candidate =
        wiqhano_stepper_candidate(stepper, state, 1, work, 12, pivots, 1);
    same("kind of a candidate", candidate.kind, 3);
    same("its length", candidate.count, 1);
    same("candidate", bits(work[candidate.at]), 0x3fe0000000000000);
    same("accept in place",
         wiqhano_stepper_accept_in_place(&stepper, state, 1, work, 12, pivots, 1), 0);
    same("state after a step", bits(state[0]), 0x3fe0000000000000);
    same("time after a step",
         bits(wiqhano_stepper_time(stepper, state, 1, work, 12, pivots, 1).value),
         0x3ff0000000000000);
    same("accept without a candidate",
         wiqhano_stepper_accept_in_place(&stepper, state, 1, work, 12, pivots, 1), 15);

    attempted_in_place(&stepper, false);
    same("reject in place",
         wiqhano_stepper_reject_in_place(&stepper, state, 1, work, 12, pivots, 1), 0);
    attempted_in_place(&stepper, true);
    wiqhano_stepper_answer accepted =
        wiqhano_stepper_accept(stepper, state, 1, work, 12, pivots, 1);
    same("accept", accepted.kind, 3);
    same("state after two steps", bits(state[0]), 0x3fd0000000000000);
    wiqhano_statistics_answer counters =
        wiqhano_stepper_statistics(accepted.stepper, state, 1, work, 12, pivots, 1);
    same("accepted steps", counters.statistics.accepted_steps, 2);
    same("solves", counters.statistics.linear_solves, 3);
    double copy[2] = {7.5, 7.5};
    same("copy to another length",
         wiqhano_stepper_copy_state_into(accepted.stepper, copy, 2, state, 1, work, 12, pivots, 1),
         1);
    same("the output then", bits(copy[0]), bits(7.5));
}

/* Every reader ends, whatever byte stands in a flag's place. */
static void flags(void)
{
    const unsigned char bytes[6] = {2, 3, 127, 128, 254, 255};
    state[0] = 1.0;
    wiqhano_making_answer made = wiqhano_stepper_new(file, 80, wiqhano_default_policy(), 0.0, state, 1,
                                                     work, 12, pivots, 1);
    for (int i = 0; i < 6; i++) {
        wiqhano_rosenbrock_stepper idle = made.stepper, pending = attempted(made.stepper);
        memcpy(&idle.progress.memo.derivative_valid, &bytes[i], 1);
        memcpy(&pending.progress.memo.error_shown, &bytes[i], 1);
        uint32_t derivative = wiqhano_stepper_derivative(idle, state, 1, work, 12, pivots, 1).kind;
        uint32_t error = wiqhano_stepper_error(pending, state, 1, work, 12, pivots, 1).kind;
        same("kind of a derivative", derivative == 3 || derivative == 4, true);
        same("kind of an error", error == 3 || error == 4, true);
    }
}

int main(void)
{
    numbers();
    pond();
    flags();
    return differences != 0;
}
