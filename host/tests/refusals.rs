//! Refusals that the original does not make: it answers with a number, or ends the process.
use wiqhano::protocol::run;

fn answers(script: &str) -> Vec<String> {
    let mut out = Vec::new();
    run(script.as_bytes(), &mut out, false).unwrap();
    let out = String::from_utf8(out).unwrap();
    out.lines().map(String::from).collect()
}

#[test]
fn the_norm_refuses_lengths_then_values_then_tolerances() {
    let script = [
        "norm =1e-6 =1e-3 [] [] []",
        "norm =1e-6 =1e-3 [=1,=1] [=1] [=1]",
        "norm =1e-6 =1e-3 [=1] [=1,=1] [=1]",
        "norm =1e-6 =1e-3 [=1] [=1] [=1,=nan]",
        "norm =-1 =1e-3 [=nan] [=1] [=1]",
        "norm =1e-6 =1e-3 [=1] [=inf] [=1]",
        "norm =1e-6 =1e-3 [=1] [=1] [=-inf]",
        "norm =-1 =1 [=1] [=1] [=0]",
        "norm =0 =1 [=1] [=1] [=0]",
        "norm =1 =inf [=1] [=1] [=0]",
    ];
    let numbers = [1, 1, 1, 1, 2, 2, 2, 8, 8, 8];
    for (line, number) in script.iter().zip(numbers) {
        let answer = &answers(line)[0];
        assert!(
            answer.starts_with(&format!("err {number} ")),
            "{line}: {answer}"
        );
    }
}

#[test]
fn solve_tests_its_pivots() {
    use wiqhano::linear::solve;
    let mut x = [3.0, 5.0];
    for pivots in [[2, 1], [1, usize::MAX]] {
        let answer = solve(&[1.0, 0.0, 0.0, 1.0], &pivots, &mut x, 2);
        assert_eq!(answer.unwrap_err().number(), 13);
        assert_eq!(x, [3.0, 5.0]);
    }
    assert_eq!(solve(&[1.0, 0.0, 0.0, 1.0], &[1, 1], &mut x, 2), Ok(()));
    assert_eq!(x, [5.0, 3.0]);
}

/// The readers of a stepper through its life: 1, then 17 or 18, then 15, then 1 for an index or a
/// length. A refused copy leaves its output as it was.
#[test]
fn readers_are_refused_in_their_order() {
    use wiqhano::rosenbrock::calls::{self, Memory, Modes, Told};
    use wiqhano::rosenbrock::reading::{self, Asked};
    use wiqhano::tableau::Coefficients;
    use wiqhano::{Failure, TimeDifferencePolicy};

    let file = Coefficients::pond().file();
    let mut memory = Memory::new(&[1.0, 2.0], 1);
    let policy = TimeDifferencePolicy::default().into();
    let mut record = calls::new(&file, policy, 0.5, memory.lend()).unwrap();
    let mut output = [7.5; 3];

    // nothing is asked, nothing is pending
    let r = &record;
    assert_eq!(reading::request(r, &memory), Err(Failure::NoRequest));
    assert_eq!(reading::time(r, &memory), Ok(0.5));
    assert_eq!(reading::derivative(r, &memory), Ok(None));
    assert_eq!(reading::end(r, &memory), Err(Failure::NoCandidate));
    for index in [0, 1, usize::MAX] {
        let none = Err(Failure::NoCandidate);
        assert_eq!(reading::stage(r, index, &memory), none);
        assert_eq!(reading::rhs_stage(r, index, &memory), none);
    }
    let unfit = Err(Failure::Dimension);
    assert_eq!(reading::copy_state_into(r, &memory, &mut output), unfit);
    assert_eq!(
        reading::copy_state_into(r, &memory, &mut output[..1]),
        unfit
    );
    assert_eq!(output, [7.5; 3]);
    let copied = reading::copy_state_into(r, &memory, &mut output[..2]);
    assert_eq!((copied, output), (Ok(()), [1.0, 2.0, 7.5]));

    // an attempt is open: what is asked, and nothing else
    let modes = Modes {
        host_jacobian: true,
        host_time_partial: true,
    };
    let answer = calls::attempt(&mut record, &file, 1.0, modes, memory.lend());
    assert_eq!(answer, Ok(Told::Asked));
    let r = &record;
    let request = reading::request(r, &memory).unwrap();
    assert_eq!(
        (request.asked, request.time, request.state),
        (Asked::Derivative, 0.5, &[1.0, 2.0][..])
    );
    assert_eq!(reading::state(r, &memory), Err(Failure::AttemptOpen));
    assert_eq!(
        reading::statistics(r, &memory).err(),
        Some(Failure::AttemptOpen)
    );
    assert_eq!(reading::start(r, &memory), Err(Failure::AttemptOpen));
    assert_eq!(
        reading::stage(r, usize::MAX, &memory),
        Err(Failure::AttemptOpen)
    );
    output = [7.5; 3];
    for length in 0..4 {
        let copied = reading::copy_state_into(r, &memory, &mut output[..length.min(3)]);
        assert_eq!(copied, Err(Failure::AttemptOpen));
    }
    assert_eq!(output, [7.5; 3]);

    // a step is pending
    for values in [&[-1.0, -2.0][..], &[-1.0, 0.0, 0.0, -1.0], &[0.0, 0.0]] {
        calls::supply(&mut record, &file, values, memory.lend()).unwrap();
    }
    let r = &record;
    assert_eq!(reading::request(r, &memory), Err(Failure::NoRequest));
    assert_eq!(reading::start(r, &memory), Ok(0.5));
    assert_eq!(reading::end(r, &memory), Ok(1.5));
    assert_eq!(reading::candidate(r, &memory), Ok(&[0.5, 1.0][..]));
    assert_eq!(reading::error(r, &memory), Ok(None));
    assert_eq!(reading::stage(r, 0, &memory), Ok(&[-0.5, -1.0][..]));
    assert_eq!(reading::rhs_stage(r, 0, &memory), Ok(&[-1.0, -2.0][..]));
    for index in [1, 2, 1 << 63, usize::MAX] {
        assert_eq!(reading::stage(r, index, &memory), unfit.map(|()| &[][..]));
        assert_eq!(
            reading::rhs_stage(r, index, &memory),
            unfit.map(|()| &[][..])
        );
    }

    // a step of 0 has no stages
    assert_eq!(
        calls::reject_in_place(&mut record, memory.lend()),
        Ok(Told::Done)
    );
    let answer = calls::attempt(&mut record, &file, 0.0, modes, memory.lend());
    assert_eq!(answer, Ok(Told::Shown));
    let r = &record;
    assert_eq!(reading::stages(r, &memory), Ok(&[][..]));
    assert_eq!(reading::jacobian(r, &memory), Ok(&[][..]));
    assert_eq!(reading::stage(r, 0, &memory), unfit.map(|()| &[][..]));

    // lengths come first, whatever else would be refused
    memory.pivots.push(0);
    assert_eq!(reading::request(r, &memory).err(), Some(Failure::Dimension));
    assert_eq!(
        reading::stage(r, 9, &memory).err(),
        Some(Failure::Dimension)
    );
    assert_eq!(reading::time(r, &memory), Err(Failure::Dimension));
}
