//! A second reading of the readers: what each tells of a record and the memory lent with it. The
//! refusals are those of docs/RULES.md in their order, and the places are those that the wrapper
//! reads by itself.
#![allow(dead_code)]
use wiqhano::Failure;
use wiqhano::protocol::text::{double, vector};
use wiqhano::rosenbrock::calls::{Memory, Record, needed_work};
use wiqhano::rosenbrock::direct::{self, Part};
use wiqhano::rosenbrock::reading::{self, Read, Request};

/// A reader's name, and what it told, as text.
type Told = (String, Result<String, u32>);

/// Lengths, n and s in range and fitting each other.
pub fn shape(n: usize, s: usize, memory: &Memory) -> bool {
    (1..=32).contains(&n)
        && (1..=8).contains(&s)
        && memory.state.len() == n
        && memory.pivots.len() == n
        && memory.work.len() >= needed_work(n, s)
}

/// Request and stage fit each other, and the memory the record.
pub fn fits(record: &Record, memory: &Memory) -> bool {
    let (fixed, progress) = (&record.fixed, &record.progress);
    let request = match progress.request {
        0..=6 => progress.stage == 0,
        7 => progress.stage < fixed.n,
        8 => progress.stage < fixed.s,
        _ => false,
    };
    shape(fixed.n, fixed.s, memory) && request
}

fn asked(request: Request<'_>) -> String {
    let (time, state) = (double(request.time), vector(request.state));
    format!("{:?} {time} {state} {}", request.asked, request.wanted())
}

fn optional(values: Option<&[f64]>) -> String {
    values.map_or("-".into(), vector)
}

/// What the library tells: every reader, the stages by these numbers, and copies to outputs of these
/// lengths.
pub fn told(record: &Record, memory: &Memory, indices: &[usize], lengths: &[usize]) -> Vec<Told> {
    fn of<T>(name: &str, read: Read<T>, text: impl Fn(T) -> String) -> Told {
        (name.into(), read.map(text).map_err(Failure::number))
    }
    let mut all = vec![
        of("request", reading::request(record, memory), asked),
        of("time", reading::time(record, memory), double),
        of("state", reading::state(record, memory), vector),
        of("derivative", reading::derivative(record, memory), optional),
        of("statistics", reading::statistics(record, memory), |t| {
            format!("{t:?}")
        }),
        of("start", reading::start(record, memory), double),
        of("end", reading::end(record, memory), double),
        of("candidate", reading::candidate(record, memory), vector),
        of("error", reading::error(record, memory), optional),
        of("stages", reading::stages(record, memory), vector),
        of("rhs_stages", reading::rhs_stages(record, memory), vector),
        of("jacobian", reading::jacobian(record, memory), vector),
        of(
            "time_partial",
            reading::time_partial(record, memory),
            vector,
        ),
    ];
    for index in indices {
        let (stage, rhs) = (format!("stage {index}"), format!("rhs_stage {index}"));
        all.push(of(&stage, reading::stage(record, *index, memory), vector));
        let read = reading::rhs_stage(record, *index, memory);
        all.push(of(&rhs, read, vector));
    }
    for length in lengths {
        let mut output = vec![7.5; *length];
        let copied = reading::copy_state_into(record, memory, &mut output);
        // what the output holds is told where it is refused, too
        let name = format!("copy to {length}: {}", vector(&output));
        all.push(of(&name, copied, |()| String::new()));
    }
    all
}

/// The same, by the second reading.
pub fn expected(
    record: &Record,
    memory: &Memory,
    indices: &[usize],
    lengths: &[usize],
) -> Vec<Told> {
    let (n, s, progress) = (record.fixed.n, record.fixed.s, &record.progress);
    let first = (!fits(record, memory)).then_some(1);
    let when = |number: u32, holds: bool| holds.then_some(number);
    let idle = first.or(when(17, progress.request < 2));
    let open = first.or(when(18, progress.request > 1));
    let none = open.or(when(15, progress.request != 1));
    // what is not refused is read by the wrapper's own reading
    let of = |name: &str, refusal: Option<u32>, text: &dyn Fn() -> String| -> Told {
        (name.into(), refusal.map_or_else(|| Ok(text()), Err))
    };
    let part = |which| direct::part(record, memory, which);
    let shown = |which| match progress.step == 0.0 {
        true => "[]".into(),
        false => vector(part(which)),
    };
    let request = || asked(direct::request(record, memory).expect("an open attempt"));
    let cached = progress.memo.derivative_valid;
    let error = progress.memo.error_shown;
    let mut all = vec![
        of("request", idle, &request),
        of("time", open, &|| double(progress.time)),
        of("state", open, &|| vector(&memory.state)),
        of("derivative", open, &|| {
            optional(cached.then(|| part(Part::Current)))
        }),
        of("statistics", open, &|| format!("{:?}", record.statistics)),
        of("start", none, &|| double(progress.time)),
        of("end", none, &|| double(progress.end)),
        of("candidate", none, &|| vector(part(Part::Candidate))),
        of("error", none, &|| {
            optional(error.then(|| part(Part::Error)))
        }),
        of("stages", none, &|| shown(Part::Stages)),
        of("rhs_stages", none, &|| shown(Part::RhsStages)),
        of("jacobian", none, &|| shown(Part::Jacobian)),
        of("time_partial", none, &|| shown(Part::TimePartial)),
    ];
    for index in indices {
        let refusal = none.or(when(1, *index >= s || progress.step == 0.0));
        let row = |which| vector(&part(which)[index * n..][..n]);
        let (stage, rhs) = (format!("stage {index}"), format!("rhs_stage {index}"));
        all.push(of(&stage, refusal, &|| row(Part::Stages)));
        all.push(of(&rhs, refusal, &|| row(Part::RhsStages)));
    }
    for length in lengths {
        let refusal = open.or(when(1, *length != n));
        let output = match refusal {
            Some(_) => vector(&vec![7.5; *length]),
            None => vector(&memory.state),
        };
        let name = format!("copy to {length}: {output}");
        all.push(of(&name, refusal, &String::new));
    }
    all
}

/// The readers that tell something else, if any.
pub fn differing(
    record: &Record,
    memory: &Memory,
    indices: &[usize],
    lengths: &[usize],
) -> Vec<(Told, Told)> {
    let told = told(record, memory, indices, lengths);
    let expected = expected(record, memory, indices, lengths);
    assert_eq!(told.len(), expected.len());
    let pairs = told.into_iter().zip(expected);
    pairs.filter(|(told, expected)| told != expected).collect()
}
