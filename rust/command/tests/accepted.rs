//! Which parts are due, and the accepted steps as intervals, beside document 01's rule step by step.
use dozhumek::{load, Model, HEAD, STATE_RECORD};
use front::accepted::{accepted, accepted_by_all, due, meet, Steps};
use front::command::Command;

/// The model of a table's commands, between Begin with a magnitude and End.
fn model(magnitude: u8, commands: &[Command]) -> Model {
    let all = [&[Command::Begin { magnitude }], commands, &[Command::End]].concat();
    load(&all.iter().flat_map(Command::bytes).collect::<Vec<u8>>()).expect("the load is refused").model
}

/// The model at another tick, with the local counts that belong to it.
fn at(model: &Model, t: u64) -> Model {
    let mut state = model.state().to_vec();
    state[0] = t;
    for (number, part) in model.parts().unwrap().iter().enumerate() {
        state[HEAD + STATE_RECORD * number] = t / part.ratio;
    }
    Model::from_words(model.table().to_vec(), state)
}

/// A part with a preference.
fn part(kind: u8, preference: u8, p: u32) -> Command {
    Command::Part { kind, preference, a: 0, b: 0, p }
}

/// The commands of some spans.
fn spans(spans: &[u32]) -> impl Iterator<Item = Command> + '_ {
    spans.iter().map(|&ticks| Command::Span { ticks })
}

/// The steps of intervals, one by one.
fn each(steps: &Steps) -> Vec<u64> {
    steps.intervals().iter().flat_map(|&(low, high)| low..=high).collect()
}

#[test]
fn a_drive_accepts_the_steps_that_add_0_or_a_span() {
    for (magnitude, own) in [(0, &[3, 8][..]), (1, &[1, 2, 4]), (1, &[2]), (1, &[]), (0, &[]), (2, &[1])] {
        let commands: Vec<Command> = std::iter::once(part(11, 0, 0)).chain(spans(own)).collect();
        let model = model(magnitude, &commands);
        let ratio = 10u64.pow(magnitude.into());
        for (t, ceiling) in (0..25).flat_map(|t| [(t, 60), (t, 1), (t, 7)]) {
            let grown = |h: u64| (t + h) / ratio - t / ratio;
            let due = (1..=ceiling).filter(|&h| grown(h) == 0 || own.iter().any(|&span| u64::from(span) == grown(h)));
            let steps = accepted(&at(&model, t), 0, ceiling);
            assert_eq!(
                each(&steps),
                due.collect::<Vec<_>>(),
                "ratio {ratio}, spans {own:?}, tick {t}, ceiling {ceiling}"
            );
            let apart = steps.intervals().windows(2).all(|two| two[0].1 + 1 < two[1].0);
            assert!(apart, "{steps:?} touch");
        }
    }
}

#[test]
fn squares_and_pulses_accept_up_to_the_next_multiple_of_their_period() {
    for kind in [3, 4] {
        let model = model(1, &[part(kind, 0, 2)]);
        for t in 0..60 {
            let model = at(&model, t);
            let is_due = t > 0 && t % 20 == 0;
            assert_eq!(due(&model), if is_due { vec![0] } else { vec![] });
            let left = if is_due { 0 } else { 20 - t % 20 };
            assert_eq!(accepted(&model, 0, 100), Steps::all(left));
            assert_eq!(accepted(&model, 0, 3), Steps::all(left.min(3)));
        }
    }
}

#[test]
fn products_beyond_64_bits_are_exact() {
    let commands: Vec<Command> = std::iter::once(part(11, 0, 0)).chain(spans(&[1_000_000_000])).collect();
    let drive = at(&model(15, &commands), 999_999_999_999_999_999);
    assert!(accepted(&drive, 0, u64::MAX).is_empty());
    let drive = at(&drive, 999_999_999_999_999_990);
    assert_eq!(each(&accepted(&drive, 0, 20)), (1..=9).collect::<Vec<_>>());
    assert_eq!(accepted(&drive, 1, 20), Steps::default());
}

#[test]
fn what_meets() {
    let one = |spans: &[u32]| {
        let commands: Vec<Command> = std::iter::once(part(11, 255, 0)).chain(self::spans(spans)).collect();
        accepted(&model(0, &commands), 0, 100)
    };
    assert_eq!(each(&meet(&one(&[1, 2, 3, 7, 9]), &one(&[2, 3, 4, 8, 9, 10]))), [2, 3, 9]);
    assert_eq!(meet(&one(&[1, 5]), &one(&[2, 6])), Steps::default());
    assert_eq!(meet(&Steps::all(4), &one(&[3, 4, 5])).largest(), Some(4));
    assert_eq!(meet(&Steps::all(4), &one(&[3, 4, 5])).least(), Some(3));
    let commands: Vec<Command> =
        std::iter::once(part(4, 255, 6)).chain([part(11, 255, 0)]).chain(spans(&[4, 8])).collect();
    assert_eq!(each(&accepted_by_all(&model(0, &commands), 100)), [4]);
}
