//! Plays wanted steps, and holds each answer beside the due parts and the accepted steps of the model before it.
use crate::coverage::Coverage;
use cases::random::Random;
use dozhumek::{Answer, Model, Refusal, Refused, HEAD, LAST_MICROSTEP, LAST_TICK, MOST_WANTED, STATE_RECORD};
use front::accepted::{accepted, accepted_by_all, due, meet, numbers, period, Steps};
use front::input::Input;
use front::why::advance_refused;

/// Plays the score of a model, then wanted steps at random, and then some from ticks at random.
pub fn play(
    input: &Input,
    mut model: Model,
    score: &[u64],
    random: &mut Random,
    coverage: &mut Coverage,
) -> Result<(), String> {
    for &wanted in score {
        advance(input, &mut model, wanted, coverage)?;
    }
    for _ in 0..random.below(6) {
        advance(input, &mut model, random.of_any_size(MOST_WANTED), coverage)?;
    }
    for _ in 0..random.below(4) {
        model = moved(&model, random);
        for _ in 0..1 + random.below(4) {
            advance(input, &mut model, random.of_any_size(MOST_WANTED), coverage)?;
        }
    }
    Ok(())
}

/// The model at another tick, with the local counts that belong to it: any tick, one near the last, or one at or just
/// before a multiple of a part's P or ratio.
fn moved(model: &Model, random: &mut Random) -> Model {
    let parts = model.parts().unwrap_or_default();
    let part = random.pick(&parts);
    let any = random.of_any_size(LAST_TICK);
    let period = period(&part).clamp(1, LAST_TICK.into()) as u64;
    let t = match random.below(4) {
        0 => any,
        1 => LAST_TICK - random.of_any_size(2 * MOST_WANTED),
        2 => any / period * period,
        _ => (any / part.ratio * part.ratio).saturating_sub(random.below(2) as u64),
    };
    let mut state = model.state().to_vec();
    state[0] = t;
    state[1] = if random.once_in(2) { 0 } else { random.below(1000) as u64 };
    for (number, part) in parts.iter().enumerate() {
        state[HEAD + STATE_RECORD * number] = t / part.ratio;
    }
    Model::from_words(model.table().to_vec(), state)
}

/// Makes an advance, whose answer has to be the one that the due parts and the accepted steps give.
fn advance(input: &Input, model: &mut Model, wanted: u64, coverage: &mut Coverage) -> Result<(), String> {
    let before = model.clone();
    let agrees = match model.advance(wanted) {
        Ok(answer) => committed(&before, &answer, coverage),
        Err(refused) => {
            if model.state() != before.state() {
                return Err("a refused advance moves the model".to_string());
            }
            let message = advance_refused(input, model, wanted, &refused);
            coverage.told(refused.refusal, &message)?;
            if refused.refusal == Refusal::NoStepAccepted {
                count_barred(&before, &refused, &message, coverage)?;
            }
            barred(&before, wanted, &refused)
        }
    };
    let (t, n) = (before.t(), before.n());
    match agrees {
        true => Ok(()),
        false => Err(format!("an advance by {wanted} from ({t}, {n}) is not the one that the accepted steps give")),
    }
}

/// Whether a committed answer is the one due: 0 where a part is due, else the largest step that all accept.
fn committed(before: &Model, answer: &Answer, coverage: &mut Coverage) -> bool {
    let is_due = !due(before).is_empty();
    if answer.step == 0 {
        coverage.none += 1;
        return is_due && before.n() < LAST_MICROSTEP;
    }
    coverage.steps += 1;
    coverage.revised += u64::from(answer.revisions > 0);
    coverage.shortened += u64::from(answer.step < answer.ceiling);
    !is_due && accepted_by_all(before, answer.ceiling).largest() == Some(answer.step)
}

/// Whether a refused advance is one that has to be refused so.
fn barred(before: &Model, wanted: u64, refused: &Refused) -> bool {
    let is_due = !due(before).is_empty();
    match refused.refusal {
        Refusal::WantedOutOfRange => !(1..=MOST_WANTED).contains(&wanted),
        Refusal::PastLastTick => before.t() + wanted > LAST_TICK,
        Refusal::DueAtLastMicrostep => is_due && before.n() == LAST_MICROSTEP,
        Refusal::NoStepAccepted => !is_due && accepted_by_all(before, refused.answer.ceiling).is_empty(),
        _ => false,
    }
}

/// Counts how many parts it took that no step was found, which the message has to tell.
fn count_barred(before: &Model, refused: &Refused, message: &str, coverage: &mut Coverage) -> Result<(), String> {
    let steps: Vec<Steps> = numbers(before).map(|part| accepted(before, part, refused.answer.ceiling)).collect();
    let alone = steps.iter().any(Steps::is_empty);
    let two = steps.iter().any(|one| steps.iter().any(|other| meet(one, other).is_empty()));
    let (sort, words) = match (alone, two) {
        (true, _) => (0, "accepts none"),
        (false, true) => (1, "do not meet"),
        _ => (2, "each two of these meet, but not all"),
    };
    coverage.barred[sort] += 1;
    let revised = message.contains("revision") == (refused.answer.revisions > 0);
    match message.contains(words) && revised {
        true => Ok(()),
        false => Err(format!("no step is accepted, which is told by {message:?}")),
    }
}
