//! The calls of a script, by the static library and by the second implementation. Both take and give a model's words,
//! so that whatever reads, alters and prints them is the same for both.

use crate::words::Words;
use dozhumek::{load_into, preview_into, state_words, table_words, Refused, PARTS};
use second::Shown;

/// What loading answers.
pub struct Loaded {
    pub number: u64,
    pub position: u64,
    pub model: Words,
}

/// What advancing answers: the number, the step, the rounds, the revisions and the last ceiling, and the model.
#[derive(Clone)]
pub struct Answer {
    pub counts: [u64; 5],
    pub model: Words,
}

/// What previewing answers: the answer of an advance, and beside it the given model.
pub struct Preview {
    pub answer: Answer,
    pub model: Words,
}

/// What a writing call answers: the number and the length.
pub struct Written {
    pub number: u64,
    pub length: u64,
}

/// The calls that a script can make.
pub trait Calls {
    fn load(stream: &[u8]) -> Loaded;
    fn advance(model: &Words, wanted: u64) -> Answer;
    fn preview(model: &Words, wanted: u64) -> Preview;
    fn save(model: &Words, buffer: &mut [u8]) -> Written;
    fn sheet(answer: &Answer, choice: [u64; 3], buffer: &mut [u8]) -> Written;
}

/// The proved calls of the static library.
pub struct Verified;

/// The words of the binding's model.
fn words_of(model: &dozhumek::Model) -> Words {
    Words::of_lent(model.table(), model.state())
}

/// The binding's model in these words.
fn model_in(words: &Words) -> dozhumek::Model {
    dozhumek::Model::from_words(words.table(), words.state())
}

/// The counts of the binding's answer. The number is 0 where it is not refused, and else the refusal's.
fn counts_of(answered: Result<dozhumek::Answer, Refused>) -> [u64; 5] {
    let (number, answer) = match answered {
        Ok(answer) => (0, answer),
        Err(refused) => (refused.refusal.number(), refused.answer),
    };
    [number, answer.step, answer.rounds, answer.revisions, answer.ceiling]
}

/// The words of a table and of a state of the most parts, all 0 before, after a load.
fn words_loaded(stream: &[u8]) -> Words {
    let (mut table, mut state) = (vec![0; table_words(PARTS)], vec![0; state_words(PARTS)]);
    load_into(stream, &mut table, &mut state, &mut [0; 2]);
    Words::of_lent(&table, &state)
}

/// The words of a model whose state is what a preview of it leaves.
fn words_previewed(model: &dozhumek::Model, wanted: u64) -> Words {
    let mut state = model.state().to_vec();
    preview_into(model.table(), model.state(), wanted, &mut state, &mut [0; 5]);
    Words::of_lent(model.table(), &state)
}

/// What a writing call answers, of the two words that it writes.
fn written(call: impl FnOnce(&mut [u64]) -> u64) -> Written {
    let mut out = [0; 2];
    call(&mut out);
    let [number, length] = out;
    Written { number, length }
}

impl Calls for Verified {
    fn load(stream: &[u8]) -> Loaded {
        let (number, position, model) = match dozhumek::load(stream) {
            Ok(loaded) => (0, loaded.position, words_of(&loaded.model)),
            Err(refused) => (refused.refusal.number(), refused.position, words_loaded(stream)),
        };
        Loaded { number, position: position as u64, model }
    }

    fn advance(model: &Words, wanted: u64) -> Answer {
        let mut model = model_in(model);
        let counts = counts_of(model.advance(wanted));
        Answer { counts, model: words_of(&model) }
    }

    fn preview(model: &Words, wanted: u64) -> Preview {
        let model = model_in(model);
        let (answered, ahead) = match model.preview(wanted) {
            Ok(preview) => (Ok(preview.answer), words_of(&preview.model)),
            Err(refused) => (Err(refused), words_previewed(&model, wanted)),
        };
        Preview { answer: Answer { counts: counts_of(answered), model: ahead }, model: words_of(&model) }
    }

    fn save(model: &Words, buffer: &mut [u8]) -> Written {
        written(|out| dozhumek::save_into(&model.table(), &model.state(), buffer, out))
    }

    fn sheet(Answer { counts, model }: &Answer, choice: [u64; 3], buffer: &mut [u8]) -> Written {
        written(|out| dozhumek::sheet_into(&model.table(), &model.state(), counts, choice, buffer, out))
    }
}

/// The calls of the second implementation.
pub struct Second;

/// The number of words that spell no model, or one that its types cannot say and that is then not sound.
const NOT_SOUND: u64 = 24;

/// What a call of the second implementation answers for the model that these words mean.
fn answered(words: &Words, call: impl FnOnce(second::Model) -> second::Answer) -> Answer {
    let mut words = words.clone();
    let Some(meant) = words.model() else {
        return Answer { counts: [NOT_SOUND, 0, 0, 0, 0], model: words };
    };
    let answer = call(meant);
    words.put(&answer.model);
    Answer {
        counts: [answer.number.into(), answer.step, answer.rounds.into(), answer.revisions.into(), answer.ceiling],
        model: words,
    }
}

/// What a writing call of the second implementation answers for the model that these words mean.
fn written_of(words: &Words, call: impl FnOnce(&second::Model) -> second::Written) -> Written {
    let Some(meant) = words.model() else {
        return Written { number: NOT_SOUND, length: 0 };
    };
    let written = call(&meant);
    Written { number: written.number.into(), length: written.length as u64 }
}

impl Calls for Second {
    fn load(stream: &[u8]) -> Loaded {
        let mut model = Words::none();
        let (number, position) = match second::load(stream) {
            Ok(accepted) => {
                model.put(&accepted.model);
                (0, accepted.end)
            }
            Err(refusal) => (refusal.number.into(), refusal.position),
        };
        Loaded { number, position: position as u64, model }
    }

    fn advance(model: &Words, wanted: u64) -> Answer {
        answered(model, |meant| second::advance(meant, wanted))
    }

    fn preview(model: &Words, wanted: u64) -> Preview {
        let mut given = model.clone();
        let answer = answered(model, |meant| {
            let answer = second::preview(&meant, wanted);
            given.put(&meant);
            answer
        });
        Preview { answer, model: given }
    }

    fn save(model: &Words, buffer: &mut [u8]) -> Written {
        written_of(model, |meant| second::save(meant, buffer))
    }

    fn sheet(Answer { counts, model }: &Answer, choice: [u64; 3], buffer: &mut [u8]) -> Written {
        let [number, step, rounds, revisions, _] = *counts;
        written_of(model, |meant| second::sheet(meant, Shown { number, step, rounds, revisions }, choice, buffer))
    }
}
