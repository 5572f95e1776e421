//! Lists of calls on a model's words: a load, some steps, and then alterations, each with an advance and steps on
//! from there.

use crate::alter::{self, Sort, Then, SORTS, SOUND};
use crate::compared::{advance, load, NOT_SOUND};
use crate::coverage::Coverage;
use crate::malformed::MALFORMED;
use crate::wanted::wanted;
use crate::words::Words;
use cases::hexadecimal;
use cases::random::Random;
use std::fmt;

/// What was tried last: a stream that is loaded, or an advance by a wanted step of a model's words, after an
/// alteration of some sort or none. It is for the report of a difference.
#[derive(Default)]
pub enum Last {
    #[default]
    Nothing,
    Load(Vec<u8>),
    Advance(Option<&'static str>, u64, Box<Words>),
}

impl fmt::Display for Last {
    fn fmt(&self, f: &mut fmt::Formatter) -> fmt::Result {
        match self {
            Last::Nothing => f.write_str("nothing was tried"),
            Last::Load(stream) => write!(f, "load of {}", hexadecimal(stream)),
            Last::Advance(sort, w, words) => {
                let altered = sort.map_or(String::new(), |name| format!("{name}: "));
                write!(f, "{altered}advance by {w} of {:?} {:?}", words.table(), words.state())
            }
        }
    }
}

/// Loads a stream, plays up to `most` steps of it, and then alters what comes of that so many times.
pub fn list(
    stream: &[u8],
    most: usize,
    alterations: usize,
    random: &mut Random,
    coverage: &mut Coverage,
    last: &mut Last,
) -> Result<(), String> {
    *last = Last::Load(stream.to_vec());
    let Some(model) = load(stream, random, coverage)? else { return Ok(()) };

    // The unused places hold noise, those for spans that no span is in too.
    let mut words = alter::noise(random);
    words.put(&model);
    play(&mut words, most, random, coverage, last)?;
    coverage.played(&words);
    for _ in 0..alterations {
        play_altered(&mut words, random, coverage, last)?;
    }
    Ok(())
}

/// Plays up to `most` steps of a sound model, which stays sound.
fn play(
    words: &mut Words,
    most: usize,
    random: &mut Random,
    coverage: &mut Coverage,
    last: &mut Last,
) -> Result<(), String> {
    for _ in 0..random.below(most + 1) {
        let w = wanted(words, random);
        *last = Last::Advance(None, w, Box::new(words.clone()));
        let (number, after) = advance(words, w, random, coverage)?;
        *words = after;
        if number == NOT_SOUND {
            return Err("a model that was played is unsound".to_string());
        }
    }
    Ok(())
}

/// Alters a model, advances it and, where it is sound, plays on; sometimes what comes of that is the model from then
/// on.
fn play_altered(
    words: &mut Words,
    random: &mut Random,
    coverage: &mut Coverage,
    last: &mut Last,
) -> Result<(), String> {
    let (name, then, alteration): Sort = if random.once_in(6) { random.pick(MALFORMED) } else { random.pick(SORTS) };
    let mut altered = words.clone();
    // Some faults are far from the start.
    let first = random.pick(&SORTS[..SOUND]);
    let moved = first.1 == Then::Sound && random.once_in(3) && first.2(&mut altered, random);
    if !moved {
        altered = words.clone();
    }
    if !alteration(&mut altered, random) {
        return Ok(());
    }
    let w = wanted(&altered, random);
    *last = Last::Advance(Some(name), w, Box::new(altered.clone()));
    let sound = altered.model().is_some_and(|model| model.sound());
    match then {
        Then::Sound if !sound => return Err("the second implementation finds it unsound".to_string()),
        Then::Unsound if sound => return Err("the second implementation finds it sound".to_string()),
        _ => {}
    }
    coverage.sort(name, sound);
    let (number, after) = advance(&altered, w, random, coverage)?;
    if (number == NOT_SOUND) == sound {
        return Err("24 does not tell whether it is sound".to_string());
    }
    if sound {
        altered = after;
        play(&mut altered, 3, random, coverage, last)?;
        if random.once_in(4) {
            *words = altered;
        }
    }
    Ok(())
}
