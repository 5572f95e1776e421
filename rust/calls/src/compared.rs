//! One load and one advance by both, compared: as it is, through the binding, with too few words, and with every room
//! for its answer. Each advance is previewed as well, each answer printed, and each model's table saved.

use crate::alter::any;
use crate::coverage::Coverage;
use crate::lent::{
    self, cut, fewer, fits, same_records, spare, state_words, table_words, Call, Load, ADVANCE, TOO_SHORT,
};
use crate::previewed::preview;
use crate::saved::{save, save_fresh};
use crate::sheeted::sheet;
use crate::words::*;
use cases::random::Random;
use dozhumek::{Answer, Refused};
use second::Model;

/// The number of a model that is not sound.
pub const NOT_SOUND: u64 = 24;

/// An answer's number, step, rounds, revisions and last ceiling, the words of its model, and the model that they mean:
/// none where the second implementation's types cannot say it, and the answer is by rule.
pub struct Expected {
    pub counts: [u64; 5],
    pub model: Words,
    pub meant: Option<Model>,
}

impl Expected {
    /// How many words a state of the model needs, of no more parts than there is room for.
    pub fn needed(&self) -> usize {
        state_words(self.model.0[COUNT].min(PARTS as u64) as usize)
    }

    /// The words of a model afterwards, whose table and state were these: the state of the new point where a step was
    /// committed, with the old words after it, and all as before where none was.
    pub fn after(&self, table: &[u64], old: &[u64]) -> Words {
        if self.counts[0] != 0 {
            return Words::of_lent(table, old);
        }
        let needed = self.needed();
        Words::of_lent(table, &[&self.model.state()[..needed], &old[needed..]].concat())
    }
}

/// What an advance of these words has to answer, by the second implementation or by rule.
fn expected(given: &Words, w: u64) -> Result<Expected, String> {
    let mut model = given.clone();
    let Some(meant) = model.model() else {
        return Ok(Expected { counts: [NOT_SOUND, 0, 0, 0, 0], model, meant: None });
    };
    let answer = second::advance(meant.clone(), w);
    if answer.number == 0 {
        model.put(&answer.model);
    } else if answer.model != meant {
        return Err("the second implementation changes a model that it refuses".to_string());
    }
    let counts = [answer.number.into(), answer.step, answer.rounds.into(), answer.revisions.into(), answer.ceiling];
    Ok(Expected { counts, model, meant: Some(answer.model) })
}

/// Loads a stream with both. What the call leaves, and the second implementation's model, if it is accepted.
pub fn load_both(stream: &[u8], random: &mut Random) -> Result<(Load, Option<Model>), String> {
    let fill = any(random);
    let (number, position, loaded) = match second::load(stream) {
        Ok(accepted) => (0, accepted.end as u64, Some(accepted.model)),
        Err(refusal) => (u64::from(refusal.number), refusal.position as u64, None),
    };
    let count = loaded.as_ref().map_or(0, |model| model.parts.len());
    let lengths = [table_words(count) + spare(random), state_words(count) + spare(random), 2 + spare(random)];
    let got = lent::load(stream, lengths, fill);
    if got.code != number || !fits(&got.out, &[number, position], fill) {
        return Err(format!("load answers {} and {:?} instead of {number} at {position}", got.code, got.out));
    }
    let words = Words::of_lent(&got.table, &got.state);
    match &loaded {
        Some(model) => {
            let mut wanted = words.clone();
            wanted.put(model);
            same_words(&words, &wanted)?;
            // The places for spans that no span is in are 0.
            let after = |part: &[u64]| part[FIRST_SPAN + part[SPAN_COUNT] as usize..PORT].iter().any(|&word| word != 0);
            if (0..count).any(|number| after(words.part(number))) {
                return Err("load leaves noise after a part's spans".to_string());
            }
            let behind = got.table[table_words(count)..].iter().chain(&got.state[state_words(count)..]);
            if behind.copied().any(|word| word != fill) {
                return Err("load writes behind the model".to_string());
            }
        }
        None if !got.kept(fill) => return Err("a refused load writes a model".to_string()),
        None => {}
    }
    Ok((got, loaded))
}

/// Loads a stream with both, and saves what is accepted. The second implementation's model, if it is.
pub fn load(stream: &[u8], random: &mut Random, coverage: &mut Coverage) -> Result<Option<Model>, String> {
    coverage.loads += 1;
    let (got, loaded) = load_both(stream, random)?;
    let (said, count) = ([got.out[0], got.out[1]], loaded.as_ref().map_or(0, |model| model.parts.len()));
    coverage.load_numbers[said[0] as usize] += 1;
    if random.once_in(8) {
        load_bound(stream, said, count)?;
        coverage.count(if said[0] == 0 { "load through the binding" } else { "refused load through the binding" });
    }
    load_short(stream, said, count, random, coverage)?;
    if let Some(model) = &loaded {
        save_fresh(&got.table, &got.state, model, random, coverage).map_err(|what| format!("save: {what}"))?;
    }
    Ok(loaded)
}

/// The same load through the binding. Where it is refused it hands out no model, and the words of a zeroed table and
/// state of the most parts are all 0 still.
fn load_bound(stream: &[u8], said: [u64; 2], count: usize) -> Result<(), String> {
    let differs = || Err("the binding's load answers something else".to_string());
    match dozhumek::load(stream) {
        Ok(bound) => {
            let (table, state) = (bound.model.table(), bound.model.state());
            let again = lent::load(stream, [table_words(count), state_words(count), 2], 0);
            if [0, bound.position as u64] != said || table != again.table || state != again.state {
                return differs();
            }
            same_records(&bound.model, &Words::of_lent(table, state))
        }
        Err(refused) => {
            let again = lent::load(stream, [table_words(PARTS), state_words(PARTS), 2], 0);
            if [refused.refusal.number(), refused.position as u64] != said || !again.kept(0) {
                return differs();
            }
            same_records(&dozhumek::Model::from_words(again.table, again.state), &Words::none())
        }
    }
}

/// The same load with too few words, and with every room for its answer.
fn load_short(
    stream: &[u8],
    [number, position]: [u64; 2],
    count: usize,
    random: &mut Random,
    coverage: &mut Coverage,
) -> Result<(), String> {
    let (fill, table, state) = (any(random), table_words(count), state_words(count));
    if random.once_in(8) {
        let lengths = match random.below(3) {
            0 => [fewer(table, random), state, 2],
            1 => [table, fewer(state, random), 2],
            _ => [fewer(table, random), fewer(state, random), 2],
        };
        let got = lent::load(stream, lengths, fill);
        let due = if number == 0 { TOO_SHORT } else { number };
        if got.code != due || got.out != [due, position] || !got.kept(fill) {
            return Err(format!("load into {lengths:?} words answers {} and {:?}", got.code, got.out));
        }
        coverage.count(if number == 0 { "load into too few words" } else { "refused load into too few words" });
    }
    if random.once_in(16) {
        let whole = lent::load(stream, [table, state, 2], fill);
        for room in 0..=3 {
            let got = lent::load(stream, [table, state, room], fill);
            let same = got.table == whole.table && got.state == whole.state;
            if got.code != number || !fits(&got.out, &[number, position], fill) || !same {
                return Err(format!("load with room for {room} words answers {} and {:?}", got.code, got.out));
            }
        }
        let name =
            if number == 0 { "load with any room for its answer" } else { "refused load with any room for its answer" };
        coverage.count(name);
    }
    Ok(())
}

/// The words of a model as they are lent: as many as are needed, or more, and any after an absent signal.
fn lend(given: &Words, random: &mut Random, coverage: &mut Coverage) -> (Vec<u64>, Vec<u64>) {
    let mut words = given.clone();
    if given.0[COUNT] <= PARTS as u64 && random.once_in(4) {
        for number in 0..given.count() {
            for signal in [SIGNAL, OUTPUT] {
                if words.part(number)[signal] == 0 {
                    words.part_mut(number)[signal + 1] = any(random);
                    coverage.count("a word behind an absent signal");
                }
            }
        }
    }
    let (mut table, mut state) = (words.table(), words.state());
    match random.below(4) {
        0 => {
            table.extend((0..1 + random.below(20)).map(|_| any(random)));
            state.extend((0..1 + random.below(20)).map(|_| any(random)));
            coverage.count("words behind all places");
        }
        1 | 2 if given.0[COUNT] <= PARTS as u64 => {
            table.truncate(table_words(given.count()));
            state.truncate(state_words(given.count()));
            coverage.count("no word behind the model");
        }
        _ => {}
    }
    (table, state)
}

/// Advances a model with both, previews it, prints the answers and saves its table. The number, and the model
/// afterwards.
pub fn advance(given: &Words, w: u64, random: &mut Random, coverage: &mut Coverage) -> Result<(u64, Words), String> {
    let want = expected(given, w)?;
    let fill = any(random);
    coverage.advances += 1;
    let (table, old) = lend(given, random, coverage);
    preview(&table, &old, w, &want, random, coverage).map_err(|what| format!("preview: {what}"))?;
    save(&table, &old, given, random, coverage).map_err(|what| format!("save: {what}"))?;
    let needed = want.needed();
    let got = ADVANCE.made(&table, &old, w, [needed + spare(random), 5 + spare(random)], fill);
    got.says(&want.counts, fill)?;
    let mut after = given.clone();
    if want.counts[2] == 0 {
        if !got.kept_from(0, fill) {
            return Err("a call that is barred writes a state".to_string());
        }
    } else {
        if !got.kept_from(needed, fill) {
            return Err("advance writes behind the state".to_string());
        }
        let mut state = given.state();
        state[..needed].copy_from_slice(&got.new[..needed]);
        after = Words::of_lent(&given.table(), &state);
        same_words(&after.plain(), &want.model.plain())?;
        free_words(&after, &Words::of_lent(&table, &old), want.counts[0] == 0)?;
    }
    if random.once_in(8) {
        advance_bound(&table, &old, w, &want)?;
        let committed = want.counts[0] == 0;
        coverage.count(if committed { "advance through the binding" } else { "refused advance through the binding" });
    }
    short(&ADVANCE, &table, &old, w, &want, random, coverage)?;
    let state = if want.counts[0] == 0 { &got.new } else { &old };
    sheet(&table, state, &want, random, coverage).map_err(|what| format!("sheet: {what}"))?;
    coverage.answer(given, w, &want.counts, &want.model, want.meant.is_none());
    Ok((want.counts[0], if want.counts[0] == 0 { after } else { given.clone() }))
}

/// Fails unless the free words of a state after a round are as promised: after a step the value of an absent output is
/// 0, and that of an absent held signal is 0 or the old word; a refusal leaves the old words.
fn free_words(after: &Words, before: &Words, committed: bool) -> Result<(), String> {
    let clean = |number: usize| {
        let (part, old) = (after.part(number), before.part(number));
        let output = part[OUTPUT] == 1 || part[OUTPUT + 1] == 0;
        output && (part[SIGNAL] == 1 || part[SIGNAL + 1] == 0 || part[SIGNAL + 1] == old[SIGNAL + 1])
    };
    let words = state_words(after.count());
    let same = after.state()[..words] == before.state()[..words];
    let kept = if committed { (0..after.count()).all(clean) } else { same };
    if kept {
        Ok(())
    } else {
        Err("advance leaves other free words than promised".to_string())
    }
}

/// The same advance through the binding.
fn advance_bound(table: &[u64], old: &[u64], w: u64, want: &Expected) -> Result<(), String> {
    let mut model = dozhumek::Model::from_words(table.to_vec(), old.to_vec());
    same_records(&model, &Words::of_lent(table, old))?;
    let answered = counts(model.advance(w));
    let after = Words::of_lent(model.table(), model.state());
    let same = model.table() == table && after.plain() == want.after(table, old).plain();
    if answered != Some(want.counts) || !same {
        return Err("the binding's advance answers something else".to_string());
    }
    same_records(&model, &after)
}

/// The numbers of the binding's answer; none unless it is refused exactly where its number is not 0, and by that
/// number.
pub fn counts(answered: Result<Answer, Refused>) -> Option<[u64; 5]> {
    let (refused_by, answer) = match answered {
        Ok(answer) => (0, answer),
        Err(refused) => (refused.refusal.number(), refused.answer),
    };
    let Answer { number, step, rounds, revisions, ceiling } = answer;
    (refused_by == number).then_some([number, step, rounds, revisions, ceiling])
}

/// The same call with every room for its answer, and with too few words. Whether they were too few for its state alone,
/// and the number was 25.
pub fn short(
    call: &Call,
    table: &[u64],
    old: &[u64],
    w: u64,
    want: &Expected,
    random: &mut Random,
    coverage: &mut Coverage,
) -> Result<bool, String> {
    let (fill, needed) = (any(random), want.needed());
    if random.once_in(16) {
        let parts = want.model.0[COUNT].min(PARTS as u64) as usize;
        let (table, old) = cut(table, old, parts, random);
        let got = call.made(table, old, w, [needed, 5], fill);
        got.bars(NOT_SOUND, fill)?;
        coverage.count(call.of_too_few);
    }
    if random.once_in(64) {
        let whole = call.made(table, old, w, [needed, 5], fill);
        for room in 0..=6 {
            let got = call.made(table, old, w, [needed, room], fill);
            got.says(&want.counts, fill)?;
            if got.new != whole.new {
                return Err(format!("another state with room for {room} words of the answer"));
            }
        }
        coverage.count(if want.counts[0] == 0 { call.with_any_room } else { call.refused_with_any_room });
    }
    if !random.once_in(16) {
        return Ok(false);
    }
    let got = call.made(table, old, w, [fewer(needed, random), 5], fill);
    let barred = want.counts[2] == 0;
    got.bars(if barred { want.counts[0] } else { TOO_SHORT }, fill)?;
    coverage.count(if barred { call.barred_into_too_few } else { call.into_too_few });
    Ok(!barred)
}

/// That two models have the same words.
pub fn same_words(got: &Words, want: &Words) -> Result<(), String> {
    match (0..WORDS).find(|&at| got.0[at] != want.0[at]) {
        None => Ok(()),
        Some(at) => Err(format!("word {at} of the model is {} instead of {}", got.0[at], want.0[at])),
    }
}
