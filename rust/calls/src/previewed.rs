//! One preview compared with an advance of the same words: as it is, through the binding, with too few words, and with
//! every room for its answer. Its answer is printed.

use crate::alter::any;
use crate::compared::{counts, same_words, short, Expected};
use crate::coverage::Coverage;
use crate::lent::{same_records, spare, Left, PREVIEW, TOO_SHORT};
use crate::sheeted::sheet_once;
use crate::words::*;
use cases::random::Random;

/// Previews the model of these words, of which an advance is expected to answer `want`.
pub fn preview(
    table: &[u64],
    old: &[u64],
    w: u64,
    want: &Expected,
    random: &mut Random,
    coverage: &mut Coverage,
) -> Result<(), String> {
    let fill = any(random);
    let got = PREVIEW.made(table, old, w, [want.needed() + spare(random), 5 + spare(random)], fill);
    got.says(&want.counts, fill)?;
    leaves_state(&got, table, old, want, fill)?;
    coverage.preview(want.counts[0]);
    let state = if want.model.spelled() { &got.new } else { old };
    sheet_once(table, state, want, random, coverage).map_err(|what| format!("sheet: {what}"))?;
    if random.once_in(8) {
        preview_bound(table, old, w, want)?;
        let committed = want.counts[0] == 0;
        coverage.count(if committed { "preview through the binding" } else { "refused preview through the binding" });
    }
    if short(&PREVIEW, table, old, w, want, random, coverage)? {
        coverage.preview(TOO_SHORT);
    }
    Ok(())
}

/// Fails unless the new state's words are those of the answer's model, the old ones themselves where the call is
/// refused, with `fill` after them. Where the words spell no model none is written.
fn leaves_state(got: &Left, table: &[u64], old: &[u64], want: &Expected, fill: u64) -> Result<(), String> {
    let written = if want.model.spelled() { want.needed() } else { 0 };
    if !got.kept_from(written, fill) {
        return Err("a word is written that is none of the state".to_string());
    }
    let state = &got.new[..written];
    if want.counts[0] == 0 {
        let after = Words::of_lent(table, state);
        return same_words(&after.plain(), &want.after(table, &old[..written]).plain());
    }
    match state.iter().zip(old).position(|(word, own)| word != own) {
        None => Ok(()),
        Some(at) => Err(format!("word {at} of the state is {} instead of {}", state[at], old[at])),
    }
}

/// The same preview through the binding.
fn preview_bound(table: &[u64], old: &[u64], w: u64, want: &Expected) -> Result<(), String> {
    let model = dozhumek::Model::from_words(table.to_vec(), old.to_vec());
    let preview = model.preview(w);
    if model.table() != table || model.state() != old {
        return Err("the binding's preview changes its model".to_string());
    }
    // Where it is refused it hands out none, and the model is the given one.
    let (answered, ahead) = match preview {
        Ok(preview) => (Ok(preview.answer), preview.model),
        Err(refused) => (Err(refused), model),
    };
    let after = Words::of_lent(ahead.table(), ahead.state());
    let kept = want.counts[0] == 0 || ahead.state() == old;
    let same = ahead.table() == table && after.plain() == want.after(table, old).plain();
    if counts(answered) != Some(want.counts) || !kept || !same {
        return Err("the binding's preview answers something else".to_string());
    }
    same_records(&ahead, &after)
}
