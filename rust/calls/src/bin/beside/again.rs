//! What is written is read again: the text of an accepted stream as a text table, the explanation of any stream as
//! hexadecimal text. And what is printed is what the second implementation prints.
use dozhumek::{load, Loaded, RefusedAt, Score};
use front::columns::Columns;
use front::explain::explain;
use front::files::LIMIT;
use front::input::{Input, Play};
use front::messages::Messages;
use front::play::{entries, play, score_line, Entry, Rehearsal};
use front::{hex, reader, writer};
use std::io::Write;

/// A teller to whom nobody listens.
fn silent() -> Messages {
    Messages::to(Box::new(std::io::sink()))
}

/// The lines of a stream have to be those that the second implementation prints for it.
pub fn printed(stream: &[u8]) -> Result<(), String> {
    let input = Input::of_bytes("stream", stream[..stream.len().min(LIMIT)].to_vec());
    let (mut lines, mut due): (Vec<u8>, Vec<u8>) = (Vec::new(), Vec::new());
    let result = match load(&input.bytes) {
        Ok(loaded) => play(&input, loaded, Columns::All, None, &mut lines, &mut silent()).map(|_| ()),
        Err(refused) => score_line(&refused, &mut lines),
    };
    result.and_then(|()| second::rehearse::rehearse(stream, &mut due)).map_err(|error| error.to_string())?;
    match lines == due {
        true => Ok(()),
        false => Err("the lines are not those of the second implementation".to_string()),
    }
}

/// The explanation of a stream, of which no more is read than a program reads, has to give its bytes as hexadecimal
/// text.
pub fn explained(stream: &[u8]) -> Result<(), String> {
    let stream = &stream[..stream.len().min(LIMIT)];
    let input = Input::of_bytes("stream", stream.to_vec());
    let mut text = Vec::new();
    explain(&input, None, &mut text, &mut silent()).map_err(|error| error.to_string())?;
    // Hexadecimal text of no bytes is none.
    let again = hex::read(&text).map_or_else(|fault| (Vec::new(), fault), |again| (again.bytes, String::new()));
    match again.0 == stream {
        true => Ok(()),
        false => Err(format!("the explanation gives other bytes, or none: {}", again.1)),
    }
}

/// The text of an accepted stream, read again, has to give the saved table, the score, the same text and the same
/// lines.
pub fn written(input: &Input, loaded: &Loaded) -> Result<(), String> {
    let written = writer::write(input, loaded).map_err(|refusal| format!("the text is refused: {refusal}"))?;
    let again = reader::read("stream.table", written.text.as_bytes())
        .map_err(|faults| format!("the text is not read again: {faults:?}\n{}", written.text))?;
    if again.bytes != loaded.model.save().map_err(|refusal| refusal.to_string())? {
        return Err(format!("the text gives other bytes:\n{}", written.text));
    }
    if (wanted(&again), written.refused) != score(input, loaded) {
        return Err(format!("the text gives another score:\n{}", written.text));
    }
    let loaded_again = load(&again.bytes).map_err(|refused| format!("the text's bytes are refused: {refused}"))?;
    let twice = writer::write(&again, &loaded_again).map_err(|refusal| refusal.to_string())?;
    if twice.text != written.text || twice.refused.is_some() {
        return Err(format!("the text of the text is another:\n{}\n{}", written.text, twice.text));
    }
    match lines(input, loaded)? == lines(&again, &loaded_again)? {
        true => Ok(()),
        false => Err("a rehearsal of the text prints other lines".to_string()),
    }
}

/// The wanted steps of a text table, one by one.
fn wanted(input: &Input) -> Vec<u32> {
    let steps = input.score.iter().flat_map(|&(_, play)| match play {
        Play::Want { step, times } => vec![step; times as usize],
        Play::Until { .. } => vec![],
    });
    steps.collect()
}

/// The wanted steps of a stream, and what ends them.
fn score(input: &Input, loaded: &Loaded) -> (Vec<u32>, Option<RefusedAt>) {
    let (steps, refused): (Vec<_>, Vec<_>) = Score::new(&input.bytes, loaded.position).partition(Result::is_ok);
    (steps.into_iter().flatten().collect(), refused.into_iter().find_map(Result::err))
}

/// The lines of a rehearsal. Where a byte ends the score of a stream there is none of it, as a text has no such byte.
fn lines(input: &Input, loaded: &Loaded) -> Result<Vec<u8>, String> {
    let mut out: Vec<u8> = Vec::new();
    let mut rehearsal = Rehearsal { input, model: loaded.model.clone(), columns: Columns::All, refused: false };
    for entry in entries(input, loaded.position, None) {
        let Ok(Entry { play: Play::Want { step, times }, .. }) = entry else { break };
        for _ in 0..times {
            let answer = rehearsal.advance(step.into()).unwrap_or_else(|(refused, _)| refused.answer);
            rehearsal.columns.line(&rehearsal.model, &answer, &mut out).map_err(|error| error.to_string())?;
        }
    }
    out.flush().map_err(|error| error.to_string())?;
    Ok(out)
}
