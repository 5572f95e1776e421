//! Document 01's played examples and a clapper through the binding, previewed, played, saved and printed: what lies in
//! the words comes back whole, and words that spell no model are refused.
use dozhumek::{advance_into, load, load_into, preview_into, save_into, sheet_into, state_words, table_words};
use dozhumek::{Answer, Kind, Mark, Model, Part, Preview, Refusal, Refused, Side, PARTS};
use std::fmt::Debug;

/// A Part command.
fn part(kind: u8, a: i32, b: i32, p: u32) -> Vec<u8> {
    let mut bytes = vec![2, kind, 255];
    bytes.extend_from_slice(&a.to_le_bytes());
    bytes.extend_from_slice(&b.to_le_bytes());
    bytes.extend_from_slice(&p.to_le_bytes());
    bytes
}

/// A table of commands between Begin, with magnitude 0, and End.
fn table(commands: &[Vec<u8>]) -> Vec<u8> {
    let mut bytes = vec![1, 0];
    for command in commands {
        bytes.extend_from_slice(command);
    }
    bytes.push(5);
    bytes
}

fn span(ticks: u32) -> Vec<u8> {
    let mut bytes = vec![3];
    bytes.extend_from_slice(&ticks.to_le_bytes());
    bytes
}

fn wire(source: u8, receiver: u8, port: u8) -> Vec<u8> {
    vec![4, source, receiver, port]
}

/// The model of a stream that is accepted up to its end.
fn accepted(stream: &[u8]) -> Model {
    let loaded = load(stream).unwrap();
    assert_eq!(loaded.position, stream.len());
    loaded.model
}

/// The number and the position of a refused load, which leaves all words of a zeroed table and state 0.
fn refused_load(stream: &[u8]) -> (u64, usize) {
    let refused = load(stream).unwrap_err();
    let (mut table, mut state, mut out) = (vec![0; table_words(PARTS)], vec![0; state_words(PARTS)], [0; 2]);
    let number = load_into(stream, &mut table, &mut state, &mut out);
    assert!(table.iter().chain(&state).all(|&word| word == 0));
    assert_eq!((number, out), (refused.refusal.number(), [number, refused.position as u64]));
    (number, refused.position)
}

/// The answer of an advance or a preview, which is refused exactly where its number is not 0, and by that number.
fn told(answered: Result<Answer, Refused>) -> Answer {
    let (number, answer) = match answered {
        Ok(answer) => (0, answer),
        Err(refused) => (refused.refusal.number(), refused.answer),
    };
    assert_eq!(number, answer.number);
    answer
}

/// One advance: its answer, committed or refused.
fn advance(model: &mut Model, wanted: u64) -> Answer {
    told(model.advance(wanted))
}

/// One preview: its answer, and its model, which where it is refused is the one of the state that the exported call
/// leaves.
fn tried(model: &Model, wanted: u64) -> (Answer, Model) {
    // A preview that could move its model would have another type.
    let preview: fn(&Model, u64) -> Result<Preview, Refused> = Model::preview;
    let (mut state, mut out) = (model.state().to_vec(), [0; 5]);
    let number = preview_into(model.table(), model.state(), wanted, &mut state, &mut out);
    let left = Model::from_words(model.table().to_vec(), state);
    let (answered, ahead) = match preview(model, wanted) {
        Ok(preview) => (Ok(preview.answer), preview.model),
        Err(refused) => (Err(refused), left.clone()),
    };
    let answer = told(answered);
    assert_eq!((answer.number, words(&ahead)), (number, words(&left)));
    (answer, ahead)
}

/// t, n, step, rounds, revisions.
fn line(model: &Model, answer: &Answer) -> [u64; 5] {
    [model.t(), model.n(), answer.step, answer.rounds, answer.revisions]
}

/// The words of a model.
fn words(model: &Model) -> (Vec<u64>, Vec<u64>) {
    (model.table().to_vec(), model.state().to_vec())
}

/// The number of a save into so many bytes and so many words of an answer, each 9 before, and what they hold then.
fn saved_into(table: &[u64], state: &[u64], room: usize, words: usize) -> (u64, Vec<u8>, Vec<u64>) {
    let (mut buffer, mut out) = (vec![9; room], vec![9; words]);
    let number = save_into(table, state, &mut buffer, &mut out);
    (number, buffer, out)
}

/// The words of a model and of an answer, and the parts that are chosen.
#[derive(Clone, Copy)]
struct Sheet<'a> {
    table: &'a [u64],
    state: &'a [u64],
    outcome: &'a [u64],
    choice: [u64; 3],
}

impl Sheet<'_> {
    /// The number of a sheet into so many bytes and so many words of an answer, each 9 before, and what they hold then.
    fn printed_into(self, room: usize, words: usize) -> (u64, Vec<u8>, Vec<u64>) {
        let (mut buffer, mut out) = (vec![9; room], vec![9; words]);
        let number = sheet_into(self.table, self.state, self.outcome, self.choice, &mut buffer, &mut out);
        (number, buffer, out)
    }

    /// Fails unless the sheet is refused with a number whatever its room is: length 0, and nothing written.
    fn refused(self, number: u64) {
        for room in [0, 78, 79, 100] {
            assert_eq!(self.printed_into(room, 3), (number, vec![9; room], vec![number, 0, 9]));
        }
    }
}

/// The sheet's line of a model's answer, as text.
fn line_of(model: &Model, answer: &Answer, choice: [u64; 3]) -> Result<String, Refusal> {
    model.sheet(answer, choice).map(|line| String::from_utf8(line.to_vec()).unwrap())
}

/// The line of a refused answer.
fn refused_line(number: u64) -> String {
    format!("{:78}\n", format!("refused {number}"))
}

/// Fails unless a save, a sheet, a preview and an advance of these words are refused with 24, and leave them.
fn refused(table: Vec<u64>, state: Vec<u64>) {
    for room in [0, 100] {
        assert_eq!(saved_into(&table, &state, room, 3), (24, vec![9; room], vec![24, 0, 9]));
    }
    // Of an answer that would be printed, of one that is refused, and of one that is 26.
    for (outcome, choice) in [([0; 5], [0; 3]), ([24, 0, 0, 0, 0], [0; 3]), ([0, u64::MAX, 0, 0, 0], [u64::MAX; 3])] {
        Sheet { table: &table, state: &state, outcome: &outcome, choice }.refused(24);
    }
    let mut model = Model::from_words(table.clone(), state.clone());
    assert_eq!(model.save(), Err(Refusal::NotSound));
    let answer = previewed(&mut model, 1);
    assert_eq!(model.sheet(&answer, [0; 3]), Err(Refusal::NotSound));
    assert_eq!(answer, Answer { number: 24, step: 0, rounds: 0, revisions: 0, ceiling: 0 });
    assert_eq!(words(&model), (table, state));
}

/// Previews a model and then advances it, and fails unless the preview leaves the model and has the advance's answer
/// and model.
fn previewed(model: &mut Model, wanted: u64) -> Answer {
    let before = words(model);
    let (due, ahead) = tried(model, wanted);
    assert_eq!(words(model), before);
    let answer = advance(model, wanted);
    assert_eq!((due, ahead.outputs()), (answer, model.outputs()));
    assert_eq!(words(&ahead), words(model));
    assert_eq!(words(model) == before, answer.number != 0);
    answer
}

#[test]
fn constant_into_drive() {
    let stream = table(&[part(0, 1, 0, 0), part(11, 0, 0, 0), span(2), span(5), wire(0, 1, 0)]);
    let mut model = accepted(&stream);
    let drive = model.part(1).unwrap();
    assert_eq!((model.magnitude(), model.count(), drive.kind, drive.port0), (0, 2, Kind::Drive, Some(0)));
    assert_eq!((drive.span_count, drive.spans[..2].to_vec()), (2, vec![2, 5]));
    assert_eq!((model.order(), model.part(2)), (Some(vec![0, 1]), None));
    assert_eq!((model.table().len(), model.state().len()), (table_words(2), state_words(2)));

    let first = advance(&mut model, 7);
    assert_eq!((first.number, line(&model, &first)), (0, [5, 0, 5, 2, 0]));
    assert_eq!(model.outputs(), Some(vec![Some(1), Some(5)]));
    let second = advance(&mut model, 4);
    assert_eq!((second.number, line(&model, &second)), (0, [7, 0, 2, 2, 0]));
    assert_eq!(model.outputs(), Some(vec![Some(1), Some(7)]));
    let before = words(&model);
    assert_eq!((advance(&mut model, 1).number, words(&model)), (22, before));
}

#[test]
fn integrator_into_detector() {
    let stream = table(&[part(0, 2, 0, 0), part(6, -7, 0, 0), part(8, 0, 0, 1), wire(0, 1, 0), wire(1, 2, 0)]);
    let mut model = accepted(&stream);
    let parts = model.parts().unwrap();
    assert_eq!((parts[1].a, parts[1].output), (-7, Some(-7)));
    assert_eq!(parts[2].side, Side::Negative);
    let mut steps = Vec::new();
    let mut revisions = Vec::new();
    for _ in 0..4 {
        let answer = advance(&mut model, 8);
        assert_eq!(answer.number, 0);
        steps.push(answer.step);
        revisions.push(answer.revisions);
    }
    assert_eq!((steps, revisions), (vec![2, 1, 1, 0], vec![2, 3, 3, 0]));
    let detector = model.part(2).unwrap();
    assert_eq!((model.t(), model.n(), detector.output), (4, 1, Some(1)));
    assert_eq!((detector.side, detector.mark), (Side::Positive, Mark::Clear));
}

/// Position, speed, output.
fn motion(part: &Part) -> (i64, i64, Option<i64>) {
    (part.held, part.speed, part.output)
}

#[test]
fn constant_into_clapper() {
    let stream = table(&[part(0, 3, 0, 0), part(12, 10, -2, 0), wire(0, 1, 0)]);
    let mut model = accepted(&stream);
    let clapper = model.part(1).unwrap();
    assert_eq!((clapper.kind, clapper.a, clapper.b, clapper.port0), (Kind::Clapper, 10, -2, Some(0)));
    assert_eq!(motion(&clapper), (10, -2, Some(10)));

    // The speed becomes -2 + 3 x 5, the position 10 + 13 x 5.
    let first = advance(&mut model, 5);
    assert_eq!((first.number, line(&model, &first)), (0, [5, 0, 5, 1, 0]));
    let parts = model.parts().unwrap();
    assert_eq!((parts[0].speed, motion(&parts[1])), (0, (75, 13, Some(75))));
    // The local count, position, speed, held signal, output, side and mark of part 1.
    assert_eq!(model.state()[state_words(1)..], [5, 75, 13, 0, 0, 1, 75, 0, 0]);

    // A speed of another kind, and a clapper's that is no value.
    let (table, state) = words(&model);
    for (part, speed) in [(0, 1), (0, -1), (1, 1_000_000_001), (1, -1_000_000_001), (1, i64::MIN)] {
        let mut state = state.clone();
        state[state_words(part) + 2] = speed as u64;
        refused(table.clone(), state);
    }
    // Another speed: it becomes -20 + 3 x 2, and the position 75 - 14 x 2.
    let mut state = state;
    state[state_words(1) + 2] = -20i64 as u64;
    let mut model = Model::from_words(table, state);
    let second = advance(&mut model, 2);
    assert_eq!((second.number, motion(&model.part(1).unwrap())), (0, (47, -14, Some(47))));
}

#[test]
fn clappers_refused() {
    let beyond = 1_000_000_001;
    for row in [part(12, beyond, 0, 0), part(12, 0, -beyond, 0), part(12, 0, 0, 1), part(13, 0, 0, 0)] {
        assert_eq!(refused_load(&table(&[row])), (5, 2));
    }
    let second_port = table(&[part(0, 3, 0, 0), part(12, 10, -2, 0), wire(0, 1, 1)]);
    assert_eq!(refused_load(&second_port), (7, 32));
}

#[test]
fn refusals() {
    assert_eq!(refused_load(&[]), (1, 0));
    let loop_of_one = table(&[part(1, 2, 0, 0), wire(0, 0, 0)]);
    assert_eq!(refused_load(&loop_of_one), (11, loop_of_one.len() - 1));
    refused(vec![0, 0], vec![0, 0]);
    refused(vec![], vec![]);
}

#[test]
fn a_table_of_all_parts() {
    let parts: Vec<Vec<u8>> = (0..PARTS as i32).map(|number| part(0, number, 0, 0)).collect();
    let model = accepted(&table(&parts));
    assert_eq!(model.outputs(), Some((0..PARTS as i64).map(Some).collect()));
    assert_eq!(model.parts().map(|parts| parts.len()), Some(PARTS));
    assert_eq!(model.order(), Some((0..PARTS as u16).collect()));
    assert_eq!(model.part(PARTS), None);
}

#[test]
fn refused_advances_keep_the_model() {
    let drive = table(&[part(0, 1, 0, 0), part(11, 0, 0, 0), span(2), span(5), wire(0, 1, 0)]);
    let mut model = accepted(&drive);
    model.advance(7).unwrap();
    let before = words(&model);
    let counts = |number, rounds, ceiling| Answer { number, step: 0, rounds, revisions: 0, ceiling };
    // What is barred before the search has no counts, and leaves the words of the state before in the new one. By 1 the
    // search is made and finds none.
    for (wanted, refusal, answer) in [
        (0, Refusal::WantedOutOfRange, counts(20, 0, 0)),
        (1, Refusal::NoStepAccepted, counts(22, 2, 1)),
        (1_000_000_001, Refusal::WantedOutOfRange, counts(20, 0, 0)),
    ] {
        let refused = Refused { refusal, answer };
        assert_eq!((model.preview(wanted).unwrap_err(), model.advance(wanted)), (refused, Err(refused)));
        assert_eq!(words(&model), before);
        assert_eq!(refused.to_string(), refusal.to_string());
    }
    // The model then goes on as if there had been none.
    let mut other = Model::from_words(before.0, before.1);
    assert_eq!((model.advance(4), words(&model)), (other.advance(4), words(&other)));
}

/// The words of a constant into a clapper.
fn spelled() -> (Vec<u64>, Vec<u64>) {
    words(&accepted(&table(&[part(0, 3, 0, 0), part(12, 10, -2, 0), wire(0, 1, 0)])))
}

#[test]
fn previews_before_their_advances() {
    let drive = table(&[part(0, 1, 0, 0), part(11, 0, 0, 0), span(2), span(5), wire(0, 1, 0)]);
    let mut model = accepted(&drive);
    // Of other wanted steps: the advance after them is the one that it is without them.
    for (wanted, number, t) in [(4, 0, 2), (9, 0, 5), (4, 0, 2), (1, 22, 0), (0, 20, 0)] {
        let (answer, ahead) = tried(&model, wanted);
        assert_eq!((answer.number, ahead.t(), model.t()), (number, t, 0));
        assert_eq!(ahead.outputs(), Some(vec![Some(1), Some(t as i64)]));
    }
    let first = previewed(&mut model, 7);
    assert_eq!((first.number, line(&model, &first)), (0, [5, 0, 5, 2, 0]));
    // The model that a preview answers can be played on, and so can the given one.
    let mut other = model.preview(4).unwrap().model;
    assert_eq!((previewed(&mut other, 9).number, other.t(), model.t()), (0, 12, 5));
    for (wanted, number) in [(4, 0), (1, 22), (0, 20), (1_000_000_001, 20), (u64::MAX, 20)] {
        assert_eq!(previewed(&mut model, wanted).number, number);
    }
    assert_eq!((model.t(), model.outputs()), (7, Some(vec![Some(1), Some(7)])));
}

#[test]
fn previews_of_a_detector() {
    let stream = table(&[part(0, 2, 0, 0), part(6, -7, 0, 0), part(8, 0, 0, 1), wire(0, 1, 0), wire(1, 2, 0)]);
    let mut model = accepted(&stream);
    let answers = [8; 4].map(|wanted| previewed(&mut model, wanted));
    assert_eq!(answers.map(|answer| (answer.step, answer.revisions)), [(2, 2), (1, 3), (1, 3), (0, 0)]);
    assert_eq!((model.t(), model.n(), model.part(2).unwrap().output), (4, 1, Some(1)));
}

#[test]
fn previews_near_the_last_point() {
    let mut model = accepted(&table(&[part(0, 1, 0, 0), part(5, 0, 0, 0), wire(0, 1, 0)]));
    let (table, mut state) = words(&model);
    state[1] = 998;
    model = Model::from_words(table.clone(), state.clone());
    assert_eq!([3, 3].map(|wanted| previewed(&mut model, wanted).number), [0, 21]);
    let last = 1_000_000_000_000_000_000;
    for at in [0, state_words(0), state_words(1)] {
        state[at] = last;
    }
    assert_eq!(previewed(&mut Model::from_words(table, state), 1).number, 23);
}

#[test]
fn previews_into_lent_words() {
    let (table, state) = spelled();
    let needed = state.len();
    // A spare word after the state and after the answer, which are kept.
    let called = |wanted: u64, length: usize, room: usize| {
        let (mut new, mut out) = (vec![9; length], vec![9; room]);
        let number = preview_into(&table, &state, wanted, &mut new, &mut out);
        (number, new, out)
    };
    let mut ahead = Model::from_words(table.clone(), state.clone());
    advance(&mut ahead, 5);
    assert_eq!(called(5, needed + 1, 6), (0, [ahead.state(), &[9]].concat(), vec![0, 5, 1, 0, 5, 9]));
    assert_eq!(called(0, needed + 1, 6), (20, [&state[..], &[9]].concat(), vec![20, 0, 0, 0, 0, 9]));
    assert_eq!(called(5, needed - 1, 5), (25, vec![9; needed - 1], vec![25, 0, 0, 0, 0]));
    assert_eq!(called(0, needed - 1, 5), (20, vec![9; needed - 1], vec![20, 0, 0, 0, 0]));
}

#[test]
fn tables_saved() {
    let parts =
        [part(2, 0, 0, 0), part(11, -1, 0, 0), span(2), span(1_000_000_000), part(3, 1, -1, 6), part(8, 0, 0, 5)];
    let wires = [wire(3, 0, 0), wire(2, 0, 1), wire(1, 1, 0), wire(0, 3, 0)];
    let due = table(&[&parts[..], &wires[..]].concat());
    // The wires in the opposite order, and one of them as soon as its parts are there.
    let early = [&parts[..4], &wires[2..3], &parts[4..]].concat();
    let stream = table(&[&early[..], &[wires[3].clone(), wires[1].clone(), wires[0].clone()]].concat());
    let mut model = accepted(&stream);
    let fresh = words(&model);
    for _ in 0..3 {
        assert_eq!(model.save(), Ok(due.clone()));
        assert_eq!(advance(&mut model, 5).number, 0);
    }
    let again = load(&model.save().unwrap()).unwrap();
    assert_eq!((again.position, words(&again.model)), (due.len(), fresh.clone()));
    assert_ne!(words(&model), fresh);
}

#[test]
fn the_default_magnitude_saved() {
    // The master's is 3.
    let mut stream = table(&[part(0, 1, 0, 0), part(0, 2, 0, 0)]);
    (stream[1], stream[4]) = (1, 3);
    assert_eq!(accepted(&stream).save(), Ok(stream));
}

#[test]
fn saves_into_lent_bytes() {
    let stream = table(&[part(0, 3, 0, 0), part(12, 10, -2, 0), wire(0, 1, 0)]);
    let length = stream.len();
    let (table, state) = spelled();
    let saved = |room: usize, words: usize| saved_into(&table, &state, room, words);
    for room in [0, 1, length - 1] {
        assert_eq!(saved(room, 2), (25, vec![9; room], vec![25, length as u64]));
    }
    for behind in [0, 1, 1000] {
        let bytes = [&stream[..], &vec![9; behind]].concat();
        assert_eq!(saved(length + behind, 3), (0, bytes, vec![0, length as u64, 9]));
    }
}

#[test]
fn sheets_of_answers() {
    let drive = table(&[part(0, 1, 0, 0), part(11, 0, 0, 0), span(2), span(5), wire(0, 1, 0)]);
    let mut model = accepted(&drive);
    let before = words(&model);
    let tried = model.preview(7).unwrap();
    let line = "                  5   0          5    2  0           1           5           1\n";
    assert_eq!(line_of(&tried.model, &tried.answer, [0, 1, 0]).as_deref(), Ok(line));
    assert_eq!(words(&model), before);
    let first = advance(&mut model, 7);
    let before = words(&model);
    assert_eq!(line_of(&model, &first, [0, 1, 0]).as_deref(), Ok(line));
    let line = "                  5   0          5    2  0           5           1           5\n";
    assert_eq!(line_of(&model, &first, [1, 0, 1]).as_deref(), Ok(line));
    assert_eq!(words(&model), before);
    let second = advance(&mut model, 1);
    assert_eq!(line_of(&model, &second, [0, 1, 0]), Ok(refused_line(22)));
    let third = advance(&mut model, u64::MAX);
    assert_eq!(line_of(&model, &third, [1, 1, 1]), Ok(refused_line(20)));

    // An absent output, a negative one, and revisions.
    let stream = table(&[part(0, 2, 0, 0), part(6, -7, 0, 0), part(8, 0, 0, 1), wire(0, 1, 0), wire(1, 2, 0)]);
    let mut model = accepted(&stream);
    let first = advance(&mut model, 8);
    let line = "                  2   0          2    3  2           2          -3           -\n";
    assert_eq!(line_of(&model, &first, [0, 1, 2]).as_deref(), Ok(line));
    let answers = [8; 3].map(|wanted| advance(&mut model, wanted));
    let line = "                  4   1          0    2  0           1           1           2\n";
    assert_eq!(line_of(&model, &answers[2], [2, 1, 0]).as_deref(), Ok(line));
}

#[test]
fn sheets_of_the_widest() {
    let billion = 1_000_000_000;
    let model = accepted(&table(&[part(0, -billion, 0, 0), part(0, billion, 0, 0)]));
    let (table, mut state) = words(&model);
    for at in [0, state_words(0), state_words(1)] {
        state[at] = 999_999_999_000_000_000;
    }
    let mut model = Model::from_words(table, state);
    let answer = advance(&mut model, 1_000_000_000);
    let line = "1000000000000000000   0 1000000000    1  0 -1000000000  1000000000 -1000000000\n";
    assert_eq!(line_of(&model, &answer, [0, 1, 0]).as_deref(), Ok(line));
    // Counts as wide as their fields; the last ceiling has none.
    let full = Answer { step: 9_999_999_999, rounds: 9_999, revisions: 99, ceiling: u64::MAX, ..answer };
    let line = "1000000000000000000   0 9999999999 9999 99  1000000000 -1000000000  1000000000\n";
    assert_eq!(line_of(&model, &full, [1, 0, 1]).as_deref(), Ok(line));
    let wide = [
        Answer { step: 10_000_000_000, ..answer },
        Answer { rounds: 10_000, ..answer },
        Answer { revisions: 100, ..answer },
        Answer { step: u64::MAX, rounds: u64::MAX, revisions: u64::MAX, ..answer },
    ];
    for answer in wide {
        assert_eq!(model.sheet(&answer, [0, 1, 0]), Err(Refusal::NotPrintable));
        // A refused answer shows none of them.
        for number in [1, 24, 26, 256, 1 << 32, u64::MAX] {
            assert_eq!(line_of(&model, &Answer { number, ..answer }, [0, 1, 0]), Ok(refused_line(number)));
        }
    }
}

#[test]
fn sheets_into_lent_bytes() {
    let (table, state) = spelled();
    let text = "                  0   0          5    1  0           3          10           3\n";
    for (number, text) in [(0, text.to_string()), (22, refused_line(22))] {
        // A word after the answer is not looked at.
        let outcome = [number, 5, 1, 0, 5, u64::MAX];
        let sheet = Sheet { table: &table, state: &state, outcome: &outcome, choice: [0, 1, 0] };
        for room in [0, 1, 78] {
            assert_eq!(sheet.printed_into(room, 3), (25, vec![9; room], vec![25, 79, 9]));
        }
        for behind in [0, 1, 1000] {
            let bytes = [text.as_bytes(), &vec![9; behind]].concat();
            assert_eq!(sheet.printed_into(79 + behind, 3), (0, bytes, vec![0, 79, 9]));
        }
        // Fewer words spell no answer, whatever else is wrong.
        for length in 0..5 {
            let sheet = Sheet { outcome: &outcome[..length], ..sheet };
            sheet.refused(24);
            Sheet { choice: [0, 1, 2], ..sheet }.refused(24);
        }
        let sheet = Sheet { outcome: &outcome[..5], ..sheet };
        assert_eq!(sheet.printed_into(79, 2), (0, text.into_bytes(), vec![0, 79]));
    }
}

#[test]
fn sheets_refused() {
    let (table, state) = spelled();
    // A part that there is not, in each place, of a committed answer and of a refused one; none is taken modulo a
    // width.
    for part in [2, 32, 256, 65_536, 1 << 32, 1 << 63, u64::MAX] {
        for choice in [[part, 0, 1], [0, part, 1], [0, 1, part]] {
            for outcome in [[0, 5, 1, 0, 5], [22, 0, 2, 0, 1]] {
                Sheet { table: &table, state: &state, outcome: &outcome, choice }.refused(26);
            }
        }
    }
    for outcome in [[0, 10_000_000_000, 1, 0, 5], [0, 5, 10_000, 0, 5], [0, 5, 1, 100, 5], [0, 5, 1 << 32, 0, 5]] {
        Sheet { table: &table, state: &state, outcome: &outcome, choice: [0, 1, 0] }.refused(26);
    }
}

/// Fails unless a call answers its number with every room for its answer, from none to a word more than it has, each 9
/// before: what fits of the answer is written, the words after it are kept, and what the call leaves elsewhere is the
/// same.
fn answered<T: Debug + PartialEq>(answer: &[u64], left: &T, call: impl Fn(&mut [u64]) -> (u64, T)) {
    for room in 0..=answer.len() + 1 {
        let mut out = vec![9; room];
        let (number, elsewhere) = call(&mut out);
        let due: Vec<u64> = (0..room).map(|at| answer.get(at).copied().unwrap_or(9)).collect();
        assert_eq!((number, &elsewhere, out), (answer[0], left, due));
    }
}

#[test]
fn loads_with_any_room_for_an_answer() {
    let stream = table(&[part(0, 3, 0, 0), part(12, 10, -2, 0), wire(0, 1, 0)]);
    let (length, spelled) = (stream.len(), spelled());
    let [few, states] = [table_words(2) - 1, state_words(2)];
    let none = (vec![9; table_words(2)], vec![9; states]);
    let loaded = |bytes: usize, words: usize, out: &mut [u64]| {
        let (mut table, mut state) = (vec![9; words], vec![9; states]);
        let number = load_into(&stream[..bytes], &mut table, &mut state, out);
        (number, (table, state))
    };
    answered(&[0, length as u64], &spelled, |out| loaded(length, few + 1, out));
    answered(&[25, length as u64], &(vec![9; few], none.1.clone()), |out| loaded(length, few, out));
    // No End, and a command that is cut.
    answered(&[1, length as u64 - 1], &none, |out| loaded(length - 1, few + 1, out));
    answered(&[1, length as u64 - 5], &none, |out| loaded(length - 2, few + 1, out));
    answered(&[1, 0], &none, |out| loaded(0, few + 1, out));
}

#[test]
fn steps_with_any_room_for_an_answer() {
    let (table, state) = spelled();
    let (needed, mut ahead) = (state.len(), Model::from_words(table.clone(), state.clone()));
    advance(&mut ahead, 5);
    let none = vec![9; needed];
    for call in [advance_into, preview_into] {
        let made = |table: &[u64], wanted: u64, room: usize, out: &mut [u64]| {
            let mut new = vec![9; room];
            (call(table, &state, wanted, &mut new, out), new)
        };
        answered(&[0, 5, 1, 0, 5], &ahead.state().to_vec(), |out| made(&table, 5, needed, out));
        answered(&[25, 0, 0, 0, 0], &vec![9; needed - 1], |out| made(&table, 5, needed - 1, out));
        answered(&[20, 0, 0, 0, 0], &vec![9; needed - 1], |out| made(&table, 0, needed - 1, out));
        answered(&[24, 0, 0, 0, 0], &none, |out| made(&table[..table.len() - 1], 5, needed, out));
    }
    // A barred preview shows the old state.
    let shown = |out: &mut [u64]| {
        let mut new = none.clone();
        (preview_into(&table, &state, 0, &mut new, out), new)
    };
    answered(&[20, 0, 0, 0, 0], &state, shown);
}

#[test]
fn writing_calls_with_any_room_for_an_answer() {
    let stream = table(&[part(0, 3, 0, 0), part(12, 10, -2, 0), wire(0, 1, 0)]);
    let (length, (table, state)) = (stream.len(), spelled());
    let saved = |table: &[u64], room: usize, out: &mut [u64]| {
        let mut buffer = vec![9; room];
        (save_into(table, &state, &mut buffer, out), buffer)
    };
    answered(&[0, length as u64], &stream, |out| saved(&table, length, out));
    answered(&[25, length as u64], &vec![9; length - 1], |out| saved(&table, length - 1, out));
    answered(&[24, 0], &vec![9; length], |out| saved(&table[..table.len() - 1], length, out));
    let printed = |outcome: &[u64], third: u64, room: usize, out: &mut [u64]| {
        let mut buffer = vec![9; room];
        (sheet_into(&table, &state, outcome, [0, 1, third], &mut buffer, out), buffer)
    };
    let outcome = [22, 0, 2, 0, 1];
    answered(&[0, 79], &refused_line(22).into_bytes(), |out| printed(&outcome, 0, 79, out));
    answered(&[25, 79], &vec![9; 78], |out| printed(&outcome, 0, 78, out));
    answered(&[26, 0], &vec![9; 78], |out| printed(&outcome, 2, 78, out));
    answered(&[24, 0], &vec![9; 78], |out| printed(&outcome[..4], 2, 78, out));
}

#[test]
fn words_that_mean_nothing() {
    let (table, state) = spelled();
    // Words after the model's, any word after an absent signal, and any in a place that no span is in.
    let mut model = Model::from_words([&table[..], &[9; 7]].concat(), [&state[..], &[9; 7]].concat());
    assert_eq!(advance(&mut model, 1).number, 0);
    assert_eq!(model.state()[state_words(2)..], [9; 7]);
    assert_eq!(model.save(), Model::from_words(table.clone(), state.clone()).save());
    let mut absent = state.clone();
    absent[state_words(1) + 4] = 9;
    let mut spare = table.clone();
    spare[table_words(1) + 6..table_words(1) + 14].fill(u64::MAX);
    for (table, state) in [(table.clone(), absent), (spare, state)] {
        let mut model = Model::from_words(table, state);
        assert_eq!((model.save().is_ok(), advance(&mut model, 1).number), (true, 0));
    }
}

#[test]
fn malformed_words() {
    let (table, state) = spelled();
    // A magnitude, a kind, a preference, an operand p, a port and a place of the order.
    let of_part = table_words(1);
    let in_table = [
        (0, 256),
        (of_part, 99),
        (of_part, 256 + 12),
        (of_part + 1, 511),
        (of_part + 4, 1 << 32),
        (of_part + 14, 70_000),
        (of_part + 14, 65_536 + 1),
        (of_part + 15, 70_000),
        (of_part + 17, 65_536 + 1),
    ];
    for (at, word) in in_table {
        let mut table = table.clone();
        table[at] = word;
        refused(table, state.clone());
    }
    // The first span and the last, of eight that are in use.
    for at in [6, 13] {
        let mut table = table.clone();
        table[of_part + 5] = 8;
        table[of_part + at] = 1 << 32;
        refused(table, state.clone());
    }
    // A tag of each signal, a side and a mark.
    for (at, word) in [(3, 2), (5, 2), (5, 257), (7, 3), (8, 3), (8, 77)] {
        let mut state = state.clone();
        state[state_words(1) + at] = word;
        let model = Model::from_words(table.clone(), state.clone());
        assert_eq!((model.part(0).is_some(), model.part(1), model.parts()), (true, None, None));
        refused(table.clone(), state);
    }
}

#[test]
fn too_few_words() {
    let (table, state) = spelled();
    for length in [0, 1, 2, table_words(1), table.len() - 1] {
        refused(table[..length].to_vec(), state.clone());
    }
    for length in [0, 1, 2, state_words(1), state.len() - 1] {
        refused(table.clone(), state[..length].to_vec());
    }
    // A count of more parts than there are words for, or room.
    for count in [3, 32, 33, 1 << 32, u64::MAX] {
        let mut table = table.clone();
        table[1] = count;
        refused(table, state.clone());
    }
}
