//! What the programs' output cannot show: refusals 23 to 26, last ceilings, speeds, previews, saving from any state and
//! into any room, sheet lines of any answer and into any room, and the two places where the library does not follow the
//! document word by word (a drive's longest step, the test of an order), against ones that do.

use crate::advance::{local_step, longest_of_drive, LARGEST_WANTED};
use crate::model::{LAST_TICK, MOST_PARTS};
use crate::order::{is_the_order, order};
use crate::{advance, load, preview, printsheet, rehearse, save, sheet};
use crate::{Answer, Kind, Model, Part, Point, Shown, Side, Written};

/// Random numbers, the same ones at each run: the upper bits of a linear congruential generator.
struct Random(u64);

impl Random {
    /// From 0 up to, but not including, `bound`.
    fn below(&mut self, bound: usize) -> usize {
        self.0 = self.0.wrapping_mul(6_364_136_223_846_793_005).wrapping_add(1_442_695_040_888_963_407);
        (self.0 >> 33) as usize % bound
    }
}

fn bytes(hexadecimal: &str) -> Vec<u8> {
    hexadecimal.split_whitespace().map(|byte| u8::from_str_radix(byte, 16).unwrap()).collect()
}

fn part(kind: u8, preference: u8, a: i32, b: i32, p: u32) -> Vec<u8> {
    let mut command = vec![2, kind, preference];
    command.extend(a.to_le_bytes());
    command.extend(b.to_le_bytes());
    command.extend(p.to_le_bytes());
    command
}

fn fresh(table: &[&[u8]]) -> Model {
    load(&[&table.concat()[..], &[5]].concat()).unwrap().model
}

fn at(mut model: Model, t: u64) -> Model {
    model.point = Point { t, n: 0 };
    for part in &mut model.parts {
        part.local = t / part.ratio;
    }
    model
}

fn counts(answer: &Answer) -> (u8, u64, u32, u32, u64) {
    (answer.number, answer.step, answer.rounds, answer.revisions, answer.ceiling)
}

#[test]
fn the_played_example() {
    let stream = bytes(
        "01 00 02 00 FF 01 00 00 00 00 00 00 00 00 00 00 00 02 0B FF 00 00 00 00 00 00 00 00 00 00 00 00 \
         03 02 00 00 00 03 05 00 00 00 04 00 01 00 05 06 07 00 00 00 06 04 00 00 00 06 01 00 00 00",
    );
    let mut out = Vec::new();
    rehearse(&stream, &mut out).unwrap();
    assert_eq!(String::from_utf8(out).unwrap(), "5 0 5 2 0 1 5\n7 0 2 2 0 1 7\nrefused 22\n");
}

#[test]
fn two_drives_take_three_rounds() {
    let drive = part(11, 0xFF, 0, 0, 0);
    let model = fresh(&[
        &[1, 0],
        &drive,
        &bytes("03 03 00 00 00 03 08 00 00 00"),
        &drive,
        &bytes("03 03 00 00 00 03 05 00 00 00"),
    ]);
    assert_eq!(counts(&advance(model, 9)), (0, 3, 3, 0, 9));
}

#[test]
fn a_detector_halves_ceilings() {
    let mut model = fresh(&[
        &[1, 0],
        &part(0, 0xFF, 2, 0, 0),
        &part(6, 0xFF, -7, 0, 0),
        &part(8, 0xFF, 0, 0, 1),
        &[4, 0, 1, 0, 4, 1, 2, 0],
    ]);
    for expected in [(0, 2, 3, 2, 2), (0, 1, 4, 3, 1), (0, 1, 4, 3, 1), (0, 0, 2, 0, 8)] {
        let answer = advance(model, 8);
        assert_eq!(counts(&answer), expected);
        model = answer.model;
    }
    assert_eq!(model.point, Point { t: 4, n: 1 });
    assert_eq!(model.parts[2].output, Some(1));
}

#[test]
fn local_counts_follow_the_whole_time() {
    let mut model = fresh(&[&[1, 2], &part(0, 0, 1, 0, 0)]);
    for expected in [0, 0, 1] {
        model = advance(model, 40).model;
        assert_eq!(model.parts[0].local, expected);
    }
    let model = at(fresh(&[&[1, 1], &part(11, 0, 0, 0, 0), &bytes("03 02 00 00 00")]), 7);
    let answer = advance(model, 50);
    assert_eq!((answer.step, answer.model.parts[0].local), (22, 2));
}

#[test]
fn a_constant_into_a_delay_ends_in_21() {
    let mut model = fresh(&[&[1, 0], &part(0, 0xFF, 1, 0, 0), &part(5, 0xFF, 0, 0, 0), &[4, 0, 1, 0]]);
    for _ in 0..999 {
        let answer = advance(model, 5);
        assert_eq!(counts(&answer), (0, 0, 2, 0, 5));
        model = answer.model;
    }
    let answer = advance(model.clone(), 5);
    assert_eq!(counts(&answer), (21, 0, 2, 0, 5));
    assert_eq!(answer.model, model);
}

#[test]
fn the_last_tick_is_reached_and_not_passed() {
    let billion = 1_000_000_000;
    let model = at(fresh(&[&[1, 0], &part(0, 0xFF, 1, 0, 0)]), LAST_TICK - billion);
    let answer = advance(model.clone(), billion);
    assert_eq!(counts(&answer), (0, billion, 1, 0, billion));
    assert_eq!(answer.model.point.t, LAST_TICK);
    let model = at(model, LAST_TICK - billion + 1);
    let answer = advance(model.clone(), billion);
    assert_eq!(counts(&answer), (23, 0, 0, 0, 0));
    assert_eq!(answer.model, model);
    assert_eq!(counts(&advance(model.clone(), 0)), (20, 0, 0, 0, 0));
    assert_eq!(counts(&advance(model, u64::MAX)), (20, 0, 0, 0, 0));
}

/// One of every kind, all ports wired, three ratios.
fn everything() -> Model {
    fresh(&[
        &[1, 1],
        &part(0, 0xFF, 3, 0, 0),
        &part(1, 2, -2, 0, 0),
        &part(2, 1, 0, 0, 0),
        &part(3, 0, 5, -5, 4),
        &part(4, 1, 7, 0, 3),
        &part(5, 0, 0, 0, 0),
        &part(6, 1, 9, 0, 0),
        &part(7, 2, -9, 0, 0),
        &part(8, 0, 0, 0, 6),
        &part(9, 0xFF, 0, 0, 0),
        &part(10, 0xFF, 0, 0, 0),
        &part(11, 1, 1, 0, 0),
        &bytes("03 01 00 00 00 03 02 00 00 00 03 10 00 00 00"),
        &part(12, 1, -8, 2, 0),
        &bytes("04 00 01 00 04 01 02 00 04 03 02 01 04 04 05 00 04 03 06 00 04 03 07 00 04 08 07 01"),
        &bytes("04 06 08 00 04 05 09 00 04 07 0A 00 04 04 0A 01 04 02 0B 00 04 03 0C 00"),
    ])
}

type Edit = (&'static str, fn(&mut Model));

/// Edits of `everything`, each of which makes it unsound.
const UNSOUND: &[Edit] = &[
    ("no parts", |m| m.parts.clear()),
    ("no parts and no order", |m| (m.parts, m.order) = (vec![], vec![])),
    ("too many parts", |m| {
        m.parts = vec![Part::new(Kind::Constant { a: 0 }, None); MOST_PARTS + 1];
        m.order = (0..=MOST_PARTS as u8).collect();
    }),
    ("default magnitude", |m| m.default_magnitude = 16),
    ("preference", |m| m.parts[1].preference = Some(16)),
    ("no preference but a ratio", |m| m.parts[3].preference = None),
    ("ratio", |m| m.parts[0].ratio = 10),
    ("ratio 0", |m| m.parts[0].ratio = 0),
    ("operand a", |m| m.parts[0].kind = Kind::Constant { a: 1_000_000_001 }),
    ("operand b", |m| m.parts[3].kind = Kind::Square { a: 5, b: i32::MIN, p: 4 }),
    ("operand a of a clapper", |m| m.parts[12].kind = Kind::Clapper { a: -1_000_000_001, b: 2 }),
    ("operand b of a clapper", |m| m.parts[12].kind = Kind::Clapper { a: -8, b: 1_000_000_001 }),
    ("operand p 0", |m| m.parts[8].kind = Kind::Detector { p: 0 }),
    ("operand p", |m| m.parts[8].kind = Kind::Detector { p: 1_000_000_001 }),
    ("P", |m| {
        m.default_magnitude = 15;
        for part in &mut m.parts {
            part.preference = None;
            part.ratio = 1;
        }
        m.parts[3].preference = Some(5);
        m.parts[3].ratio = 10_000_000_000;
        m.parts[3].kind = Kind::Square { a: 0, b: 0, p: 100_000_001 };
    }),
    ("span 0", |m| m.parts[11].kind = Kind::Drive { a: 1, spans: vec![0] }),
    ("span", |m| m.parts[11].kind = Kind::Drive { a: 1, spans: vec![1_000_000_001] }),
    ("equal spans", |m| m.parts[11].kind = Kind::Drive { a: 1, spans: vec![2, 2] }),
    ("nine spans", |m| m.parts[11].kind = Kind::Drive { a: 1, spans: (1..10).collect() }),
    ("unknown source", |m| m.parts[6].inputs[0] = Some(13)),
    ("unknown source far off", |m| m.parts[1].inputs[0] = Some(u8::MAX)),
    ("port 0 of a constant", |m| m.parts[0].inputs[0] = Some(1)),
    ("port 1 of an integrator", |m| m.parts[6].inputs[1] = Some(1)),
    ("port 1 of a clapper", |m| m.parts[12].inputs[1] = Some(1)),
    ("loop", |m| m.parts[1].inputs[0] = Some(2)),
    ("order short", |m| m.order.truncate(12)),
    ("order long", |m| m.order.push(0)),
    ("order twice", |m| m.order[0] = m.order[1]),
    ("order unknown", |m| m.order[0] = 13),
    ("order swapped", |m| m.order.swap(0, 3)),
    ("t", |m| *m = at(m.clone(), LAST_TICK + 1)),
    ("n", |m| m.point.n = 1000),
    ("local count", |m| m.parts[0].local = 1),
    ("local count far off", |m| m.parts[3].local = u64::MAX),
    ("local count behind", |m| m.point.t = 100),
    ("output", |m| m.parts[0].output = Some(-1_000_000_001)),
    ("held number", |m| m.parts[7].held = i32::MAX),
    ("held number of a kind that holds none", |m| m.parts[0].held = i32::MIN),
    ("position of a clapper", |m| m.parts[12].held = 1_000_000_001),
    ("speed of a clapper", |m| m.parts[12].speed = 1_000_000_001),
    ("speed of a clapper below", |m| m.parts[12].speed = -1_000_000_001),
    ("speed of a constant", |m| m.parts[0].speed = 1),
    ("speed of an integrator", |m| m.parts[6].speed = -1),
    ("speed of a drive", |m| m.parts[11].speed = 1_000_000_000),
    ("held signal", |m| m.parts[9].kept = Some(1_000_000_001)),
    ("held signal of a kind that holds none", |m| m.parts[0].kept = Some(1_000_000_001)),
];

#[test]
fn unsound_models_get_24_and_come_back_unchanged() {
    let good = everything();
    assert!(good.sound());
    for (name, edit) in UNSOUND {
        let mut model = good.clone();
        edit(&mut model);
        assert_ne!(model, good, "{name}");
        for w in [0, 1, u64::MAX] {
            let answer = advance(model.clone(), w);
            assert_eq!(counts(&answer), (24, 0, 0, 0, 0), "{name}");
            assert_eq!(answer.model, model, "{name}");
        }
    }
}

/// Edits of `everything`, each of which leads to a state that no run reaches, and leaves it sound.
const UNREACHED: &[fn(&mut Model)] = &[
    |m| m.parts[0].output = Some(-1_000_000_000),
    |m| m.parts[3].output = None,
    |m| m.parts[0].mark = Some(Side::Negative),
    |m| m.parts[8].mark = Some(Side::Negative),
    |m| m.parts[8].side = None,
    |m| m.parts[9].kept = Some(1_000_000_000),
    |m| m.parts[0].held = -1_000_000_000,
    |m| m.parts[12].speed = 1_000_000_000,
    |m| m.parts[12].speed = -1_000_000_000,
    |m| (m.parts[12].held, m.parts[12].output) = (1_000_000_000, None),
    |m| *m = at(m.clone(), LAST_TICK - 10),
    |m| m.point.n = 999,
];

#[test]
fn sound_models_that_no_run_reaches_are_accepted() {
    for edit in UNREACHED {
        let mut model = everything();
        edit(&mut model);
        let answer = advance(model, 10);
        assert!(matches!(answer.number, 0 | 21 | 22));
        assert!(answer.model.sound());
    }
}

#[test]
fn what_loading_and_advancing_give_is_sound() {
    let mut random = Random(1);
    let mut model = everything();
    for _ in 0..2000 {
        let w = 1 + random.below(60) as u64;
        let answer = advance(model, w);
        assert!(answer.model.sound());
        model = answer.model;
    }
    assert!(model.point.t > 1000);
}

/// A constant into a clapper.
fn fed(x: i32, a: i32, b: i32) -> Model {
    fresh(&[&[1, 0], &part(0, 0xFF, x, 0, 0), &part(12, 0xFF, a, b, 0), &[4, 0, 1, 0]])
}

/// Position, speed and output of the clapper of `fed`.
fn clapper(model: &Model) -> (i32, i32, Option<i32>) {
    let Part { held, speed, output, .. } = model.parts[1];
    (held, speed, output)
}

#[test]
fn a_fresh_clapper_has_position_a_and_speed_b() {
    assert_eq!(clapper(&fed(1, 7, -3)), (7, -3, Some(7)));
    assert!(everything().parts[..12].iter().all(|part| part.speed == 0));
}

#[test]
fn a_clappers_new_speed_moves_its_position() {
    let whole = advance(fed(1, 0, 0), 2).model;
    assert_eq!(clapper(&whole), (4, 2, Some(4)));
    let half = advance(fed(1, 0, 0), 1).model;
    assert_eq!(clapper(&half), (1, 1, Some(1)));
    assert_eq!(clapper(&advance(half, 1).model), (3, 2, Some(3)));
}

#[test]
fn a_clappers_speed_is_clamped_before_it_moves_the_position() {
    let billion = 1_000_000_000;
    let up = advance(fed(billion, -billion, billion), 1).model;
    assert_eq!(clapper(&up), (0, billion, Some(0)));
    let down = advance(fed(-billion, billion, -billion), 1).model;
    assert_eq!(clapper(&down), (0, -billion, Some(0)));
    // The largest numbers: both are clamped, and the speed stays where the position has come to its end.
    let far = advance(fed(billion, billion, billion), 1_000_000_000).model;
    assert_eq!(clapper(&far), (billion, billion, Some(billion)));
}

#[test]
fn a_dropped_trial_leaves_a_clappers_speed() {
    let detector = [&part(8, 0xFF, 0, 0, 1)[..], &[4, 0, 1, 0, 4, 1, 2, 0]].concat();
    let parts: [&[u8]; 4] = [&[1, 0], &part(0, 0xFF, 1, 0, 0), &part(12, 0xFF, -10, 0, 0), &detector];
    let answer = advance(fresh(&parts), 8);
    // Steps of 8 and 4 would lead to 54 and 6.
    assert_eq!(counts(&answer), (0, 2, 3, 2, 2));
    assert_eq!(clapper(&answer.model), (-6, 2, Some(-6)));
    assert_eq!(clapper(&advance(answer.model, 1).model), (-3, 3, Some(-3)));
}

/// Fails unless a preview has this number and answers as an advance on a copy does, and the model stays as it was.
fn previewed(model: &Model, w: u64, number: u8) {
    let before = model.clone();
    let answer = preview(model, w);
    assert_eq!((answer.number, &answer), (number, &advance(before.clone(), w)));
    assert_eq!(*model, before);
    assert_eq!(answer.model == before, number != 0);
}

#[test]
fn a_preview_answers_as_an_advance_on_a_copy() {
    let good = everything();
    previewed(&good, 10, 0);
    previewed(&good, 0, 20);
    previewed(&good, LARGEST_WANTED + 1, 20);
    previewed(&at(good.clone(), LAST_TICK - 9), 10, 23);
    let mut late = good.clone();
    (late.point.n, late.parts[8].mark) = (999, Some(Side::Positive));
    previewed(&late, 10, 21);
    let drive = fresh(&[&[1, 0], &part(11, 0xFF, 0, 0, 0), &bytes("03 02 00 00 00")]);
    previewed(&drive, 2, 0);
    previewed(&drive, 1, 22);
    for (_, edit) in UNSOUND {
        let mut model = good.clone();
        edit(&mut model);
        for w in [0, 10, u64::MAX] {
            previewed(&model, w, 24);
        }
    }
}

#[test]
fn previews_anywhere_alter_no_answer_of_a_list() {
    let mut random = Random(4);
    let (mut alone, mut tried) = (everything(), everything());
    for _ in 0..500 {
        let w = random.below(60) as u64;
        let answer = advance(alone, w);
        for _ in 0..random.below(3) {
            preview(&tried, random.below(60) as u64);
        }
        assert_eq!(preview(&tried, w), answer);
        let with = advance(tried, w);
        assert_eq!(with, answer);
        (alone, tried) = (answer.model, with.model);
    }
    assert!(alone.point.t > 500);
}

/// Saves a model into so much room, and fails unless what lies after the length is kept, and all of it where refused.
fn saved_into(model: &Model, room: usize) -> (Written, Vec<u8>) {
    let mut buffer = vec![0xAA; room];
    let written = save(model, &mut buffer);
    let taken = if written.number == 0 { written.length } else { 0 };
    assert!(buffer[taken..].iter().all(|&byte| byte == 0xAA));
    (written, buffer)
}

/// The bytes of a sound model.
fn saved(model: &Model) -> Vec<u8> {
    let (Written { number, length }, mut buffer) = saved_into(model, 4000);
    assert_eq!(number, 0);
    buffer.truncate(length);
    buffer
}

#[test]
fn a_table_is_saved_from_begin_to_end_in_the_writers_order() {
    // The last wire of the stream goes to the first part, an adder, whose port 1 is wired before its port 0.
    let stream = bytes(
        "01 03 02 02 00 00 00 00 00 00 00 00 00 00 00 00 00 02 00 FF FE FF FF FF 00 00 00 00 00 00 00 00 \
         04 01 00 01 02 0B 05 07 00 00 00 00 00 00 00 00 00 00 00 03 01 00 00 00 03 00 CA 9A 3B \
         02 03 FF 00 01 00 00 00 00 02 00 03 00 00 00 04 01 02 00 04 03 00 00 05 06 01 00 00 00",
    );
    let table = bytes(
        "01 03 02 02 00 00 00 00 00 00 00 00 00 00 00 00 00 02 00 FF FE FF FF FF 00 00 00 00 00 00 00 00 \
         02 0B 05 07 00 00 00 00 00 00 00 00 00 00 00 03 01 00 00 00 03 00 CA 9A 3B \
         02 03 FF 00 01 00 00 00 00 02 00 03 00 00 00 04 03 00 00 04 01 00 01 04 01 02 00 05",
    );
    let model = load(&stream).unwrap().model;
    // The default magnitude is 3, and the master's is 5.
    assert_eq!((model.magnitude(), saved(&model)), (5, table.clone()));
    assert_eq!(load(&table).unwrap().model, model);
}

#[test]
fn every_room_short_of_a_table_is_refused_and_told_its_length() {
    let good = everything();
    let table = saved(&good);
    let length = table.len();
    for room in 0..length {
        assert_eq!(saved_into(&good, room).0, Written { number: 25, length });
    }
    for room in [length, length + 1, length + 1000] {
        let (written, buffer) = saved_into(&good, room);
        assert_eq!((written, &buffer[..length]), (Written { number: 0, length }, &table[..]));
    }
}

#[test]
fn unsound_models_are_not_saved_whatever_the_room_is() {
    for (name, edit) in UNSOUND {
        let mut model = everything();
        edit(&mut model);
        for room in [0, 1, 4000] {
            assert_eq!(saved_into(&model, room).0, Written { number: 24, length: 0 }, "{name}");
        }
    }
}

#[test]
fn a_model_anywhere_is_saved_as_its_fresh_one() {
    let good = everything();
    let table = saved(&good);
    let again = load(&table).unwrap();
    assert_eq!((again.model, again.end), (good.clone(), table.len()));
    let mut random = Random(5);
    let mut played = good.clone();
    for _ in 0..200 {
        played = advance(played, 1 + random.below(60) as u64).model;
        assert_eq!(saved(&played), table);
    }
    assert_ne!(played, good);
    for edit in UNREACHED {
        let mut model = good.clone();
        edit(&mut model);
        assert_eq!(saved(&model), table);
    }
}

#[test]
fn another_table_has_other_bytes() {
    let edits: &[fn(&mut Model)] = &[
        |m| m.default_magnitude = 0,
        |m| m.default_magnitude = 2,
        // Ratio 1, as without a preference.
        |m| m.parts[0].preference = Some(2),
        |m| m.parts[1].preference = None,
        |m| m.parts[0].kind = Kind::Constant { a: -3 },
        |m| m.parts[3].kind = Kind::Square { a: 5, b: 5, p: 4 },
        |m| m.parts[3].kind = Kind::Square { a: 5, b: -5, p: 1_000_000_000 },
        |m| m.parts[12].kind = Kind::Clapper { a: -8, b: 1_000_000_000 },
        |m| m.parts[11].kind = Kind::Drive { a: 1, spans: vec![] },
        |m| m.parts[11].kind = Kind::Drive { a: 1, spans: vec![1, 2, 17] },
        |m| m.parts[6].kind = Kind::Drive { a: 9, spans: vec![] },
        |m| m.parts[6].inputs[0] = None,
        |m| m.parts[6].inputs[0] = Some(6),
        |m| m.parts[2].inputs.swap(0, 1),
    ];
    let mut all = vec![saved(&everything())];
    for edit in edits {
        let mut model = everything();
        edit(&mut model);
        let bytes = saved(&model);
        assert!(!all.contains(&bytes), "{model:?}");
        assert_eq!(saved(&load(&bytes).unwrap().model), bytes);
        all.push(bytes);
    }
}

#[test]
fn the_longest_table_is_saved() {
    let drive =
        [part(11, 15, -1_000_000_000, 0, 0), (1..9).flat_map(|s: u32| [&[3], &s.to_le_bytes()[..]].concat()).collect()];
    let mut commands = vec![1, 15];
    commands.extend(drive.concat().repeat(MOST_PARTS));
    commands.extend((0..MOST_PARTS as u8).flat_map(|number| [4, 31 - number, number, 0]));
    commands.push(5);
    assert_eq!((saved(&load(&commands).unwrap().model), commands.len()), (commands, 1891));
}

/// A committed answer's numbers.
const COMMITTED: Shown = Shown { number: 0, step: 5, rounds: 2, revisions: 1 };

/// Prints a sheet line into so much room, and fails unless what lies after the line is kept, and all of it where
/// refused.
fn printed_into(model: &Model, shown: Shown, choice: [u64; 3], room: usize) -> (Written, String) {
    let mut buffer = vec![0xAA; room];
    let written = sheet(model, shown, choice, &mut buffer);
    let taken = if written.number == 0 { written.length } else { 0 };
    assert!(buffer[taken..].iter().all(|&byte| byte == 0xAA));
    buffer.truncate(taken);
    (written, String::from_utf8(buffer).unwrap())
}

/// The line of a sound model's answer.
fn line(model: &Model, shown: Shown, choice: [u64; 3]) -> String {
    let (written, line) = printed_into(model, shown, choice, 200);
    assert_eq!(written, Written { number: 0, length: 79 });
    line
}

/// What is answered to a line in so much room.
fn told(model: &Model, shown: Shown, choice: [u64; 3], room: usize) -> (u8, usize) {
    let Written { number, length } = printed_into(model, shown, choice, room).0;
    (number, length)
}

/// Three constants and a pulse, the first two at the ends of the values.
fn ends() -> Model {
    let [low, high] = [-1_000_000_000, 1_000_000_000].map(|a| part(0, 0xFF, a, 0, 0));
    fresh(&[&[1, 0], &low, &high, &part(0, 0xFF, 7, 0, 0), &part(4, 0xFF, 9, 0, 4)])
}

#[test]
fn the_played_example_as_a_sheet() {
    let input = bytes(
        "01 00 00 00 00 00 00 00 01 00 00 00 \
         01 00 02 00 FF 01 00 00 00 00 00 00 00 00 00 00 00 02 0B FF 00 00 00 00 00 00 00 00 00 00 00 00 \
         03 02 00 00 00 03 05 00 00 00 04 00 01 00 05 06 07 00 00 00 06 04 00 00 00 06 01 00 00 00 07",
    );
    let (mut out, mut errors) = (Vec::new(), Vec::new());
    printsheet(&input, &mut out, &mut errors).unwrap();
    let lines = [
        "                  5   0          5    2  0           5           1           5",
        "                  7   0          2    2  0           7           1           7",
        "refused 22                                                                    ",
        "refused 2 at 62",
    ];
    assert_eq!(String::from_utf8(out).unwrap(), lines.map(|line| format!("{line}\n")).concat());
    assert!(errors.is_empty());
}

#[test]
fn a_sheets_fields_are_right_aligned() {
    let narrow = "                  0   0          5    2  1           7           7           7\n";
    assert_eq!(line(&ends(), COMMITTED, [2, 2, 2]), narrow);
    let mut model = at(ends(), LAST_TICK);
    model.point.n = 999;
    let shown = Shown { number: 0, step: 9_999_999_999, rounds: 9999, revisions: 99 };
    let wide = "1000000000000000000 999 9999999999 9999 99 -1000000000  1000000000 -1000000000\n";
    assert_eq!(line(&model, shown, [0, 1, 0]), wide);
}

#[test]
fn an_absent_output_is_a_single_dash() {
    let absent = "                  0   0          5    2  1           -           7           -\n";
    assert_eq!(line(&ends(), COMMITTED, [3, 2, 3]), absent);
}

#[test]
fn a_sheets_outputs_are_chosen_by_part_number() {
    // Part 0 is a gain that reads part 1, so that the order is 1, 0.
    let model = fresh(&[&[1, 0], &part(1, 0xFF, 2, 0, 0), &part(0, 0xFF, 4, 0, 0), &[4, 1, 0, 0]]);
    assert_eq!(model.order, [1, 0]);
    assert!(line(&model, COMMITTED, [0, 1, 0]).ends_with("           8           4           8\n"));
}

#[test]
fn a_refused_answer_fills_its_line() {
    for number in [1, 20, 24, u64::MAX] {
        // Its counts have no field, and may be of any width.
        let shown = Shown { number, step: u64::MAX, rounds: u64::MAX, revisions: u64::MAX };
        let text = format!("refused {number}");
        let due = format!("{text}{}\n", " ".repeat(78 - text.len()));
        assert_eq!(line(&ends(), shown, [0, 1, 2]), due);
    }
}

#[test]
fn each_number_of_a_committed_answer_has_to_fit_its_field() {
    for (more, due) in [(0, (0, 79)), (1, (26, 0)), (1 << 63, (26, 0))] {
        for shown in [
            Shown { step: 9_999_999_999 + more, ..COMMITTED },
            Shown { rounds: 9999 + more, ..COMMITTED },
            Shown { revisions: 99 + more, ..COMMITTED },
        ] {
            assert_eq!(told(&ends(), shown, [0, 1, 2], 79), due, "{shown:?}");
        }
    }
}

#[test]
fn a_chosen_part_has_to_exist_for_a_refused_answer_too() {
    let refused = Shown { number: 22, ..COMMITTED };
    for missing in [4, 5, 32, 256, 1 << 32, u64::MAX] {
        for choice in [[missing, 0, 0], [0, missing, 0], [0, 0, missing], [missing; 3]] {
            assert_eq!(told(&ends(), COMMITTED, choice, 79), (26, 0));
            assert_eq!(told(&ends(), refused, choice, 79), (26, 0));
        }
    }
    assert_eq!(told(&ends(), refused, [3, 0, 3], 79), (0, 79));
}

#[test]
fn a_sheet_line_needs_a_room_of_79() {
    for shown in [COMMITTED, Shown { number: 20, ..COMMITTED }] {
        for room in 0..79 {
            assert_eq!(told(&ends(), shown, [0, 1, 2], room), (25, 79));
        }
        for room in [79, 80, 1000] {
            assert_eq!(told(&ends(), shown, [0, 1, 2], room), (0, 79));
        }
    }
}

#[test]
fn a_sheets_refusals_are_24_then_26_then_25() {
    let wide = Shown { rounds: 10_000, ..COMMITTED };
    for room in [0, 78, 79] {
        for (shown, choice) in [(wide, [0; 3]), (COMMITTED, [0, 0, 99]), (Shown { number: 24, ..wide }, [99; 3])] {
            assert_eq!(told(&everything(), shown, choice, room), (26, 0));
            for (name, edit) in UNSOUND {
                let mut model = everything();
                edit(&mut model);
                assert_eq!(told(&model, shown, choice, room), (24, 0), "{name}");
                assert_eq!(told(&model, COMMITTED, [0; 3], room), (24, 0), "{name}");
            }
        }
    }
}

#[test]
fn every_answer_for_a_sound_model_fits_its_line() {
    let mut random = Random(6);
    let mut model = everything();
    for _ in 0..500 {
        let Answer { model: next, number, step, rounds, revisions, .. } = advance(model, random.below(60) as u64);
        let shown = Shown { number: number.into(), step, rounds: rounds.into(), revisions: revisions.into() };
        let printed = line(&next, shown, [0, 8, 12]);
        assert_eq!(printed.starts_with("refused"), number != 0);
        model = next;
    }
    for edit in UNREACHED {
        let mut model = everything();
        edit(&mut model);
        line(&model, COMMITTED, [0, 3, 12]);
    }
}

/// What the program that prints a sheet says on standard error, having printed nothing.
fn not_printed(input: &[u8]) -> String {
    let (mut out, mut errors) = (Vec::new(), Vec::new());
    printsheet(input, &mut out, &mut errors).unwrap();
    assert!(out.is_empty());
    String::from_utf8(errors).unwrap()
}

#[test]
fn a_program_without_three_parts_prints_nothing_but_why() {
    let table = [&[1, 0][..], &part(0, 0xFF, 1, 0, 0), &[5]].concat();
    let input = |choice: [u32; 3]| [&choice.map(u32::to_le_bytes).concat()[..], &table].concat();
    for length in 0..12 {
        assert_eq!(not_printed(&input([0; 3])[..length]), "refused 1 at 0\n");
    }
    assert_eq!(not_printed(&input([0; 3])), "");
    assert_eq!(not_printed(&input([1, 0, 9])), "refused 26 at 0\n");
    assert_eq!(not_printed(&input([0, 256, 1])), "refused 26 at 4\n");
    assert_eq!(not_printed(&input([0, 0, u32::MAX])), "refused 26 at 8\n");
}

#[test]
fn a_drives_longest_step_is_the_first_accepted_from_above() {
    let mut random = Random(2);
    for _ in 0..20_000 {
        let mut spans: Vec<u32> = (0..random.below(9)).map(|_| 1 + random.below(40) as u32).collect();
        spans.sort_unstable();
        spans.dedup();
        let ratio = [1, 10, 100][random.below(3)];
        let t = random.below(5000) as u64;
        let mut drive = Part::new(Kind::Drive { a: 0, spans: spans.clone() }, Some(0));
        (drive.ratio, drive.local) = (ratio, t / ratio);
        let h = random.below(60 * ratio as usize) as u64;
        let accepts = |&step: &u64| {
            let d = local_step(&drive, t, step);
            d == 0 || spans.iter().any(|&span| u64::from(span) == d)
        };
        let tried = (0..=h).rev().find(accepts).unwrap();
        assert_eq!(longest_of_drive(&drive, t, h), tried, "{drive:?} at {t}, {h}");
    }
}

#[test]
fn a_drive_of_the_largest_numbers_is_asked_without_a_fault() {
    let mut drive = Part::new(Kind::Drive { a: 0, spans: vec![1, 1_000_000_000] }, Some(0));
    drive.ratio = 1_000_000_000_000_000;
    for t in [0, 1, LAST_TICK - 1_000_000_000] {
        drive.local = t / drive.ratio;
        assert_eq!(longest_of_drive(&drive, t, 1_000_000_000), 1_000_000_000);
    }
}

#[test]
fn an_order_is_recognised_exactly_where_it_is_the_one_built() {
    let mut random = Random(3);
    let (mut accepted, mut loops) = (0, 0);
    for _ in 0..3000 {
        let count = 1 + random.below(6);
        let mut parts = vec![Part::new(Kind::Adder, None); count];
        for part in &mut parts {
            for input in &mut part.inputs {
                *input = (random.below(3) == 0).then(|| random.below(count) as u8);
            }
        }
        let built = order(&parts);
        loops += usize::from(built.is_none());
        let mut given: Vec<u8> = (0..count as u8).collect();
        for_each_permutation(&mut given, 0, &mut |given| {
            let same = built.as_deref() == Some(given);
            accepted += usize::from(same);
            assert_eq!(is_the_order(&parts, given), same, "{given:?}, not {built:?}");
        });
    }
    assert!(accepted > 1000 && loops > 100);
}

fn for_each_permutation(items: &mut Vec<u8>, from: usize, see: &mut impl FnMut(&[u8])) {
    if from == items.len() {
        return see(items);
    }
    for i in from..items.len() {
        items.swap(from, i);
        for_each_permutation(items, from + 1, see);
        items.swap(from, i);
    }
}

#[test]
fn points_order_by_tick_then_microstep() {
    assert!(Point::START < Point { t: 0, n: 1 } && Point { t: 0, n: 999 } < Point { t: 1, n: 0 });
    assert!(Point { t: LAST_TICK, n: 998 } < Point::LAST);
}
