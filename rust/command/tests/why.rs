//! What is said of each refusal, word for word: of streams of bytes, of hexadecimal text and of text tables.
use dozhumek::{load, Answer, Model, Refusal, Refused, RefusedAt, Score};
use front::command::Command;
use front::input::{Form, Input};
use front::why::{advance_refused, load_refused, place_of, score_refused};

const BEGIN: Command = Command::Begin { magnitude: 0 };
const GAIN: u8 = 1;
const ADDER: u8 = 2;
const SQUARE: u8 = 3;
const PULSE: u8 = 4;
const DELAY: u8 = 5;
const INTEGRATOR: u8 = 6;
const DETECTOR: u8 = 8;
const DRIVE: u8 = 11;
const CLAPPER: u8 = 12;

/// A part without a preference.
fn part(kind: u8, a: i32, b: i32, p: u32) -> Command {
    Command::Part { kind, preference: 255, a, b, p }
}

/// A part with a preference.
fn preferring(preference: u8, kind: u8, a: i32, b: i32, p: u32) -> Command {
    Command::Part { kind, preference, a, b, p }
}

/// A wire between two parts.
fn wire(source: u8, receiver: u8, port: u8) -> Command {
    Command::Wire { source, receiver, port }
}

/// A span of the drive before.
fn span(ticks: u32) -> Command {
    Command::Span { ticks }
}

/// The bytes of some commands.
fn bytes(commands: &[Command]) -> Vec<u8> {
    commands.iter().flat_map(Command::bytes).collect()
}

/// A stream of bytes.
fn stream(commands: &[Command]) -> Input {
    Input::of_bytes("x.bin", bytes(commands))
}

/// A text table: the names of its parts, and its commands, each on a line of its own from line 2 on, but for spans,
/// which are on the line of the command before, and End, which is on none.
fn table(names: &[&str], commands: &[Command]) -> Input {
    let mut input = Input { form: Form::Table, title: "chime.table".to_string(), ..stream(commands) };
    input.names = names.iter().map(|name| name.to_string()).collect();
    let (mut position, mut line) = (0, 1);
    for command in commands {
        if !matches!(command, Command::Span { .. } | Command::End) {
            line += 1;
            input.lines.push((position, line));
        }
        position += command.length();
    }
    input
}

/// The stream, written as hexadecimal text with a line for each command, from line 1 on.
fn hex(commands: &[Command]) -> Input {
    let mut input = Input { form: Form::Hex, title: "x.hex".to_string(), ..stream(commands) };
    let mut position = 0;
    for (number, command) in commands.iter().enumerate() {
        input.lines.push((position, number + 1));
        position += command.length();
    }
    input
}

/// How a stream's load is refused: the number, and the message after the place where it begins.
fn told(input: &Input) -> (u64, String) {
    let refused = load(&input.bytes).map(|_| "a refusal").expect_err("the load is accepted");
    let place = input.place(place_of(input, &refused));
    (refused.refusal.number(), format!("{place}: {}", load_refused(input, &refused)))
}

/// The same of some bytes.
fn told_of(bytes: &[u8]) -> (u64, String) {
    told(&Input::of_bytes("x.bin", bytes.to_vec()))
}

/// A number with a message.
fn said(number: u64, message: &str) -> (u64, String) {
    (number, message.to_string())
}

#[test]
fn where_a_stream_is_cut() {
    assert_eq!(told_of(&[]), said(1, "x.bin: the stream is empty: Begin is missing"));
    assert_eq!(told_of(&[1]), said(1, "x.bin: the stream ends inside Begin: 1 of its 2 bytes is missing"));
    assert_eq!(told_of(&[1, 0]), said(1, "x.bin: the stream ends after Begin (byte 0): End is missing"));
    let drive = [BEGIN, part(DRIVE, 0, 0, 0), span(3)];
    let behind = "x.bin: the stream ends after a span of drive0 (byte 17): End is missing";
    assert_eq!(told(&stream(&drive)), said(1, behind));
    let inside = "x.bin: the stream ends inside Span: 3 of its 5 bytes are missing";
    assert_eq!(told_of(&bytes(&drive)[..19]), said(1, inside));
    let inside = "x.bin: the stream ends inside Part: 14 of its 15 bytes are missing";
    assert_eq!(told_of(&bytes(&drive)[..3]), said(1, inside));
    let behind = "x.hex:2: the stream ends after drive0 (byte 2, line 2): End is missing";
    assert_eq!(told(&hex(&drive[..2])), said(1, behind));
    let wired = [BEGIN, part(INTEGRATOR, 0, 0, 0), wire(0, 0, 0)];
    let behind = "x.bin: the stream ends after a wire (byte 17): End is missing";
    assert_eq!(told(&stream(&wired)), said(1, behind));
    let inside = "x.bin: the stream ends inside Wire: 1 of its 4 bytes is missing";
    assert_eq!(told_of(&bytes(&wired)[..20]), said(1, inside));
}

#[test]
fn which_byte_is_no_command() {
    assert_eq!(told_of(&[0]), said(2, "x.bin: 00 is no command: a table begins with Begin, 01"));
    let behind = "x.bin: FF is no command, or Begin (byte 0) has too few or too many bytes";
    assert_eq!(told_of(&[1, 0, 0xFF]), said(2, behind));
    let mut input = bytes(&[BEGIN, part(GAIN, 1, 0, 0)]);
    input.push(7);
    let behind = "x.bin: 07 is no command, or gain0 (byte 2) has too few or too many bytes";
    assert_eq!(told_of(&input), said(2, behind));
}

#[test]
fn what_is_out_of_place() {
    let constant = part(0, 1, 0, 0);
    assert_eq!(told(&stream(&[constant])), said(3, "x.bin: Part comes before Begin, which comes first"));
    assert_eq!(told_of(&[3]), said(3, "x.bin: Span comes before Begin, which comes first"));
    assert_eq!(told_of(&[5]), said(3, "x.bin: End comes before Begin, which comes first"));
    assert_eq!(told_of(&[1, 0, 1]), said(3, "x.bin: Begin is there already (byte 0)"));
    let want = Command::Want { step: 7 };
    let before = "x.hex:3: a wanted step comes before End, and belongs after it";
    assert_eq!(told(&hex(&[BEGIN, constant, want])), said(3, before));
    assert_eq!(told_of(&[6]), said(3, "x.bin: a wanted step comes before End, and belongs after it"));
    let not = "x.bin: a span comes after its drive or the drive's span before, not after";
    assert_eq!(told(&stream(&[BEGIN, span(1)])), said(3, &format!("{not} Begin (byte 0)")));
    assert_eq!(told(&stream(&[BEGIN, constant, span(1)])), said(3, &format!("{not} constant0 (byte 2)")));
    let drive = [BEGIN, part(DRIVE, 0, 0, 0), span(1), wire(0, 0, 0), span(2)];
    assert_eq!(told(&stream(&drive)), said(3, &format!("{not} a wire (byte 22)")));
}

#[test]
fn which_operands_are_out_of_range() {
    let begin = Command::Begin { magnitude: 16 };
    assert_eq!(told(&stream(&[begin])), said(5, "x.bin: the default magnitude is 16, not 0 to 15"));
    assert_eq!(told(&table(&[], &[begin])), said(5, "chime.table:2: tick is 16, not 0 to 15"));
    let one = |part: Command| told(&table(&["strike"], &[BEGIN, part, Command::End]));
    let far = "chime.table:3: a of strike is 2000000000, not -1000000000 to 1000000000";
    assert_eq!(one(part(0, 2_000_000_000, 0, 0)), said(5, far));
    assert_eq!(one(part(DETECTOR, 0, 0, 0)), said(5, "chime.table:3: p of strike is 0, not 1 to 1000000000"));
    assert_eq!(one(preferring(16, 0, 1, 0, 0)), said(5, "chime.table:3: pref of strike is 16, not 0 to 15"));
    let unnamed = "chime.table:3: b of strike is 5, but a part of kind gain has no b";
    assert_eq!(one(part(GAIN, 1, 5, 0)), said(5, unnamed));
    let all =
        "x.bin: pref of adder0 is 254, not 0 to 15, or 255 for none; a of adder0 is -1, but a part of kind adder \
               has no a; b of adder0 is 2, but a part of kind adder has no b; p of adder0 is 4294967295, but a part \
               of kind \
               adder has no p";
    assert_eq!(told(&stream(&[BEGIN, preferring(254, ADDER, -1, 2, u32::MAX)])), said(5, all));
    let all =
        "x.bin: a of square0 is -2147483648, not -1000000000 to 1000000000; p of square0 is 1000000001, not 1 to \
               1000000000";
    assert_eq!(told(&stream(&[BEGIN, part(SQUARE, i32::MIN, 0, 1_000_000_001)])), said(5, all));
    assert_eq!(told(&stream(&[BEGIN, part(13, 1, 2, 3)])), said(5, "x.bin: the kind of part0 is 0D, not 00 to 0C"));
    let drive = [BEGIN, part(DRIVE, 0, 0, 0), span(2), span(1_000_000_001)];
    let far = "chime.table:3: span 2 of hammer is 1000000001, not 1 to 1000000000";
    assert_eq!(told(&table(&["hammer"], &drive)), said(5, far));
    assert_eq!(
        told(&stream(&[BEGIN, drive[1], span(0)])),
        said(5, "x.bin: span 1 of drive0 is 0, not 1 to 1000000000")
    );
}

#[test]
fn what_is_too_many() {
    let mut commands = vec![BEGIN];
    commands.extend([part(0, 1, 0, 0); 33]);
    assert_eq!(told(&stream(&commands)), said(6, "x.bin: constant32 is the 33rd part: a table has at most 32"));
    let mut commands = vec![BEGIN, part(0, 1, 0, 0), part(DRIVE, 0, 0, 0)];
    commands.extend((1..=9).map(|number| span(10 * number)));
    let ninth = "chime.table:4: 90 is the ninth span of hammer: a drive has at most 8 spans";
    assert_eq!(told(&table(&["one", "hammer"], &commands)), said(6, ninth));
}

#[test]
fn what_a_wire_misses() {
    let parts = [BEGIN, part(0, 1, 0, 0), part(CLAPPER, 0, 0, 0), part(ADDER, 0, 0, 0)];
    let names = ["gravity", "clapper", "sum"];
    let with = |wire: Command| told(&table(&names, &[&parts[..], &[wire]].concat()));
    assert_eq!(with(wire(0, 1, 5)), said(7, "chime.table:6: clapper has no port 5 (its ports: 0)"));
    assert_eq!(with(wire(0, 2, 2)), said(7, "chime.table:6: sum has no port 2 (its ports: 0, 1)"));
    assert_eq!(with(wire(1, 0, 0)), said(7, "chime.table:6: gravity has no port 0 (it has no ports)"));
    assert_eq!(with(wire(9, 1, 0)), said(7, "chime.table:6: part 9 is not there: the parts are 0 to 2"));
    let all = "chime.table:6: part 9 is not there: the parts are 0 to 2; clapper has no port 1 (its ports: 0)";
    assert_eq!(with(wire(9, 1, 1)), said(7, all));
    let both = "chime.table:6: part 9 is not there: the parts are 0 to 2";
    assert_eq!(with(wire(9, 9, 1)), said(7, both));
    let early = stream(&[BEGIN, parts[1], wire(0, 1, 0), parts[2], Command::End, parts[1]]);
    let yet = "x.bin: part 1 is not there yet: clapper1 comes later (byte 21)";
    assert_eq!(told(&early), said(7, yet));
    let behind_end = stream(&[BEGIN, parts[1], wire(0, 1, 0), Command::End, parts[2]]);
    assert_eq!(told(&behind_end), said(7, "x.bin: part 1 is not there: part 0 is the only one"));
    assert_eq!(told(&stream(&[BEGIN, wire(0, 0, 0)])), said(7, "x.bin: part 0 is not there: no part is"));
}

#[test]
fn which_port_is_wired_already() {
    let commands = [BEGIN, part(0, 1, 0, 0), part(ADDER, 0, 0, 0), wire(0, 1, 0), wire(0, 1, 1), wire(1, 1, 1)];
    let mut input = table(&["gravity", "clapper"], &commands);
    assert_eq!(told(&input), said(8, "chime.table:7: clapper.1 is already wired (line 6)"));
    input.lines[4].1 = 9;
    input.lines[5].1 = 14;
    assert_eq!(told(&input), said(8, "chime.table:14: clapper.1 is already wired (line 9)"));
    assert_eq!(told(&hex(&commands)), said(8, "x.hex:6: adder1.1 is already wired (byte 36, line 5)"));
    assert_eq!(told(&stream(&commands)), said(8, "x.bin: adder1.1 is already wired (byte 36)"));
}

#[test]
fn what_end_finds() {
    assert_eq!(told(&stream(&[BEGIN, Command::End])), said(9, "x.bin: the table has no parts"));
    assert_eq!(told(&table(&[], &[BEGIN, Command::End])), said(9, "chime.table:2: the table has no parts"));
    let begin = Command::Begin { magnitude: 15 };
    let (strike, bell) = (preferring(0, PULSE, 1, 0, 1_000_000_000), preferring(2, DETECTOR, 0, 0, 100_001));
    let fits = preferring(2, DETECTOR, 0, 0, 100_000);
    let one = table(&["fits", "strike"], &[begin, fits, strike, Command::End]);
    assert_eq!(told(&one), said(10, "chime.table:4: P of strike (line 4) is 1000000000 × 10^15, above 10^18"));
    let two = table(&["strike", "bell"], &[begin, strike, bell, Command::End]);
    let both =
        "chime.table:3: P of strike (line 3) is 1000000000 × 10^15, above 10^18; P of bell (line 4) is 100001 × \
                10^13, above 10^18";
    assert_eq!(told(&two), said(10, both));
    // The master's magnitude is a preference, and a part without one has ratio 1.
    let parts =
        [part(PULSE, 1, 0, 1_000_000_000), preferring(13, 0, 1, 0, 0), preferring(3, SQUARE, 1, 0, 100_000_001)];
    let preferred = hex(&[BEGIN, parts[0], parts[1], parts[2], Command::End]);
    let one = "x.hex:4: P of square2 (byte 32, line 4) is 100000001 × 10^10, above 10^18";
    assert_eq!(told(&preferred), said(10, one));
}

#[test]
fn which_wires_are_a_loop() {
    let (amp, sum, hold) = (part(GAIN, 1, 0, 0), part(ADDER, 0, 0, 0), part(9, 0, 0, 0));
    let ring = [BEGIN, amp, sum, wire(0, 1, 0), wire(1, 0, 0), Command::End];
    let put = "put a delay or an integrator into it";
    let wires = "a loop of wires into direct ports: amp -> sum.0, sum -> amp.0 (lines 5 and 6)";
    assert_eq!(told(&table(&["amp", "sum"], &ring)), said(11, &format!("chime.table:5: {wires}: {put}")));
    let wires = "a loop of wires into direct ports: gain0 -> adder1.0, adder1 -> gain0.0 (bytes 32 and 36)";
    assert_eq!(told(&stream(&ring)), said(11, &format!("x.bin: {wires}: {put}")));
    let wires =
        "a loop of wires into direct ports: gain0 -> adder1.0, adder1 -> gain0.0 (bytes 32 and 36, lines 4 and 5)";
    assert_eq!(told(&hex(&ring)), said(11, &format!("x.hex:4: {wires}: {put}")));
    let own = table(&["amp"], &[BEGIN, amp, wire(0, 0, 0), Command::End]);
    let wires = "a loop of wires into direct ports: amp -> amp.0 (line 4)";
    assert_eq!(told(&own), said(11, &format!("chime.table:4: {wires}: {put}")));
    let turned = [BEGIN, amp, sum, hold, wire(0, 1, 0), wire(2, 0, 0), wire(1, 2, 0), Command::End];
    let wires = "gain0 -> adder1.0, adder1 -> hold2.0, hold2 -> gain0.0 (bytes 47, 51 and 55)";
    assert_eq!(told(&stream(&turned)), said(11, &format!("x.bin: a loop of wires into direct ports: {wires}: {put}")));
    // Wires off the loop, before it and after it, and one into a port that is not direct, are not told.
    let reset = part(7, 0, 0, 0);
    let wires = [wire(3, 2, 0), wire(2, 1, 1), wire(1, 0, 0), wire(0, 2, 1), wire(2, 3, 0), wire(0, 1, 0)];
    let commands = [&[BEGIN, amp, sum, reset, hold][..], &wires, &[Command::End]].concat();
    let told_wires = "a loop of wires into direct ports: sum -> amp.0, amp -> sum.0 (lines 9 and 12)";
    let input = table(&["amp", "sum", "again", "keep"], &commands);
    assert_eq!(told(&input), said(11, &format!("chime.table:9: {told_wires}: {put}")));
    let commands = [&[BEGIN, amp, sum, reset, hold][..], &wires[..5], &[Command::End]].concat();
    let input = table(&["amp", "sum", "again", "keep"], &commands);
    let told_wires =
        "a loop of wires into direct ports: again -> sum.1, sum -> amp.0, amp -> again.1 (lines 8, 9 and 10)";
    assert_eq!(told(&input), said(11, &format!("chime.table:8: {told_wires}: {put}")));
}

#[test]
fn which_span_does_not_rise() {
    let commands = [BEGIN, part(DRIVE, 0, 0, 0), span(5), span(5), Command::End];
    let input = table(&["drive"], &commands);
    assert_eq!(
        told(&input),
        said(12, "chime.table:3: 5, span 2 of drive, is not above the one before, 5: sort the spans")
    );
    let commands = [BEGIN, part(DRIVE, 0, 0, 0), span(5), span(9), span(2), Command::End];
    assert_eq!(
        told(&hex(&commands)),
        said(12, "x.hex:5: 2, span 3 of drive0, is not above the one before, 9: sort the spans")
    );
}

#[test]
fn a_refusal_that_the_bytes_do_not_give_is_told_by_its_meaning() {
    let input = stream(&[BEGIN, Command::End]);
    for refusal in Refusal::all() {
        let message = load_refused(&input, &RefusedAt { refusal, position: 99 });
        assert!(!message.is_empty() && !message.contains('\n'), "{refusal:?}");
    }
    let refused = RefusedAt { refusal: Refusal::Loop, position: 2 };
    assert_eq!(load_refused(&input, &refused), Refusal::Loop.meaning());
    assert_eq!(place_of(&input, &refused), 2);
}

/// What is said of the score's end in these bytes after a table of one part.
fn score_told(score: &[u8]) -> (u64, String) {
    let mut bytes = bytes(&[BEGIN, part(0, 1, 0, 0), Command::End]);
    let position = bytes.len();
    bytes.extend(score);
    let refused = Score::new(&bytes, position).find_map(Result::err).expect("the score ends well");
    let input = Input::of_bytes("x.bin", bytes.clone());
    (refused.refusal.number(), score_refused(&input, &refused))
}

#[test]
fn what_ends_a_score() {
    let inside = "the stream ends inside the wanted step: 2 of its 5 bytes are missing";
    assert_eq!(score_told(&[6, 1, 0, 0, 0, 6, 1, 0]), said(1, inside));
    let inside = "the stream ends inside the wanted step: 1 of its 5 bytes is missing";
    assert_eq!(score_told(&[6, 1, 0, 0]), said(1, inside));
    assert_eq!(score_told(&[0x2A]), said(2, "2A is no command: after End there are only wanted steps, 06"));
    assert_eq!(score_told(&[2]), said(3, "Part comes after End, where there are only wanted steps, 06"));
    assert_eq!(score_told(&[5]), said(3, "End comes after End, where there are only wanted steps, 06"));
}

/// Plays wanted steps of a table, each of which is committed, and then one that is refused: the number and the message.
fn barred(input: &Input, played: &[u64], wanted: u64) -> (u64, String) {
    let mut model = load(&input.bytes).expect("the load is refused").model;
    for &step in played {
        model.advance(step).expect("an earlier step is refused");
    }
    barred_at(input, &mut model, wanted)
}

/// The same of a model.
fn barred_at(input: &Input, model: &mut Model, wanted: u64) -> (u64, String) {
    let refused = model.advance(wanted).expect_err("the step is committed");
    (refused.refusal.number(), advance_refused(input, model, wanted, &refused))
}

/// Drives with these spans, all of one preference, with their names.
fn drives(magnitude: u8, named: &[(&str, &[u32])]) -> Input {
    let mut commands = vec![Command::Begin { magnitude }];
    for (_, spans) in named {
        commands.push(preferring(0, DRIVE, 0, 0, 0));
        commands.extend(spans.iter().map(|&ticks| span(ticks)));
    }
    commands.push(Command::End);
    table(&named.iter().map(|&(name, _)| name).collect::<Vec<_>>(), &commands)
}

#[test]
fn a_wanted_step_that_is_none() {
    let input = stream(&[BEGIN, part(0, 1, 0, 0), Command::End]);
    assert_eq!(barred(&input, &[], 0), said(20, "a wanted step is 1 to 1000000000, not 0"));
    let far = "a wanted step is 1 to 1000000000, not 1000000001";
    assert_eq!(barred(&input, &[], 1_000_000_001), said(20, far));
}

#[test]
fn which_parts_are_due_at_the_last_microstep() {
    let echo = [BEGIN, part(0, 1, 0, 0), part(DELAY, 0, 0, 0), wire(0, 1, 0), Command::End];
    let due = "echo (its input is present) is due at microstep 999, after which there is none";
    assert_eq!(barred(&table(&["one", "echo"], &echo), &[5; 999], 5), said(21, due));
    // A ring of a delay and a gain of -1 turns its sign without end, and the detector marks each turn.
    let parts = [
        part(PULSE, 1, 0, 3),
        part(ADDER, 0, 0, 0),
        part(DELAY, 0, 0, 0),
        part(GAIN, -1, 0, 0),
        part(DETECTOR, 0, 0, 1),
    ];
    let wires = [wire(0, 1, 0), wire(3, 1, 1), wire(1, 2, 0), wire(2, 3, 0), wire(1, 4, 0)];
    let ring = [&[BEGIN][..], &parts, &wires, &[Command::End]].concat();
    let input = table(&["strike", "sum", "echo", "turn", "trial"], &ring);
    let due = "echo (its input is present) and trial (a mark is pending) are due at microstep 999, \
               after which there is none";
    assert_eq!(barred(&input, &[3; 1000], 3), said(21, due));
    let mut model = load(&input.bytes).unwrap().model;
    model.advance(3).unwrap();
    let answer = Answer { number: 21, step: 0, rounds: 1, revisions: 0, ceiling: 3 };
    let refused = Refused { refusal: Refusal::DueAtLastMicrostep, answer };
    let due = "strike (the tick is a multiple of its P) is due at microstep 0, after which there is none";
    assert_eq!(advance_refused(&input, &model, 3, &refused), due);
}

#[test]
fn drives_that_do_not_meet() {
    let input = drives(0, &[("left", &[3, 8]), ("right", &[2, 5, 6])]);
    let apart =
        "no step of 1 to 9 is accepted by all: left accepts 3 or 8, right accepts 2 or 5 to 6; left and right do \
                 not meet";
    assert_eq!(barred(&input, &[], 9), said(22, apart));
    let higher =
        "no step of 1 to 7 is accepted by all: left accepts 3, right accepts 2 or 5; left and right do not meet; \
                  the least step that all accept is 8";
    assert_eq!(barred(&drives(0, &[("left", &[3, 8]), ("right", &[2, 5, 8])]), &[], 7), said(22, higher));
    let three = drives(0, &[("left", &[1, 2]), ("right", &[2, 3]), ("mid", &[1, 3])]);
    let each =
        "no step of 1 to 4 is accepted by all: left accepts 1 to 2, right accepts 2 to 3, mid accepts 1 or 3; each \
                two of these meet, but not all 3";
    assert_eq!(barred(&three, &[], 4), said(22, each));
    let three = drives(0, &[("left", &[1]), ("right", &[2]), ("mid", &[1, 3])]);
    let pairs =
        "no step of 1 to 4 is accepted by all: left accepts 1, right accepts 2, mid accepts 1 or 3; left and right \
                 do not meet, nor do right and mid";
    assert_eq!(barred(&three, &[], 4), said(22, pairs));
    let four = drives(0, &[("a", &[1]), ("b", &[2]), ("c", &[3]), ("d", &[4])]);
    let pairs =
        "no step of 1 to 4 is accepted by all: a accepts 1, b accepts 2, c accepts 3, d accepts 4; a and b do not \
                 meet, nor do a and c, nor do a and d, nor do 3 more pairs";
    assert_eq!(barred(&four, &[], 4), said(22, pairs));
}

#[test]
fn of_many_drives_those_that_matter() {
    let near: &[u32] = &[1, 2, 3, 4, 5];
    let five = drives(0, &[("a", near), ("b", &[2, 3]), ("c", &[3, 4]), ("d", &[2, 4]), ("e", &[2, 3, 4])]);
    let each =
        "no step of 1 to 6 is accepted by all: b accepts 2 to 3, c accepts 3 to 4, d accepts 2 or 4; each two of \
                these meet, but not all 3";
    assert_eq!(barred(&five, &[], 6), said(22, each));
    let five = drives(0, &[("a", near), ("b", &[2]), ("c", near), ("d", near), ("e", &[3])]);
    let pair = "no step of 1 to 6 is accepted by all: b accepts 2, e accepts 3; b and e do not meet";
    assert_eq!(barred(&five, &[], 6), said(22, pair));
    let far: &[u32] = &[9];
    let six = drives(0, &[("a", far), ("b", far), ("c", far), ("d", far), ("e", far), ("f", far)]);
    let none = "no step of 1 to 6 is accepted by all: a accepts none, its least step is 9; b accepts none, its least \
                step is 9; c accepts none, its least step is 9; d accepts none, its least step is 9; nor do 2 more \
                parts; the least \
                step that all accept is 9";
    assert_eq!(barred(&six, &[], 6), said(22, none));
}

#[test]
fn a_drive_that_accepts_none() {
    let none = "no step of 1 to 9 is accepted by all: left accepts none, its least step is 12";
    assert_eq!(barred(&drives(0, &[("left", &[12, 15])]), &[], 9), said(22, none));
    let none = "a step of 1 is not accepted by all: left accepts none, its least step is 2";
    assert_eq!(barred(&drives(0, &[("left", &[2])]), &[], 1), said(22, none));
    let none = "no step of 1 to 9 is accepted by all: left accepts none at all, as it has no spans";
    assert_eq!(barred(&drives(0, &[("left", &[])]), &[], 9), said(22, none));
    let none =
        "no step of 1 to 9 is accepted by all: left accepts none, its least step is 12; right accepts none, its least \
                step is 15; the least step that all accept is 20";
    assert_eq!(barred(&drives(0, &[("left", &[12, 20]), ("right", &[15, 20])]), &[], 9), said(22, none));
    let none = "no step of 1 to 9 is accepted by all: left accepts none, its least step is 12; right accepts 2; \
         the least step \
                that all accept is 20";
    assert_eq!(barred(&drives(0, &[("left", &[12, 20]), ("right", &[2, 20])]), &[], 9), said(22, none));
    // At tick 9 the drive's own tick of ten ends with the next step, and then it grows by at least 2.
    let none = "no step of 1 to 10 is accepted by all: left accepts none, its least step is 11";
    assert_eq!(barred(&drives(1, &[("left", &[2])]), &[9], 10), said(22, none));
    let far =
        "no step of 1 to 9 is accepted by all: left accepts none, its least step is 2000000001, above all that can be \
               wanted";
    let nearly = [999_999_999];
    assert_eq!(barred(&drives(9, &[("left", &[3])]), &nearly, 9), said(22, far));
}

#[test]
fn a_drive_so_far_from_its_span_that_no_step_says_it() {
    let input = drives(15, &[("left", &[1_000_000_000])]);
    let model = load(&input.bytes).unwrap().model;
    let (table, mut state) = (model.table().to_vec(), model.state().to_vec());
    state[0] = 999_999_999_999_999;
    let mut model = Model::from_words(table, state);
    let none = "no step of 1 to 9 is accepted by all: left accepts none that can be wanted";
    assert_eq!(barred_at(&input, &mut model, 9), said(22, none));
}

#[test]
fn a_square_or_pulse_that_ends_steps() {
    let parts =
        [part(SQUARE, 1, 2, 7), part(PULSE, 1, 0, 4), part(DRIVE, 0, 0, 0), span(6), span(9), part(PULSE, 1, 0, 4)];
    let input = table(&["turn", "strike", "hammer", "too"], &[&[BEGIN][..], &parts, &[Command::End]].concat());
    let apart =
        "no step of 1 to 8 is accepted by all: strike accepts 1 to 4, hammer accepts 6; strike and hammer do not meet";
    assert_eq!(barred(&input, &[], 8), said(22, apart));
}

#[test]
fn a_search_that_was_revised() {
    // An integrator comes from -7 to 1 in 4 ticks; a drive of spans 4 and 8 gets no shorter step.
    let parts =
        [part(0, 2, 0, 0), part(INTEGRATOR, -7, 0, 0), part(DETECTOR, 0, 0, 1), part(DRIVE, 0, 0, 0), span(4), span(8)];
    let wires = [wire(0, 1, 0), wire(1, 2, 0)];
    let input = table(&["two", "fall", "trial", "hammer"], &[&[BEGIN][..], &parts, &wires, &[Command::End]].concat());
    let twice =
        "no step of 1 to 2 is accepted by all (after 2 revisions, as trial objected, 2 of the wanted 12 are left): \
         hammer accepts none, \
                 its least step is 4";
    assert_eq!(barred(&input, &[], 12), said(22, twice));
    let once =
        "no step of 1 to 2 is accepted by all (after 1 revision, as trial objected, 2 of the wanted 5 are left): \
         hammer accepts none, its \
                least step is 4";
    assert_eq!(barred(&input, &[], 5), said(22, once));
}

/// A table of one constant, and its model at a tick.
fn constant_at(t: u64) -> (Input, Model) {
    let input = stream(&[BEGIN, part(0, 1, 0, 0), Command::End]);
    let model = load(&input.bytes).unwrap().model;
    let (table, mut state) = (model.table().to_vec(), model.state().to_vec());
    state[0] = t;
    state[dozhumek::HEAD] = t;
    (input, Model::from_words(table, state))
}

#[test]
fn how_much_is_left_before_the_last_tick() {
    let (input, mut model) = constant_at(999_999_999_999_999_997);
    let past = "a step of 5 from tick 999999999999999997 may lead past tick 10^18: at most 3 can be wanted";
    assert_eq!(barred_at(&input, &mut model, 5), said(23, past));
    let (input, mut model) = constant_at(1_000_000_000_000_000_000);
    let past = "a step of 1 leads past tick 10^18, which is reached: no step is left";
    assert_eq!(barred_at(&input, &mut model, 1), said(23, past));
}

#[test]
fn a_model_that_is_not_sound() {
    let (input, _) = constant_at(0);
    let mut model = Model::from_words(Vec::new(), Vec::new());
    let unsound = "the model is not sound; any sound model is accepted, altered or not";
    assert_eq!(barred_at(&input, &mut model, 1), said(24, unsound));
}
