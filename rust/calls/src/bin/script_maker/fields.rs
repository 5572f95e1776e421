//! The fields of a model by the names and values that a script's alterations have.

use calls::words::*;

/// The names, without the numbers of parts, places and spans.
pub const NAMES: [&str; 22] = [
    "magnitude",
    "count",
    "tick",
    "microstep",
    "order",
    "kind",
    "preference",
    "a",
    "b",
    "p",
    "spans",
    "span",
    "port0",
    "port1",
    "ratio",
    "local",
    "held",
    "speed",
    "signal",
    "output",
    "side",
    "mark",
];

/// Which of the names a field has.
pub fn sort_of(field: &str) -> &str {
    let mut words = field.split(' ');
    match words.next() {
        Some("part") => words.nth(1).unwrap_or(""),
        first => first.unwrap_or(""),
    }
}

/// The words that a script's alterations can say: a number modulo its field's width, and an unknown code as 0.
pub fn sayable(words: &Words) -> Words {
    let mut words = words.clone();
    words.0[MAGNITUDE] &= 0xFF;
    for number in 0..PARTS {
        words.0[ORDER + number] &= 0xFFFF;
        let part = words.part_mut(number);
        part[KIND] = if part[KIND] < KINDS as u64 { part[KIND] } else { 0 };
        part[PREFERENCE] &= 0xFF;
        part[P] &= 0xFFFF_FFFF;
        part[FIRST_SPAN..PORT].iter_mut().for_each(|span| *span &= 0xFFFF_FFFF);
        for port in &mut part[PORT..RATIO] {
            *port = if *port == 0 { 0 } else { (*port - 1) % 65_536 + 1 };
        }
        for signal in [SIGNAL, OUTPUT] {
            if part[signal] != 1 {
                part[signal..signal + 2].fill(0);
            }
        }
        for code in [SIDE, MARK] {
            part[code] = if part[code] < 3 { part[code] } else { 0 };
        }
    }
    words
}

/// The fields in use and their values, of words that a script can say. Where it claims more parts than there is room
/// for, `parts` are in use.
pub fn of(words: &Words, parts: usize) -> Vec<(String, String)> {
    let count = if words.0[COUNT] <= PARTS as u64 { words.count() } else { parts };
    let mut fields: Vec<(String, String)> = [("magnitude", MAGNITUDE), ("count", COUNT), ("tick", T), ("microstep", N)]
        .map(|(name, at)| (name.to_string(), words.0[at].to_string()))
        .to_vec();
    for number in 0..count {
        fields.push((format!("order {number}"), words.0[ORDER + number].to_string()));
        let of_part = of_part(words.part(number));
        fields.extend(of_part.into_iter().map(|(name, value)| (format!("part {number} {name}"), value)));
    }
    fields
}

/// A part's fields by name, each with its value as a script spells it.
fn of_part(part: &[u64]) -> Vec<(String, String)> {
    let plain = |at: usize| part[at].to_string();
    let signed = |at: usize| (part[at] as i64).to_string();
    let port = |at: usize| if part[at] == 0 { "-".to_string() } else { (part[at] - 1).to_string() };
    let signal = |at: usize| if part[at] == 0 { "-".to_string() } else { signed(at + 1) };
    let spans = part[SPAN_COUNT].min(SPANS as u64) as usize;
    let spans = (0..spans).map(|at| (format!("span {at}"), plain(FIRST_SPAN + at)));
    let others = [
        ("kind", plain(KIND)),
        ("preference", plain(PREFERENCE)),
        ("a", signed(A)),
        ("b", signed(B)),
        ("p", plain(P)),
        ("spans", plain(SPAN_COUNT)),
        ("port0", port(PORT)),
        ("port1", port(PORT + 1)),
        ("ratio", plain(RATIO)),
        ("local", plain(LOCAL)),
        ("held", signed(HELD)),
        ("speed", signed(SPEED)),
        ("signal", signal(SIGNAL)),
        ("output", signal(OUTPUT)),
        ("side", ["unset", "negative", "positive"][part[SIDE] as usize].to_string()),
        ("mark", ["none", "1", "-1"][part[MARK] as usize].to_string()),
    ];
    others.into_iter().map(|(name, value)| (name.to_string(), value)).chain(spans).collect()
}
