//! Wires that name what is not there, that come to a wired port, or that make a loop.
use super::laid::{Laid, LaidWire};
use super::words::listed;
use crate::command::Command;
use crate::input::Form;

/// The parts and the port that the wire at the position names and that are not there.
pub fn not_there(laid: &Laid) -> Option<String> {
    let Command::Wire { source, receiver, port } = laid.command()? else { return None };
    let (source, receiver) = (usize::from(source), usize::from(receiver));
    let mut missing: Vec<String> = [source, receiver].into_iter().filter_map(|part| missing_part(laid, part)).collect();
    missing.dedup();
    missing.extend(missing_port(laid, receiver, port));
    (!missing.is_empty()).then(|| missing.join("; "))
}

/// What to say of a part that is not there, or not yet.
fn missing_part(laid: &Laid, part: usize) -> Option<String> {
    let parts = laid.parts.len();
    if part < parts {
        return None;
    }
    let all = Laid::before(laid.input, laid.input.bytes.len());
    Some(match (all.parts.get(part), parts) {
        (Some(later), _) => {
            format!(
                "part {part} is not there yet: {} comes later ({})",
                laid.name(part),
                laid.input.mention(later.position)
            )
        }
        (None, 0) => format!("part {part} is not there: no part is"),
        (None, 1) => format!("part {part} is not there: part 0 is the only one"),
        (None, _) => format!("part {part} is not there: the parts are 0 to {}", parts - 1),
    })
}

/// What to say of a port that a part has not.
fn missing_port(laid: &Laid, receiver: usize, port: u8) -> Option<String> {
    let words = laid.parts.get(receiver)?.words()?;
    if port < words.ports {
        return None;
    }
    let ports: Vec<String> = (0..words.ports).map(|port| port.to_string()).collect();
    let name = laid.name(receiver);
    Some(match ports.is_empty() {
        true => format!("{name} has no port {port} (it has no ports)"),
        false => format!("{name} has no port {port} (its ports: {})", ports.join(", ")),
    })
}

/// The port that is wired already, and where.
pub fn already_wired(laid: &Laid) -> Option<String> {
    let Command::Wire { receiver, port, .. } = laid.command()? else { return None };
    let earlier = laid.wires.iter().find(|wire| wire.receiver == usize::from(receiver) && wire.port == port)?;
    let place = laid.input.mention(earlier.position);
    Some(format!("{}.{port} is already wired ({place})", laid.name(receiver.into())))
}

/// A loop of wires into direct ports.
pub fn in_a_loop(laid: &Laid) -> Option<String> {
    let found = a_loop(laid)?;
    let wires =
        found.iter().map(|wire| format!("{} -> {}.{}", laid.name(wire.source), laid.name(wire.receiver), wire.port));
    let wires: Vec<String> = wires.collect();
    let places = places(laid, &found);
    let wires = wires.join(", ");
    Some(format!("a loop of wires into direct ports: {wires} ({places}): put a delay or an integrator into it"))
}

/// Where the first wire of that loop is.
pub fn first_of_a_loop(laid: &Laid) -> Option<usize> {
    a_loop(laid)?.first().map(|wire| wire.position)
}

/// Where the wires of a loop are: `lines 8 and 9`.
fn places(laid: &Laid, wires: &[LaidWire]) -> String {
    let mut positions: Vec<usize> = wires.iter().map(|wire| wire.position).collect();
    let mut lines: Vec<usize> = positions.iter().filter_map(|&position| laid.input.line(position)).collect();
    positions.sort_unstable();
    lines.sort_unstable();
    lines.dedup();
    let counted = |what: &str, numbers: &[usize]| {
        let many = if numbers.len() == 1 { "" } else { "s" };
        format!("{what}{many} {}", listed(&numbers.iter().map(usize::to_string).collect::<Vec<_>>(), "and"))
    };
    match (laid.input.form, lines.is_empty()) {
        (Form::Table, false) => counted("line", &lines),
        (_, false) => format!("{}, {}", counted("byte", &positions), counted("line", &lines)),
        (_, true) => counted("byte", &positions),
    }
}

/// A shortest loop of wires into direct ports, each wire into the part from which the next one comes. It begins with
/// the one of its wires that is first.
fn a_loop(laid: &Laid) -> Option<Vec<LaidWire>> {
    let is_direct = |wire: &&LaidWire| {
        let words = laid.parts.get(wire.receiver).and_then(|part| part.words());
        words.is_some_and(|words| words.direct.contains(&wire.port))
    };
    let wires: Vec<LaidWire> = laid.wires.iter().filter(is_direct).copied().collect();
    let loops = (0..laid.parts.len()).filter_map(|part| way_back(&wires, part));
    let mut found = loops.min_by_key(Vec::len)?;
    let first = (0..found.len()).min_by_key(|&at| found[at].position)?;
    found.rotate_left(first);
    Some(found)
}

/// A shortest way from a part back to itself, found by ways that grow by a wire at a time.
fn way_back(wires: &[LaidWire], part: usize) -> Option<Vec<LaidWire>> {
    let mut reached = Vec::new();
    let mut ways = std::collections::VecDeque::from([Vec::new()]);
    while let Some(way) = ways.pop_front() {
        let end = way.last().map_or(part, |wire: &LaidWire| wire.receiver);
        for wire in wires.iter().filter(|wire| wire.source == end) {
            let longer: Vec<LaidWire> = way.iter().chain([wire]).copied().collect();
            if wire.receiver == part {
                return Some(longer);
            }
            if !reached.contains(&wire.receiver) {
                reached.push(wire.receiver);
                ways.push_back(longer);
            }
        }
    }
    None
}
