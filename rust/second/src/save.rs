//! Writing a model's table as the bytes from which loading makes it.

use crate::load::{BEGIN, END, PART, SPAN, WIRE};
use crate::model::{Kind, Model, Part, NO_PREFERENCE};
use crate::writing::{put, Written, NOT_SOUND};

/// Writes the table of any model, sound or not, to the front of a buffer. What lies after the length is kept, and all
/// of the buffer where the call is refused.
pub fn save(model: &Model, buffer: &mut [u8]) -> Written {
    if !model.sound() {
        return Written::refused(NOT_SOUND);
    }
    put(&table(model), buffer)
}

/// What [`save`] writes where there is room enough; nothing where the model is not sound.
pub fn saved(model: &Model) -> Vec<u8> {
    let mut bytes = vec![0; save(model, &mut []).length];
    save(model, &mut bytes);
    bytes
}

/// The table's commands: Begin, each part with its spans, the wires by receiving part and then port, and End.
fn table(model: &Model) -> Vec<u8> {
    let mut bytes = vec![BEGIN, model.default_magnitude];
    for part in &model.parts {
        put_part(&mut bytes, part);
    }
    for (receiver, part) in model.parts.iter().enumerate() {
        for (port, source) in part.inputs.iter().enumerate() {
            if let Some(source) = *source {
                bytes.extend([WIRE, source, receiver as u8, port as u8]);
            }
        }
    }
    bytes.push(END);
    bytes
}

/// A Part command and the Span commands after it.
fn put_part(bytes: &mut Vec<u8>, part: &Part) {
    let (kind, a, b, p) = part.kind.operands();
    bytes.extend([PART, kind, part.preference.unwrap_or(NO_PREFERENCE)]);
    bytes.extend([a.to_le_bytes(), b.to_le_bytes(), p.to_le_bytes()].concat());
    if let Kind::Drive { spans, .. } = &part.kind {
        for span in spans {
            bytes.push(SPAN);
            bytes.extend(span.to_le_bytes());
        }
    }
}
