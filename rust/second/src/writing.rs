//! What every writing call does: it puts its bytes to the front of a lent buffer, all of them or none.

pub(crate) const NOT_SOUND: u8 = 24;
const TOO_SHORT: u8 = 25;

/// What a writing call answers: the number, 0 if it wrote, and a length: that of the bytes written, with 25 that of the
/// bytes that need room, with any other refusal 0.
#[derive(Clone, Copy, Debug, PartialEq, Eq)]
pub struct Written {
    pub number: u8,
    pub length: usize,
}

impl Written {
    /// A refusal other than 25.
    pub(crate) fn refused(number: u8) -> Written {
        Written { number, length: 0 }
    }
}

/// Puts bytes to the front of a buffer and keeps what lies after them; all of the buffer where it is too short.
pub(crate) fn put(bytes: &[u8], buffer: &mut [u8]) -> Written {
    let length = bytes.len();
    match buffer.get_mut(..length) {
        None => Written { number: TOO_SHORT, length },
        Some(front) => {
            front.copy_from_slice(bytes);
            Written { number: 0, length }
        }
    }
}
