//! A preview: the answer of an advance before it is made.

use crate::advance::{advance, Answer};
use crate::model::Model;

/// What [`advance`] answers on a copy of any model, sound or not. The given one stays as it is.
pub fn preview(model: &Model, w: u64) -> Answer {
    advance(model.clone(), w)
}
