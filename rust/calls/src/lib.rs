//! What the programs of this package share: models as words, altered ones among them, and the calls of the static
//! library compared with those of the second implementation, one by one, in lists and by scripts.

pub mod alter;
pub mod compared;
pub mod coverage;
pub mod lent;
pub mod lists;
pub mod malformed;
pub mod previewed;
pub mod saved;
pub mod script;
pub mod sheeted;
pub mod wanted;
pub mod words;
pub mod written;
