//! The exported calls on slices of the caller's own. What they promise for every argument,
//! `crates/boundary/specs/Exported.antt` says. Each answers its number whatever `out` has room for: of the answer's
//! words those that fit are written into `out`, from the first on, and the words of `out` after them are kept.

extern "C" {
    fn dozhumek_load(
        stream: *const u8,
        stream_length: usize,
        table: *mut u64,
        table_length: usize,
        state: *mut u64,
        state_length: usize,
        out: *mut u64,
        out_length: usize,
    ) -> u64;
    fn dozhumek_advance(
        table: *const u64,
        table_length: usize,
        old: *const u64,
        old_length: usize,
        wanted: u64,
        new: *mut u64,
        new_length: usize,
        out: *mut u64,
        out_length: usize,
    ) -> u64;
    fn dozhumek_preview(
        table: *const u64,
        table_length: usize,
        old: *const u64,
        old_length: usize,
        wanted: u64,
        new: *mut u64,
        new_length: usize,
        out: *mut u64,
        out_length: usize,
    ) -> u64;
    fn dozhumek_save(
        table: *const u64,
        table_length: usize,
        state: *const u64,
        state_length: usize,
        buffer: *mut u8,
        buffer_length: usize,
        out: *mut u64,
        out_length: usize,
    ) -> u64;
    fn dozhumek_sheet(
        table: *const u64,
        table_length: usize,
        state: *const u64,
        state_length: usize,
        outcome: *const u64,
        outcome_length: usize,
        first: u64,
        second: u64,
        third: u64,
        buffer: *mut u8,
        buffer_length: usize,
        out: *mut u64,
        out_length: usize,
    ) -> u64;
}

/// The table at the start of a stream, loaded into the words of a table and of a state. Written into `out`, as far as
/// it has room, are the number, which is the answer too, and the position.
pub fn load_into(stream: &[u8], table: &mut [u64], state: &mut [u64], out: &mut [u64]) -> u64 {
    // SAFETY: the slices are whole, and those that are written overlap no other, by their types.
    unsafe {
        dozhumek_load(
            stream.as_ptr(),
            stream.len(),
            table.as_mut_ptr(),
            table.len(),
            state.as_mut_ptr(),
            state.len(),
            out.as_mut_ptr(),
            out.len(),
        )
    }
}

/// An exported call on a table, an old state and a wanted step, into a new state and an answer.
type Exported =
    unsafe extern "C" fn(*const u64, usize, *const u64, usize, u64, *mut u64, usize, *mut u64, usize) -> u64;

/// Such a call on slices.
fn made(call: Exported, table: &[u64], old: &[u64], wanted: u64, new: &mut [u64], out: &mut [u64]) -> u64 {
    // SAFETY: the slices are whole, and those that are written overlap no other, by their types.
    unsafe {
        call(
            table.as_ptr(),
            table.len(),
            old.as_ptr(),
            old.len(),
            wanted,
            new.as_mut_ptr(),
            new.len(),
            out.as_mut_ptr(),
            out.len(),
        )
    }
}

/// One advance of the model of a table's and an old state's words, by at most `wanted`, into the words of a new state.
/// Written into `out`, as far as it has room, are the number, which is the answer too, step, rounds, revisions and last
/// ceiling.
pub fn advance_into(table: &[u64], old: &[u64], wanted: u64, new: &mut [u64], out: &mut [u64]) -> u64 {
    made(dozhumek_advance, table, old, wanted, new, out)
}

/// One preview: what `advance_into` answers for the same words and the same wanted step, into `out`. Where the words
/// spell a model and there is room for a state of it, `new` holds the state of the model that is then answered: that of
/// the new point where the number is 0, and else the old one again.
pub fn preview_into(table: &[u64], old: &[u64], wanted: u64, new: &mut [u64], out: &mut [u64]) -> u64 {
    made(dozhumek_preview, table, old, wanted, new, out)
}

/// The table of the model of these words, saved as bytes at the front of a buffer. Written into `out`, as far as it has
/// room, are the number, which is the answer too, and the length: with number 0 that of the bytes, with 25 that of the
/// buffer needed, else 0.
pub fn save_into(table: &[u64], state: &[u64], buffer: &mut [u8], out: &mut [u64]) -> u64 {
    // SAFETY: the slices are whole, and those that are written overlap no other, by their types.
    unsafe {
        dozhumek_save(
            table.as_ptr(),
            table.len(),
            state.as_ptr(),
            state.len(),
            buffer.as_mut_ptr(),
            buffer.len(),
            out.as_mut_ptr(),
            out.len(),
        )
    }
}

/// The sheet's line of an answer, printed at the front of a buffer: `table` and `state` are the words of the answer's
/// model, `outcome` those that the advance or the preview wrote into its `out`, any numbers, and `choice` the parts
/// whose outputs are shown. Fewer than five words of `outcome` spell no answer, and the number is 24. Written into
/// `out`, as far as it has room, are the number, which is the answer too, and the length: with number 0 and with 25
/// that of a line, else 0.
pub fn sheet_into(
    table: &[u64],
    state: &[u64],
    outcome: &[u64],
    choice: [u64; 3],
    buffer: &mut [u8],
    out: &mut [u64],
) -> u64 {
    let [first, second, third] = choice;
    // SAFETY: the slices are whole, and those that are written overlap no other, by their types.
    unsafe {
        dozhumek_sheet(
            table.as_ptr(),
            table.len(),
            state.as_ptr(),
            state.len(),
            outcome.as_ptr(),
            outcome.len(),
            first,
            second,
            third,
            buffer.as_mut_ptr(),
            buffer.len(),
            out.as_mut_ptr(),
            out.len(),
        )
    }
}
