//! Reads hexadecimal text: digits in either case, the two digits of a byte together, with blanks and `#` comments
//! between.

/// The bytes that a text spells, and the positions at which another line begins, each with that line.
pub struct Spelled {
    pub bytes: Vec<u8>,
    pub lines: Vec<(usize, usize)>,
}

/// The bytes that a text spells, or the line that spells none and why.
pub fn read(text: &[u8]) -> Result<Spelled, String> {
    let mut spelled = Spelled { bytes: Vec::new(), lines: Vec::new() };
    for (number, line) in text.split(|&byte| byte == b'\n').enumerate() {
        let digits = line.split(|&byte| byte == b'#').next().unwrap_or_default();
        let position = spelled.bytes.len();
        spell(digits, &mut spelled.bytes).map_err(|wrong| format!("line {}: {wrong}", number + 1))?;
        if spelled.bytes.len() > position {
            spelled.lines.push((position, number + 1));
        }
    }
    if spelled.bytes.is_empty() {
        return Err("it spells no bytes".to_string());
    }
    Ok(spelled)
}

/// The bytes of a line without its comment, after those before it.
fn spell(line: &[u8], bytes: &mut Vec<u8>) -> Result<(), &'static str> {
    let blank = |byte: &u8| matches!(byte, b' ' | b'\t' | b'\r');
    if !line.iter().all(|byte| blank(byte) || byte.is_ascii_hexdigit()) {
        return Err("a character that is no hexadecimal digit, blank or # comment");
    }
    for run in line.split(blank) {
        let (pairs, left) = run.as_chunks::<2>();
        if !left.is_empty() {
            return Err("an odd number of hexadecimal digits (a byte is two digits together)");
        }
        bytes.extend(pairs.iter().map(|&[high, low]| 16 * digit(high) + digit(low)));
    }
    Ok(())
}

/// What a hexadecimal digit counts.
fn digit(character: u8) -> u8 {
    char::from(character).to_digit(16).unwrap_or_default() as u8
}
