//! Storage kept by bit columns, from the ticket's text alone: words and bytes are written out as texts of binary digits, one below
//! the other, and read by columns. The order of the tests is the ticket's, with a width that is none first (31).

/// How many groups of eight so many words have.
pub fn groups(words: usize) -> usize {
    (0..).find(|groups| 8 * groups >= words).unwrap()
}
/// Texts of equal length below each other, read by columns.
fn columns(lines: &[String]) -> Vec<String> {
    let length = lines.first().map_or(0, |line| line.len());
    (0..length).map(|place| lines.iter().map(|line| line.chars().nth(place).unwrap()).collect()).collect()
}
fn number(digits: &str) -> u64 {
    u64::from_str_radix(digits, 2).unwrap()
}
fn is_width(b: u64) -> bool {
    [36, 48].contains(&b)
}

/// The bytes of words, where there is room for so many.
pub fn save(b: u64, words: &[u64], room: usize) -> Result<Vec<u8>, u64> {
    if !is_width(b) {
        return Err(31);
    }
    let mut lines: Vec<String> = words.iter().map(|word| format!("{word:0width$b}", width = b as usize)).collect();
    if lines.iter().any(|line| line.len() as u64 > b) {
        return Err(33);
    }
    lines.resize(8 * groups(words.len()), "0".repeat(b as usize));
    let bytes: Vec<u8> = lines.chunks(8).flat_map(columns).map(|digits| number(&digits) as u8).collect();
    if bytes.len() > room {
        Err(35)
    } else {
        Ok(bytes)
    }
}
/// The n words of bytes, where there is room for so many.
pub fn load(b: u64, bytes: &[u8], n: usize, room: usize) -> Result<Vec<u64>, u64> {
    if !is_width(b) {
        return Err(31);
    }
    // counted in 128 bits: n may be any number
    if bytes.len() as u128 != b as u128 * ((n as u128 + 7) / 8) {
        return Err(34);
    }
    let lines: Vec<String> = bytes.iter().map(|byte| format!("{byte:08b}")).collect();
    let mut words: Vec<u64> = lines.chunks(b as usize).flat_map(columns).map(|digits| number(&digits)).collect();
    if words.drain(n..).any(|fill| fill != 0) {
        return Err(34);
    }
    if n > room {
        Err(35)
    } else {
        Ok(words)
    }
}
