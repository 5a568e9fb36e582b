//! Words saved and loaded by bit columns, 4,096 of them at width 36, by libplayer.a and by plain Rust with the same checks.
//!   columns library|plain save|load CALLS   so many calls, and a checksum over what they leave
#[path = "../host/l6.rs"]
mod l6;

const WIDTH: usize = 36;

/// Eight words as bytes, one for each bit place.
fn save_group(words: &[u64; 8], bytes: &mut [u8]) {
    for (place, byte) in bytes.iter_mut().enumerate() {
        *byte = words.iter().fold(0, |made, word| made << 1 | (word >> (WIDTH - 1 - place)) as u8 & 1);
    }
}
fn save(words: &[u64], bytes: &mut [u8]) -> Option<usize> {
    let count = words.len().div_ceil(8) * WIDTH;
    if words.iter().any(|word| word >> WIDTH != 0) || bytes.len() < count {
        return None;
    }
    for (words, bytes) in words.chunks(8).zip(bytes.chunks_exact_mut(WIDTH)) {
        let mut group = [0; 8];
        group[..words.len()].copy_from_slice(words);
        save_group(&group, bytes);
    }
    Some(count)
}
/// Bytes, one for each bit place, as eight words.
fn load_group(bytes: &[u8]) -> [u64; 8] {
    let mut words = [0; 8];
    for byte in bytes {
        for (i, word) in words.iter_mut().enumerate() {
            *word = *word << 1 | (byte >> (7 - i) & 1) as u64
        }
    }
    words
}
fn load(bytes: &[u8], n: usize, words: &mut [u64]) -> Option<()> {
    if bytes.len() != n.div_ceil(8) * WIDTH {
        return None;
    }
    if n % 8 != 0 && load_group(&bytes[bytes.len() - WIDTH..])[n % 8..].iter().any(|fill| *fill != 0) {
        return None;
    }
    for (words, bytes) in words.get_mut(..n)?.chunks_mut(8).zip(bytes.chunks_exact(WIDTH)) {
        words.copy_from_slice(&load_group(bytes)[..words.len()]);
    }
    Some(())
}

/// The checksum after one more number: a shift register of 64 bits.
fn fold(sum: u64, number: u64) -> u64 {
    let a = sum ^ number;
    let b = a ^ (a << 13);
    let c = b ^ (b >> 7);
    c ^ (c << 17)
}

fn main() {
    let arguments: Vec<String> = std::env::args().skip(1).collect();
    let [engine, mode, calls] = &arguments[..] else { return eprintln!("usage: columns library|plain save|load CALLS") };
    let (library, saves) = (engine == "library", mode == "save");
    let mut state = 1966;
    let mut words: Vec<u64> = (0..4096)
        .map(|_| {
            state = fold(state, 1);
            state >> (64 - WIDTH)
        })
        .collect();
    let mut bytes = vec![0; l6::saved_length(WIDTH as u64, words.len())];
    save(&words, &mut bytes).unwrap();
    for call in 0..calls.parse().unwrap_or(0) {
        // what is read changes from call to call, so that no call can be left out
        let i = call % 4096;
        (words[i], bytes[i]) = ((words[i] + 1) % (1 << WIDTH), bytes[i] ^ 1);
        let n = words.len();
        match (library, saves) {
            (true, true) => assert!(l6::save(WIDTH as u64, &words, &mut bytes).is_ok()),
            (false, true) => assert!(save(&words, &mut bytes).is_some()),
            (true, false) => assert!(l6::load(WIDTH as u64, &bytes, n, &mut words).is_ok()),
            (false, false) => assert!(load(&bytes, n, &mut words).is_some()),
        }
    }
    println!("{}", bytes.iter().map(|&byte| byte as u64).chain(words).fold(1, fold));
}
