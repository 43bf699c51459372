//! Counting holes in Rust: by the word, and mark by mark. Both trust their caller.

/// The marks of 1 at the columns below w, eight bytes at a time.
pub fn by_word(marks: &[u8], w: usize) -> u64 {
    rows(marks, w, |row| {
        let (words, tail) = row.split_at(w / 64 * 8);
        let whole: u32 = words.chunks_exact(8).map(|bytes| word(bytes).count_ones()).sum();
        let last = tail.iter().rev().fold(0, |word, &byte| word << 8 | u64::from(byte));
        whole + (last & ((1 << (w % 64)) - 1)).count_ones()
    })
}

fn word(bytes: &[u8]) -> u64 {
    u64::from_le_bytes(bytes.try_into().expect("a word has eight bytes"))
}

/// The marks of 1 at the columns below w, one at a time.
pub fn by_mark(marks: &[u8], w: usize) -> u64 {
    rows(marks, w, |row| (0..w).map(|x| u32::from(row[x / 8] >> (x % 8) & 1)).sum())
}

/// The sum of what is counted in each row.
fn rows(marks: &[u8], w: usize, count: impl Fn(&[u8]) -> u32) -> u64 {
    marks.chunks_exact(w.div_ceil(8)).map(|row| u64::from(count(row))).sum()
}
