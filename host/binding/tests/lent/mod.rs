//! What a lent buffer holds before it is handed over.
#![allow(dead_code, reason = "each test uses some of it")]

/// Bytes: no two neighbours alike, and none of them text.
pub fn pattern(length: usize) -> Vec<u8> {
    (0..length).map(|i| 0x80 | (i % 127) as u8).collect()
}

/// Values: no two alike, and none of them that of a sheet or an attribute.
pub fn value_pattern(count: usize) -> Vec<u64> {
    (0..count).map(|i| 0xa5a5_a5a5_a5a5_a500 + i as u64).collect()
}

/// `written` at the front of what was there before.
pub fn in_front<T: Copy>(written: &[T], before: &[T]) -> Vec<T> {
    [written, &before[written.len()..]].concat()
}
