//! Numbers, types of values, and ranks of strengths.

/// Ranks of strengths.
pub const UNREACHABLE: u8 = 0;
pub const PHANTOM: u8 = 1;
pub const FINAL: u8 = 2;
pub const WEAK: u8 = 3;
pub const SOFT: u8 = 4;
pub const STRONG: u8 = 5;

/// The names of strengths, by rank.
pub const NAMES: [&str; 6] = ["UNREACHABLE", "PHANTOM", "FINAL", "WEAK", "SOFT", "STRONG"];

/// The number in the first four bytes, the highest byte first.
#[inline(always)]
pub fn number(bytes: &[u8]) -> usize {
    u32::from_be_bytes(bytes[..4].try_into().unwrap()) as usize
}

/// The ID in the first bytes. IDs have 4 or 8 of them.
#[inline(always)]
pub fn read_id<const ID: usize>(bytes: &[u8]) -> u64 {
    if ID == 8 {
        u64::from_be_bytes(bytes[..8].try_into().unwrap())
    } else {
        number(bytes) as u64
    }
}

/// Whether values of a type are IDs.
pub fn is_id_type(code: u8) -> bool {
    code == 1 || code == 2
}

/// The bytes of a value of a type.
pub fn value_len(code: u8, id_len: usize) -> usize {
    match code {
        1 | 2 => id_len,
        4 | 8 => 1,
        5 | 9 => 2,
        6 | 10 => 4,
        7 | 11 => 8,
        _ => panic!("no type: {code}"),
    }
}
