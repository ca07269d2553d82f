//! The search for keys that collide in a map of the library under a known seed.

/// The number of keys of six letters.
const KEYS: u32 = 308_915_776;

/// The key of six letters with this index in their order.
fn key(number: u32) -> [u8; 6] {
    let mut left = number;
    let mut key = [b'a'; 6];
    for letter in key.iter_mut().rev() {
        *letter = b'a' + (left % 26) as u8;
        left /= 26;
    }
    key
}

/// The state of the library's hash after a write of at most eight bytes, which the word contains.
fn write(state: u64, word: u64, length: u64) -> u64 {
    let product = u128::from(state ^ word) * u128::from(0x9e37_79b9_7f4a_7c15 ^ (2 * length));
    product as u64 ^ (product >> 64) as u64
}

/// The hash of a key: its bytes, and the byte that ends a text.
fn hash(seeded: u64, key: &[u8; 6]) -> u64 {
    let half = |at: usize| u64::from(u32::from_le_bytes([key[at], key[at + 1], key[at + 2], key[at + 3]]));
    write(write(seeded, half(0) | half(2) << 32, 6), 0x00ff_ffff, 1)
}

/// The members of a dictionary of this number of keys that collide under this seed. In a map of this size they have one tag,
/// and their first groups are neighbours.
pub fn chosen(count: usize, seed: u64) -> String {
    let seeded = write(0x243f_6a88_85a3_08d3, seed, 8);
    let groups = (count as u64 / 9 + 1).next_power_of_two();
    let mask = 0xff00_0000 | (groups - 1) & !31;
    let place = |key: &[u8; 6]| {
        let hash = hash(seeded, key);
        (hash ^ hash >> 32) & mask
    };
    let expected = place(&key(0));
    let keys = (0..KEYS).map(key).filter(|key| place(key) == expected).take(count);
    let keys: Vec<String> = keys.map(|key| String::from_utf8_lossy(&key).into_owned()).collect();
    keys.join(",")
}
