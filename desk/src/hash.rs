//! SHA-256 (FIPS 180-4), to name the files that a report is made of.

/// The first 32 bits of the fractional parts of the roots of the first primes: square roots of 8, cube roots of 64.
fn constants() -> ([u32; 8], [u32; 64]) {
    let mut primes = (2u64..).filter(|p| (2..*p).take_while(|d| d * d <= *p).all(|d| p % d != 0));
    let primes: [u64; 64] = std::array::from_fn(|_| primes.next().unwrap_or(0));
    let square = |p: u64| root(u128::from(p) << 64, 2) as u32;
    let cube = |p: u64| root(u128::from(p) << 96, 3) as u32;
    (std::array::from_fn(|k| square(primes[k])), primes.map(cube))
}

/// The whole part of a root of a number below 2^105, for the degrees 2 and 3.
fn root(number: u128, degree: u32) -> u128 {
    let (mut low, mut high) = (0u128, 1u128 << 37);
    while high - low > 1 {
        let middle = (low + high) / 2;
        if middle.pow(degree) <= number {
            low = middle;
        } else {
            high = middle;
        }
    }
    low
}

/// The 64 words of a block's schedule.
fn schedule(block: &[u8]) -> [u32; 64] {
    let mut words = [0u32; 64];
    for (k, bytes) in block.chunks(4).enumerate() {
        words[k] = bytes.iter().fold(0, |word, &byte| word << 8 | u32::from(byte));
    }
    for k in 16..64 {
        let (a, b) = (words[k - 15], words[k - 2]);
        let first = a.rotate_right(7) ^ a.rotate_right(18) ^ a >> 3;
        let second = b.rotate_right(17) ^ b.rotate_right(19) ^ b >> 10;
        words[k] = words[k - 16].wrapping_add(first).wrapping_add(words[k - 7]).wrapping_add(second);
    }
    words
}

/// The state after a block of 64 bytes.
fn compress(state: &mut [u32; 8], block: &[u8], round: &[u32; 64]) {
    let words = schedule(block);
    let mut v = *state;
    for k in 0..64 {
        let [a, b, c, _, e, f, g, h] = v;
        let choice = (e & f) ^ (!e & g);
        let majority = (a & b) ^ (a & c) ^ (b & c);
        let s0 = a.rotate_right(2) ^ a.rotate_right(13) ^ a.rotate_right(22);
        let s1 = e.rotate_right(6) ^ e.rotate_right(11) ^ e.rotate_right(25);
        let one = h.wrapping_add(s1).wrapping_add(choice).wrapping_add(round[k]).wrapping_add(words[k]);
        v.rotate_right(1);
        v[0] = one.wrapping_add(s0).wrapping_add(majority);
        v[4] = v[4].wrapping_add(one);
    }
    for (word, value) in state.iter_mut().zip(v) {
        *word = word.wrapping_add(value);
    }
}

/// The SHA-256 of some bytes, in hexadecimal digits.
pub fn sha256(bytes: &[u8]) -> String {
    let (mut state, round) = constants();
    let mut padded = bytes.to_vec();
    padded.push(0x80);
    padded.resize((padded.len() + 8).next_multiple_of(64) - 8, 0);
    padded.extend((bytes.len() as u64 * 8).to_be_bytes());
    for block in padded.chunks(64) {
        compress(&mut state, block, &round);
    }
    state.iter().map(|word| format!("{word:08x}")).collect()
}
