//! SHA-256.

/// The first 32 bits of the fractional part of a root of the n-th prime, the square root if `half`,
/// else the cube root.
fn fraction(prime: u64, half: bool) -> u32 {
    let (power, mut root) = (if half { 2 } else { 3 }, 0u128);
    for bit in (0..36).rev() {
        let tried = root | 1 << bit;
        if tried.pow(power) <= u128::from(prime) << (32 * power) {
            root = tried;
        }
    }
    root as u32
}

fn primes(count: usize) -> Vec<u64> {
    let prime = |n: &u64| (2..*n).all(|d| n % d != 0);
    (2..).filter(prime).take(count).collect()
}

/// The sum as hexadecimal digits.
pub fn hex(bytes: &[u8]) -> String {
    let constants: Vec<u32> = primes(64).into_iter().map(|prime| fraction(prime, false)).collect();
    let mut state: Vec<u32> = primes(8).into_iter().map(|prime| fraction(prime, true)).collect();
    let mut message = bytes.to_vec();
    message.push(0x80);
    while message.len() % 64 != 56 {
        message.push(0);
    }
    message.extend((8 * bytes.len() as u64).to_be_bytes());
    for block in message.chunks_exact(64) {
        add_block(&mut state, &constants, block);
    }
    state.iter().map(|word| format!("{word:08x}")).collect()
}

fn add_block(state: &mut [u32], constants: &[u32], block: &[u8]) {
    let word = |four: &[u8]| four.iter().fold(0, |word, byte| word << 8 | u32::from(*byte));
    let mut words: Vec<u32> = block.chunks_exact(4).map(word).collect();
    for i in 16..64 {
        let (a, b) = (words[i - 15], words[i - 2]);
        let a = a.rotate_right(7) ^ a.rotate_right(18) ^ a >> 3;
        let b = b.rotate_right(17) ^ b.rotate_right(19) ^ b >> 10;
        words.push(words[i - 16].wrapping_add(a).wrapping_add(words[i - 7]).wrapping_add(b));
    }
    let mut now = [0; 8];
    now.copy_from_slice(state);
    for (word, constant) in words.iter().zip(constants) {
        now = turned(now, word.wrapping_add(*constant));
    }
    for (whole, part) in state.iter_mut().zip(now) {
        *whole = whole.wrapping_add(part);
    }
}

/// One of the 64 rounds of a block.
fn turned([a, b, c, d, e, f, g, h]: [u32; 8], word: u32) -> [u32; 8] {
    let sum = e.rotate_right(6) ^ e.rotate_right(11) ^ e.rotate_right(25);
    let first = h.wrapping_add(sum).wrapping_add(e & f ^ !e & g).wrapping_add(word);
    let sum = a.rotate_right(2) ^ a.rotate_right(13) ^ a.rotate_right(22);
    let second = sum.wrapping_add(a & b ^ a & c ^ b & c);
    [first.wrapping_add(second), a, b, c, d.wrapping_add(first), e, f, g]
}

#[cfg(test)]
mod tests {
    #[test]
    fn known_sums() {
        let empty = "e3b0c44298fc1c149afbf4c8996fb92427ae41e4649b934ca495991b7852b855";
        let abc = "ba7816bf8f01cfea414140de5dae2223b00361a396177a9cb410ff61f20015ad";
        assert_eq!(super::hex(b""), empty);
        assert_eq!(super::hex(b"abc"), abc);
    }
}
