//! XXH64 of texts: of labels, and of the files of a store. Pieces and checksum blocks are compared by the
//! proved calls.

const P1: u64 = 0x9E37_79B1_85EB_CA87;
const P2: u64 = 0xC2B2_AE3D_27D4_EB4F;
const P3: u64 = 0x1656_67B1_9E37_79F9;
const P4: u64 = 0x85EB_CA77_C2B2_AE63;
const P5: u64 = 0x27D4_EB2F_1656_67C5;

fn word(bytes: &[u8]) -> u64 {
    bytes.iter().rev().fold(0, |word, byte| word << 8 | u64::from(*byte))
}

fn round(lane: u64, word: u64) -> u64 {
    lane.wrapping_add(word.wrapping_mul(P2)).rotate_left(31).wrapping_mul(P1)
}

/// The lanes of the whole stretches of 32 bytes, joined.
fn lanes(bytes: &[u8], seed: u64) -> u64 {
    let (first, second) = (seed.wrapping_add(P1).wrapping_add(P2), seed.wrapping_add(P2));
    let mut lanes = [first, second, seed, seed.wrapping_sub(P1)];
    for stretch in bytes.chunks_exact(32) {
        for (lane, eight) in lanes.iter_mut().zip(stretch.chunks_exact(8)) {
            *lane = round(*lane, u64::from_le_bytes(eight.try_into().unwrap_or([0; 8])));
        }
    }
    let turned = lanes.iter().zip([1, 7, 12, 18]).map(|(lane, turn)| lane.rotate_left(turn));
    let sum = turned.fold(0, u64::wrapping_add);
    let join = |sum: u64, lane: &u64| (sum ^ round(0, *lane)).wrapping_mul(P1).wrapping_add(P4);
    lanes.iter().fold(sum, join)
}

/// The hash of bytes with a seed.
pub fn hash(bytes: &[u8], seed: u64) -> u64 {
    let begun = if bytes.len() < 32 { seed.wrapping_add(P5) } else { lanes(bytes, seed) };
    let mut sum = begun.wrapping_add(bytes.len() as u64);
    let rest = &bytes[bytes.len() / 32 * 32..];
    let eights = rest.chunks_exact(8);
    let fours = eights.remainder().chunks_exact(4);
    let ones = fours.remainder();
    for eight in eights {
        sum = (sum ^ round(0, word(eight))).rotate_left(27).wrapping_mul(P1).wrapping_add(P4);
    }
    for four in fours {
        let mixed = sum ^ word(four).wrapping_mul(P1);
        sum = mixed.rotate_left(23).wrapping_mul(P2).wrapping_add(P3);
    }
    for one in ones {
        sum = (sum ^ u64::from(*one).wrapping_mul(P5)).rotate_left(11).wrapping_mul(P1);
    }
    sum = (sum ^ sum >> 33).wrapping_mul(P2);
    sum = (sum ^ sum >> 29).wrapping_mul(P3);
    sum ^ sum >> 32
}

#[cfg(test)]
mod tests {
    use super::hash;

    #[test]
    fn known_sums() {
        assert_eq!(hash(b"", 0), 0xEF46_DB37_51D8_E999);
        assert_eq!(hash(b"a", 0), 0xD24E_C4F1_A98C_6E5B);
        assert_eq!(hash(b"abc", 0), 0x44BC_2CF5_AD77_0999);
        let text = b"Nobody inspects the spammish repetition";
        assert_eq!(hash(text, 0), 0xFBCE_A83C_8A37_8BF1);
        let (word, seed) = (0x9E37_79B1_u32, 0x9E37_79B1);
        assert_eq!(hash(&word.to_le_bytes()[..0], seed), 0xAC75_FDA2_929B_17EF);
    }

    #[test]
    fn every_length_and_byte_counts() {
        let bytes: Vec<u8> = (0..100).collect();
        let mut seen = std::collections::HashSet::new();
        for len in 0..100 {
            assert!(seen.insert(hash(&bytes[..len], 7)));
            for place in 0..len {
                let mut changed = bytes[..len].to_vec();
                changed[place] ^= 0x80;
                assert!(seen.insert(hash(&changed, 7)), "length {len}, byte {place}");
            }
        }
    }
}
