//! SHA-256 as FIPS 180-4 has it, of bytes that come in parts.

/// The first 32 bits of the fractional parts of the square roots of the first 8 primes.
const START: [u32; 8] = [0x6a09e667, 0xbb67ae85, 0x3c6ef372, 0xa54ff53a, 0x510e527f, 0x9b05688c, 0x1f83d9ab, 0x5be0cd19];
/// The first 32 bits of the fractional parts of the cube roots of the first 64 primes.
const ROUNDS: [u32; 64] = [
    0x428a2f98, 0x71374491, 0xb5c0fbcf, 0xe9b5dba5, 0x3956c25b, 0x59f111f1, 0x923f82a4, 0xab1c5ed5, 0xd807aa98, 0x12835b01, 0x243185be, 0x550c7dc3,
    0x72be5d74, 0x80deb1fe, 0x9bdc06a7, 0xc19bf174, 0xe49b69c1, 0xefbe4786, 0x0fc19dc6, 0x240ca1cc, 0x2de92c6f, 0x4a7484aa, 0x5cb0a9dc, 0x76f988da,
    0x983e5152, 0xa831c66d, 0xb00327c8, 0xbf597fc7, 0xc6e00bf3, 0xd5a79147, 0x06ca6351, 0x14292967, 0x27b70a85, 0x2e1b2138, 0x4d2c6dfc, 0x53380d13,
    0x650a7354, 0x766a0abb, 0x81c2c92e, 0x92722c85, 0xa2bfe8a1, 0xa81a664b, 0xc24b8b70, 0xc76c51a3, 0xd192e819, 0xd6990624, 0xf40e3585, 0x106aa070,
    0x19a4c116, 0x1e376c08, 0x2748774c, 0x34b0bcb5, 0x391c0cb3, 0x4ed8aa4a, 0x5b9cca4f, 0x682e6ff3, 0x748f82ee, 0x78a5636f, 0x84c87814, 0x8cc70208,
    0x90befffa, 0xa4506ceb, 0xbef9a3f7, 0xc67178f2,
];
const BLOCK: usize = 64;
/// The words of the schedule that are held at once.
const SCHEDULE: usize = 16;
/// Where the last block has its message's length in bits.
const LENGTH_AT: usize = BLOCK - 8;

pub struct Sha256 {
    state: [u32; 8],
    /// The bytes that do not fill a block yet.
    block: [u8; BLOCK],
    length: u64,
}

/// Of no bytes yet.
impl Default for Sha256 {
    fn default() -> Sha256 {
        Sha256 { state: START, block: [0; BLOCK], length: 0 }
    }
}

impl Sha256 {
    pub fn update(&mut self, mut bytes: &[u8]) {
        let filled = self.filled();
        self.length += bytes.len() as u64;
        if filled > 0 {
            let (part, rest) = bytes.split_at(bytes.len().min(BLOCK - filled));
            self.block[filled..filled + part.len()].copy_from_slice(part);
            if filled + part.len() < BLOCK {
                return;
            }
            compress(&mut self.state, &self.block);
            bytes = rest;
        }
        let mut blocks = bytes.chunks_exact(BLOCK);
        for block in &mut blocks {
            compress(&mut self.state, block);
        }
        let rest = blocks.remainder();
        self.block[..rest.len()].copy_from_slice(rest);
    }

    /// The digest, as 64 hexadecimal digits.
    pub fn hexadecimal(mut self) -> String {
        let bits = 8 * self.length;
        self.update(&[0x80]);
        while self.filled() != LENGTH_AT {
            self.update(&[0]);
        }
        self.update(&bits.to_be_bytes());
        self.state.iter().map(|word| format!("{word:08x}")).collect()
    }

    fn filled(&self) -> usize {
        (self.length % BLOCK as u64) as usize
    }
}

/// A round of the standard, by the names that its eight parts have there. All turn by one place from round to round: only these two change, and the
/// next round calls each by the name of the one before it, so that none is moved.
macro_rules! round {
    ($a:ident $b:ident $c:ident $d:ident $e:ident $f:ident $g:ident $h:ident, $constant:expr, $word:expr) => {
        let large1 = $e.rotate_right(6) ^ $e.rotate_right(11) ^ $e.rotate_right(25);
        let choice = $g ^ $e & ($f ^ $g);
        $h = $h.wrapping_add(large1).wrapping_add(choice).wrapping_add($constant).wrapping_add($word);
        $d = $d.wrapping_add($h);
        let large0 = $a.rotate_right(2) ^ $a.rotate_right(13) ^ $a.rotate_right(22);
        let majority = $a & $b | $c & ($a | $b);
        $h = $h.wrapping_add(large0).wrapping_add(majority);
    };
}

/// Takes a block of 64 bytes into the state.
fn compress(state: &mut [u32; 8], block: &[u8]) {
    let mut words = [0; SCHEDULE];
    for (word, bytes) in words.iter_mut().zip(block.chunks_exact(4)) {
        *word = u32::from_be_bytes([bytes[0], bytes[1], bytes[2], bytes[3]]);
    }
    let [mut a, mut b, mut c, mut d, mut e, mut f, mut g, mut h] = *state;
    for (part, constants) in ROUNDS.chunks_exact(SCHEDULE).enumerate() {
        if part > 0 {
            next_words(&mut words);
        }
        for (k, w) in constants.chunks_exact(8).zip(words.chunks_exact(8)) {
            round!(a b c d e f g h, k[0], w[0]);
            round!(h a b c d e f g, k[1], w[1]);
            round!(g h a b c d e f, k[2], w[2]);
            round!(f g h a b c d e, k[3], w[3]);
            round!(e f g h a b c d, k[4], w[4]);
            round!(d e f g h a b c, k[5], w[5]);
            round!(c d e f g h a b, k[6], w[6]);
            round!(b c d e f g h a, k[7], w[7]);
        }
    }
    for (sum, part) in state.iter_mut().zip([a, b, c, d, e, f, g, h]) {
        *sum = sum.wrapping_add(part);
    }
}

/// The next words of the schedule, each in the place of the one that was sixteen before it.
fn next_words(words: &mut [u32; SCHEDULE]) {
    for t in 0..SCHEDULE {
        let (early, late) = (words[(t + 1) % SCHEDULE], words[(t + 14) % SCHEDULE]);
        let small0 = early.rotate_right(7) ^ early.rotate_right(18) ^ early >> 3;
        let small1 = late.rotate_right(17) ^ late.rotate_right(19) ^ late >> 10;
        words[t] = words[t].wrapping_add(small0).wrapping_add(words[(t + 9) % SCHEDULE]).wrapping_add(small1);
    }
}

#[cfg(test)]
mod tests {
    use super::Sha256;

    fn of(parts: &[&[u8]]) -> String {
        let mut hash = Sha256::default();
        parts.iter().for_each(|part| hash.update(part));
        hash.hexadecimal()
    }

    /// The examples of FIPS 180-4, and no bytes.
    #[test]
    fn the_standards_examples() {
        let long = b"abcdbcdecdefdefgefghfghighijhijkijkljklmklmnlmnomnopnopq";
        let longer = b"abcdefghbcdefghicdefghijdefghijkefghijklfghijklmghijklmnhijklmnoijklmnopjklmnopqklmnopqrlmnopqrsmnopqrstnopqrstu";
        assert_eq!(of(&[]), "e3b0c44298fc1c149afbf4c8996fb92427ae41e4649b934ca495991b7852b855");
        assert_eq!(of(&[b"abc"]), "ba7816bf8f01cfea414140de5dae2223b00361a396177a9cb410ff61f20015ad");
        assert_eq!(of(&[long]), "248d6a61d20638b8e5c026930c3e6039a33ce45964ff2167f6ecedd419db06c1");
        assert_eq!(of(&[longer]), "cf5b16a778af8380036ce59e7b0492370b249b11e8f07a51afac45037afee9d1");
        assert_eq!(of(&[[b'a'; 1000].as_slice(); 1000]), "cdc76e5c9914fb9281a1c7e284d73e67f1809a48a497200e046d39ccc7112cd0");
    }

    /// However the bytes come, also where parts end at a block's ends.
    #[test]
    fn parts_of_any_length() {
        let bytes: Vec<u8> = (0..200).map(|at| (7 * at + 3) as u8).collect();
        for length in 0..bytes.len() {
            let whole = of(&[&bytes[..length]]);
            for cut in 0..length {
                assert_eq!(of(&[&bytes[..cut], &bytes[cut..length]]), whole, "{cut} of {length}");
            }
        }
    }
}
