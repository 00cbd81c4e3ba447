//! SHA-256 as FIPS 180-4 gives it, so that no tool is needed.

/// The digest of some bytes as 64 hexadecimal digits.
pub fn digest(bytes: &[u8]) -> String {
    let constants = roots(64, 3);
    let mut state = roots(8, 2);
    for block in padded(bytes).chunks(64) {
        let after = rounds(&state, &schedule(block), &constants);
        for (word, after) in state.iter_mut().zip(after) {
            *word = word.wrapping_add(after);
        }
    }
    state.iter().map(|word| format!("{word:08x}")).collect()
}

/// The first 32 bits behind the point of the roots of the first primes.
fn roots(count: usize, degree: u32) -> Vec<u32> {
    let is_prime = |number: &u128| (2..*number).all(|divisor| !number.is_multiple_of(divisor));
    let primes = (2..).filter(is_prime).take(count);
    let bits = |prime: u128| whole_root(prime << (32 * degree), degree) as u32;
    primes.map(bits).collect()
}

/// The largest whole number whose power does not pass a number.
fn whole_root(number: u128, degree: u32) -> u128 {
    let mut root: u128 = 0;
    for bit in (0..36).rev() {
        let larger = root | 1 << bit;
        if larger.pow(degree) <= number {
            root = larger;
        }
    }
    root
}

/// A one bit, zeros to 8 bytes before the end of a block, and how many bits there were.
fn padded(bytes: &[u8]) -> Vec<u8> {
    let mut padded = bytes.to_vec();
    padded.push(0x80);
    while padded.len() % 64 != 56 {
        padded.push(0);
    }
    padded.extend((8 * bytes.len() as u64).to_be_bytes());
    padded
}

/// The 64 words that follow from a block of 16.
fn schedule(block: &[u8]) -> Vec<u32> {
    let word = |bytes: &[u8]| {
        bytes
            .iter()
            .fold(0, |word, byte| word << 8 | u32::from(*byte))
    };
    let mut words: Vec<u32> = block.chunks(4).map(word).collect();
    for at in 16..64 {
        let (early, late) = (words[at - 15], words[at - 2]);
        let early = early.rotate_right(7) ^ early.rotate_right(18) ^ early >> 3;
        let late = late.rotate_right(17) ^ late.rotate_right(19) ^ late >> 10;
        words.push(sum(&[words[at - 16], early, words[at - 7], late]));
    }
    words
}

fn rounds(state: &[u32], words: &[u32], constants: &[u32]) -> [u32; 8] {
    let mut letters: [u32; 8] = state.try_into().expect("the state is eight words");
    for (word, constant) in words.iter().zip(constants) {
        let [a, b, c, d, e, f, g, h] = letters;
        let choice = e & f ^ !e & g;
        let majority = a & b ^ a & c ^ b & c;
        let turned_e = e.rotate_right(6) ^ e.rotate_right(11) ^ e.rotate_right(25);
        let turned_a = a.rotate_right(2) ^ a.rotate_right(13) ^ a.rotate_right(22);
        let first = sum(&[h, turned_e, choice, *constant, *word]);
        let second = sum(&[turned_a, majority]);
        letters = [sum(&[first, second]), a, b, c, sum(&[d, first]), e, f, g];
    }
    letters
}

/// The sum modulo 2^32.
fn sum(words: &[u32]) -> u32 {
    words.iter().fold(0, |sum, word| sum.wrapping_add(*word))
}
