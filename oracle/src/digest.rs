//! SHA-256 (FIPS 180-4), by which build.rs knows the source.

/// The digest of some bytes, in hexadecimal digits.
pub fn sha256(bytes: &[u8]) -> String {
    // The first 32 bits behind the point, of the square and cube roots of primes.
    let primes = (2u128..).filter(|n| (2..*n).all(|d| n % d != 0));
    let primes: Vec<u128> = primes.take(64).collect();
    let roots = |shift, power| primes.iter().map(move |p| root(p << shift, power) as u32);
    let constants: Vec<u32> = roots(96, 3).collect();
    let mut state = [0; 8];
    for (word, first) in state.iter_mut().zip(roots(64, 2)) {
        *word = first;
    }

    let mut padded = bytes.to_vec();
    padded.push(0x80);
    padded.resize((padded.len() + 8).next_multiple_of(64) - 8, 0);
    padded.extend((8 * bytes.len() as u64).to_be_bytes());
    for block in padded.chunks(64) {
        take_block(&mut state, &constants, block);
    }
    state.map(|word| format!("{word:08x}")).concat()
}

/// The largest number whose power is at most `n`.
fn root(n: u128, power: u32) -> u128 {
    (0..40).rev().fold(0, |found, bit| {
        let next = found | 1 << bit;
        if next.pow(power) <= n { next } else { found }
    })
}

fn take_block(state: &mut [u32; 8], constants: &[u32], block: &[u8]) {
    let words = block.chunks(4).map(|b| [b[0], b[1], b[2], b[3]]);
    let mut words: Vec<u32> = words.map(u32::from_be_bytes).collect();
    for i in 16..64 {
        let (x, y) = (words[i - 15], words[i - 2]);
        let x = x.rotate_right(7) ^ x.rotate_right(18) ^ (x >> 3);
        let y = y.rotate_right(17) ^ y.rotate_right(19) ^ (y >> 10);
        words.push(sum(&[words[i - 16], x, words[i - 7], y]));
    }
    let mut turned = *state;
    for (&constant, word) in constants.iter().zip(words) {
        let [a, b, c, d, e, f, g, h] = turned;
        let x = e.rotate_right(6) ^ e.rotate_right(11) ^ e.rotate_right(25);
        let x = sum(&[h, x, (e & f) ^ (!e & g), constant, word]);
        let y = a.rotate_right(2) ^ a.rotate_right(13) ^ a.rotate_right(22);
        let y = sum(&[y, (a & b) ^ (a & c) ^ (b & c)]);
        turned = [sum(&[x, y]), a, b, c, sum(&[d, x]), e, f, g];
    }
    for (word, more) in state.iter_mut().zip(turned) {
        *word = sum(&[*word, more]);
    }
}

/// The sum modulo 2^32.
fn sum(words: &[u32]) -> u32 {
    words.iter().fold(0, |sum, word| sum.wrapping_add(*word))
}

#[cfg(test)]
mod tests {
    use super::sha256;

    /// Messages of the standard's examples, and lengths around a block's end.
    #[test]
    fn known_digests() {
        for (message, digest) in [
            (
                b"".to_vec(),
                "e3b0c44298fc1c149afbf4c8996fb92427ae41e4649b934ca495991b7852b855",
            ),
            (
                b"abc".to_vec(),
                "ba7816bf8f01cfea414140de5dae2223b00361a396177a9cb410ff61f20015ad",
            ),
            (
                b"abcdbcdecdefdefgefghfghighijhijkijkljklmklmnlmnomnopnopq".to_vec(),
                "248d6a61d20638b8e5c026930c3e6039a33ce45964ff2167f6ecedd419db06c1",
            ),
            (
                vec![b'a'; 55],
                "9f4390f8d30c2dd92ec9f095b65e2b9ae9b0a925a5258e241c9f1e910f734318",
            ),
            (
                vec![b'a'; 64],
                "ffe054fe7ae0cb6dc65c3af9b61d5209f439851db43d0ba5997337df154668eb",
            ),
            (
                vec![b'a'; 1000],
                "41edece42d63e8d9bf515a9ba6932e1c20cbc9f5a5d134645adb5db1b9737ea3",
            ),
        ] {
            assert_eq!(sha256(&message), digest, "{} bytes", message.len());
        }
    }
}
