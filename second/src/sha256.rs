//! SHA-256 as FIPS 180-4 has it, for messages of any length. The constants are computed from
//! their rule when the program is compiled, so no typed table can be wrong in both programs.

/// The first 64 primes, by trial division.
const fn primes() -> [u128; 64] {
    let mut found = [0; 64];
    let mut count = 0;
    let mut candidate = 2;
    while count < 64 {
        let mut divisor = 2;
        while divisor * divisor <= candidate && candidate % divisor != 0 {
            divisor += 1;
        }
        if divisor * divisor > candidate {
            found[count] = candidate;
            count += 1;
        }
        candidate += 1;
    }
    found
}

/// The first 32 bits of the fractional part of a root of a prime: the low 32 bits of the largest
/// r with r^degree <= prime * 2^(32 * degree), found bit by bit. The roots wanted are below 8, so
/// r is below 2^35 and no power overflows.
const fn root_fraction(prime: u128, degree: u32) -> u32 {
    let scaled = prime << (32 * degree);
    let mut root: u128 = 0;
    let mut bit: u128 = 1 << 34;
    while bit > 0 {
        if (root + bit).pow(degree) <= scaled {
            root += bit;
        }
        bit >>= 1;
    }
    root as u32
}

/// The fractions of the roots of the first N primes.
const fn root_fractions<const N: usize>(degree: u32) -> [u32; N] {
    let primes = primes();
    let mut words = [0; N];
    let mut i = 0;
    while i < N {
        words[i] = root_fraction(primes[i], degree);
        i += 1;
    }
    words
}

/// Section 4.2.2: the 64 constants, from the cube roots.
static K: [u32; 64] = root_fractions(3);

/// Section 5.3.3: the initial hash value, from the square roots.
pub const INITIAL: [u32; 8] = root_fractions(2);

// Section 4.1.2: the six functions.

fn ch(x: u32, y: u32, z: u32) -> u32 {
    (x & y) ^ (!x & z)
}

fn maj(x: u32, y: u32, z: u32) -> u32 {
    (x & y) ^ (x & z) ^ (y & z)
}

fn upper_sigma0(x: u32) -> u32 {
    x.rotate_right(2) ^ x.rotate_right(13) ^ x.rotate_right(22)
}

fn upper_sigma1(x: u32) -> u32 {
    x.rotate_right(6) ^ x.rotate_right(11) ^ x.rotate_right(25)
}

fn lower_sigma0(x: u32) -> u32 {
    x.rotate_right(7) ^ x.rotate_right(18) ^ (x >> 3)
}

fn lower_sigma1(x: u32) -> u32 {
    x.rotate_right(17) ^ x.rotate_right(19) ^ (x >> 10)
}

/// Section 6.2.2, step 1: the message schedule of a block.
fn schedule(m: &[u32; 16]) -> [u32; 64] {
    let mut w = [0; 64];
    w[..16].copy_from_slice(m);
    for t in 16..64 {
        w[t] = lower_sigma1(w[t - 2])
            .wrapping_add(w[t - 7])
            .wrapping_add(lower_sigma0(w[t - 15]))
            .wrapping_add(w[t - 16]);
    }
    w
}

/// Section 6.2.2, steps 1 to 4: the chaining words after one more block.
pub fn compress(chain: &[u32; 8], m: &[u32; 16]) -> [u32; 8] {
    let w = schedule(m);
    let [mut a, mut b, mut c, mut d, mut e, mut f, mut g, mut h] = *chain;
    for t in 0..64 {
        let t1 = h
            .wrapping_add(upper_sigma1(e))
            .wrapping_add(ch(e, f, g))
            .wrapping_add(K[t])
            .wrapping_add(w[t]);
        let t2 = upper_sigma0(a).wrapping_add(maj(a, b, c));
        h = g;
        g = f;
        f = e;
        e = d.wrapping_add(t1);
        d = c;
        c = b;
        b = a;
        a = t1.wrapping_add(t2);
    }
    let mut next = [a, b, c, d, e, f, g, h];
    for (word, before) in next.iter_mut().zip(chain) {
        *word = word.wrapping_add(*before);
    }
    next
}

/// Section 5.1.1: the message, a one bit, zeros, and the message's length in bits in 8 bytes.
pub fn pad(message: &[u8]) -> Vec<u8> {
    let mut padded = message.to_vec();
    padded.push(0x80);
    while padded.len() % 64 != 56 {
        padded.push(0);
    }
    let bits = 8 * message.len() as u64;
    padded.extend_from_slice(&bits.to_be_bytes());
    padded
}

/// Section 5.2.1: 4 * N bytes as N words, high byte first.
pub fn words<const N: usize>(bytes: &[u8]) -> [u32; N] {
    let mut words = [0; N];
    for (word, four) in words.iter_mut().zip(bytes.chunks_exact(4)) {
        *word = u32::from_be_bytes([four[0], four[1], four[2], four[3]]);
    }
    words
}

/// The 32 bytes of the chaining words, high byte first.
pub fn bytes(chain: &[u32; 8]) -> [u8; 32] {
    let mut bytes = [0; 32];
    for (four, word) in bytes.chunks_exact_mut(4).zip(chain) {
        four.copy_from_slice(&word.to_be_bytes());
    }
    bytes
}

/// The digest of a message: its padded blocks, one after the other, from the initial hash value.
pub fn digest(message: &[u8]) -> [u8; 32] {
    let mut chain = INITIAL;
    for block in pad(message).chunks_exact(64) {
        chain = compress(&chain, &words(block));
    }
    bytes(&chain)
}
