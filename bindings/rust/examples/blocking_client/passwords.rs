//! The answers of logins by mysql_native_password and caching_sha2_password, as docs/LOGGING_IN.md
//! has them. The digests are written by hand, as this crate has no dependency: take those of the
//! crates sha1 and sha2.
//!
//! MySQL: "Native Authentication", "Caching_sha2_password information"; MariaDB: "Authentication
//! Plugin
//! - mysql_native_password".

/// A digest by SHA-1.
pub type Digest = [u8; 20];

/// What a client knows of a password, of which no byte is sent as it is.
pub enum Secret {
    /// The password.
    Text(Vec<u8>),
    /// Its digest by SHA-1, which mysql_native_password alone can do with.
    Sha1(Digest),
}

impl Secret {
    /// The password of the environment variable MYSQL_PASSWORD, or that whose digest
    /// MYSQL_PASSWORD_SHA1 has as 40 hexadecimal digits. None, if neither is there, or no bytes are
    /// in the first.
    pub fn of_environment() -> Result<Option<Secret>, &'static str> {
        if let Ok(digits) = std::env::var("MYSQL_PASSWORD_SHA1") {
            let digest = digest_of(&digits).ok_or("the password's digest isn't of 40 digits")?;
            return Ok(Some(Secret::Sha1(digest)));
        }
        let password = std::env::var("MYSQL_PASSWORD").unwrap_or_default();
        Ok((!password.is_empty()).then(|| Secret::Text(password.into_bytes())))
    }

    /// What a client answers to a nonce by a plugin; none by one that isn't known here, or that the
    /// digest won't do for.
    pub fn answer(&self, plugin: &[u8], nonce: &[u8]) -> Option<Vec<u8>> {
        match (plugin, self) {
            (b"mysql_native_password", Secret::Text(password)) => {
                Some(answer(&sha1(password), nonce).to_vec())
            }
            (b"mysql_native_password", Secret::Sha1(digest)) => {
                Some(answer(digest, nonce).to_vec())
            }
            (b"caching_sha2_password", Secret::Text(password)) => {
                Some(answer_by_sha256(&sha256(password), nonce).to_vec())
            }
            _ => None,
        }
    }
}

/// The digest that 40 hexadecimal digits are.
pub fn digest_of(digits: &str) -> Option<Digest> {
    let mut digest = [0; 20];
    if digits.len() != 40 || !digits.bytes().all(|digit| digit.is_ascii_hexdigit()) {
        return None;
    }
    for (number, byte) in digest.iter_mut().enumerate() {
        *byte = u8::from_str_radix(&digits[2 * number..2 * number + 2], 16).ok()?;
    }
    Some(digest)
}

/// What a client answers to a nonce, by the password's digest. It is that digest, scrambled by the
/// nonce and by the digest of the digest, which the server keeps.
pub fn answer(password: &Digest, nonce: &[u8]) -> Digest {
    let scramble = sha1(&[nonce, &sha1(password)].concat());
    let mut answer = *password;
    for (byte, mask) in answer.iter_mut().zip(scramble) {
        *byte ^= mask;
    }
    answer
}

/// The same by SHA-256 for caching_sha2_password, which has the nonce behind the digest's digest.
pub fn answer_by_sha256(password: &[u8; 32], nonce: &[u8]) -> [u8; 32] {
    let scramble = sha256(&[&sha256(password)[..], nonce].concat());
    let mut answer = *password;
    for (byte, mask) in answer.iter_mut().zip(scramble) {
        *byte ^= mask;
    }
    answer
}

/// A message with what follows it in both digests: a bit, zeros, and its length in bits.
fn padded(message: &[u8]) -> Vec<u8> {
    let mut padded = message.to_vec();
    padded.push(0x80);
    while padded.len() % 64 != 56 {
        padded.push(0);
    }
    padded.extend((message.len() as u64 * 8).to_be_bytes());
    padded
}

/// The digest of a message, as RFC 3174 has it.
pub fn sha1(message: &[u8]) -> Digest {
    let padded = padded(message);
    let mut state = [0x67452301, 0xefcdab89, 0x98badcfe, 0x10325476, 0xc3d2e1f0];
    for block in padded.chunks(64) {
        mix(&mut state, block);
    }
    let mut digest = [0; 20];
    for (bytes, word) in digest.chunks_mut(4).zip(state) {
        bytes.copy_from_slice(&word.to_be_bytes());
    }
    digest
}

/// Mixes a block of 64 bytes into the state.
fn mix(state: &mut [u32; 5], block: &[u8]) {
    let mut words = [0u32; 80];
    for (word, bytes) in words.iter_mut().zip(block.chunks(4)) {
        *word = u32::from_be_bytes([bytes[0], bytes[1], bytes[2], bytes[3]]);
    }
    for t in 16..80 {
        words[t] = (words[t - 3] ^ words[t - 8] ^ words[t - 14] ^ words[t - 16]).rotate_left(1);
    }
    let [mut a, mut b, mut c, mut d, mut e] = *state;
    for (t, word) in words.into_iter().enumerate() {
        let (chosen, constant) = match t {
            0..20 => (b & c | !b & d, 0x5a827999),
            20..40 => (b ^ c ^ d, 0x6ed9eba1),
            40..60 => (b & c | b & d | c & d, 0x8f1bbcdc),
            _ => (b ^ c ^ d, 0xca62c1d6u32),
        };
        let sum = a.rotate_left(5).wrapping_add(chosen).wrapping_add(e);
        let next = sum.wrapping_add(constant).wrapping_add(word);
        (a, b, c, d, e) = (next, a, b.rotate_left(30), c, d);
    }
    for (kept, mixed) in state.iter_mut().zip([a, b, c, d, e]) {
        *kept = kept.wrapping_add(mixed);
    }
}

/// The digest of a message by SHA-256, as FIPS 180-4 has it.
pub fn sha256(message: &[u8]) -> [u8; 32] {
    let (mut state, constants) = (roots(8, 2.0), roots(64, 3.0));
    for block in padded(message).chunks(64) {
        mix_by_sha256(&mut state, &constants, block);
    }
    let mut digest = [0; 32];
    for (bytes, word) in digest.chunks_mut(4).zip(state) {
        bytes.copy_from_slice(&word.to_be_bytes());
    }
    digest
}

/// The first 32 bits behind the point of the square or cube roots of the first so many primes.
fn roots(count: usize, root: f64) -> Vec<u32> {
    let is_prime = |number: &u32| (2..*number).all(|divisor| number % divisor != 0);
    let primes = (2..).filter(is_prime).take(count);
    primes
        .map(|prime| (f64::from(prime).powf(1.0 / root).fract() * 4294967296.0) as u32)
        .collect()
}

/// Mixes a block of 64 bytes into the state.
fn mix_by_sha256(state: &mut [u32], constants: &[u32], block: &[u8]) {
    let mut words = [0u32; 64];
    for (word, bytes) in words.iter_mut().zip(block.chunks(4)) {
        *word = u32::from_be_bytes([bytes[0], bytes[1], bytes[2], bytes[3]]);
    }
    for t in 16..64 {
        let (near, far) = (words[t - 15], words[t - 2]);
        let one = near.rotate_right(7) ^ near.rotate_right(18) ^ near >> 3;
        let other = far.rotate_right(17) ^ far.rotate_right(19) ^ far >> 10;
        let sum = words[t - 16].wrapping_add(one).wrapping_add(words[t - 7]);
        words[t] = sum.wrapping_add(other);
    }
    let mut it: Vec<u32> = state.to_vec();
    for (word, constant) in words.into_iter().zip(constants) {
        let (a, e) = (it[0], it[4]);
        let of_e = e.rotate_right(6) ^ e.rotate_right(11) ^ e.rotate_right(25);
        let of_a = a.rotate_right(2) ^ a.rotate_right(13) ^ a.rotate_right(22);
        let chosen = e & it[5] ^ !e & it[6];
        let most = a & it[1] ^ a & it[2] ^ it[1] & it[2];
        let sum = it[7].wrapping_add(of_e).wrapping_add(chosen);
        let first = sum.wrapping_add(*constant).wrapping_add(word);
        it.rotate_right(1);
        it[0] = first.wrapping_add(of_a).wrapping_add(most);
        it[4] = it[4].wrapping_add(first);
    }
    for (kept, mixed) in state.iter_mut().zip(it) {
        *kept = kept.wrapping_add(mixed);
    }
}
