//! The hash of the examples that log in.

#[path = "../examples/blocking_client/passwords.rs"]
#[allow(dead_code)] // (the words of the environment are the example's alone)
mod passwords;

use passwords::{answer, answer_by_sha256, digest_of, sha1, sha256, Secret};

/// The digits of bytes.
fn hexadecimal(bytes: &[u8]) -> String {
    bytes.iter().map(|byte| format!("{byte:02x}")).collect()
}

#[test]
fn digests_are_those_of_the_standard() {
    let million = vec![b'a'; 1_000_000];
    let rows: [(&[u8], &str); 5] = [
        (b"", "da39a3ee5e6b4b0d3255bfef95601890afd80709"),
        (b"abc", "a9993e364706816aba3e25717850c26c9cd0d89d"),
        (
            b"abcdbcdecdefdefgefghfghighijhijkijkljklmklmnlmnomnopnopq",
            "84983e441c3bd26ebaae4aa1f95129e5e54670f1",
        ),
        (&million, "34aa973cd4c4daa4f61eeb2bdbad27316534016f"),
        (b"secret", "e5e9fa1ba31ecd1ae84f75caaa474f3a663f05f4"),
    ];
    for (message, wanted) in rows {
        assert_eq!(hexadecimal(&sha1(message)), wanted);
        assert_eq!(digest_of(wanted), Some(sha1(message)));
    }
}

#[test]
fn an_answer_hides_the_digest_that_the_server_checks() {
    let (password, nonce) = (sha1(b"secret"), b"abcdefghijklmnopqrst");
    // A server knows the digest of the digest, and takes off what the answer was scrambled by.
    let kept = sha1(&password);
    let scramble = sha1(&[&nonce[..], &kept].concat());
    let mut found = answer(&password, nonce);
    assert_ne!(found, password);
    for (byte, mask) in found.iter_mut().zip(scramble) {
        *byte ^= mask;
    }
    assert_eq!(sha1(&found), kept);
}

#[test]
fn digests_by_sha256_are_those_of_the_standard() {
    let rows: [(&[u8], &str); 4] = [
        (
            b"",
            "e3b0c44298fc1c149afbf4c8996fb92427ae41e4649b934ca495991b7852b855",
        ),
        (
            b"abc",
            "ba7816bf8f01cfea414140de5dae2223b00361a396177a9cb410ff61f20015ad",
        ),
        (
            b"abcdbcdecdefdefgefghfghighijhijkijkljklmklmnlmnomnopnopq",
            "248d6a61d20638b8e5c026930c3e6039a33ce45964ff2167f6ecedd419db06c1",
        ),
        (
            &[b'a'; 1_000_000],
            "cdc76e5c9914fb9281a1c7e284d73e67f1809a48a497200e046d39ccc7112cd0",
        ),
    ];
    for (message, wanted) in rows {
        assert_eq!(hexadecimal(&sha256(message)), wanted);
    }
}

#[test]
fn a_secret_answers_by_each_plugin() {
    let (nonce, secret) = (b"abcdefghijklmnopqrst", Secret::Text(b"secret".to_vec()));
    let digest = sha1(b"secret");
    let native = Some(answer(&digest, nonce).to_vec());
    assert_eq!(secret.answer(b"mysql_native_password", nonce), native);
    assert_eq!(
        Secret::Sha1(digest).answer(b"mysql_native_password", nonce),
        native
    );
    let kept = sha256(&sha256(b"secret"));
    let mut found = secret
        .answer(b"caching_sha2_password", nonce)
        .expect("the plugin is known");
    assert_eq!(found, answer_by_sha256(&sha256(b"secret"), nonce));
    let scramble = sha256(&[&kept[..], nonce].concat());
    for (byte, mask) in found.iter_mut().zip(scramble) {
        *byte ^= mask;
    }
    assert_eq!(sha256(&found), kept);
    assert_eq!(
        Secret::Sha1(digest).answer(b"caching_sha2_password", nonce),
        None
    );
    assert_eq!(secret.answer(b"dialog", nonce), None);
}

#[test]
fn other_words_are_no_digest() {
    for wrong in [
        "",
        "e5e9fa1ba31ecd1ae84f75caaa474f3a663f05f",
        "e5e9fa1ba31ecd1ae84f75caaa474f3a663f05f44",
        "+5e9fa1ba31ecd1ae84f75caaa474f3a663f05f4",
        "é5e9fa1ba31ecd1ae84f75caaa474f3a663f05f",
    ] {
        assert_eq!(digest_of(wrong), None, "{wrong}");
    }
}
