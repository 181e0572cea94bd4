//! SHA-256: published values, lengths around the ends of a block, and what sha256sum says of files.

use desk::hash::sha256;
use std::process::Command;

#[test]
fn published() {
    let cases = [
        ("", "e3b0c44298fc1c149afbf4c8996fb92427ae41e4649b934ca495991b7852b855"),
        ("abc", "ba7816bf8f01cfea414140de5dae2223b00361a396177a9cb410ff61f20015ad"),
        (
            "abcdbcdecdefdefgefghfghighijhijkijkljklmklmnlmnomnopnopq",
            "248d6a61d20638b8e5c026930c3e6039a33ce45964ff2167f6ecedd419db06c1",
        ),
    ];
    for (text, hash) in cases {
        assert_eq!(sha256(text.as_bytes()), hash);
    }
    let million = vec![b'a'; 1_000_000];
    assert_eq!(sha256(&million), "cdc76e5c9914fb9281a1c7e284d73e67f1809a48a497200e046d39ccc7112cd0");
}

#[test]
fn as_sha256sum() {
    let path = std::env::temp_dir().join(format!("desk-hash-{}", std::process::id()));
    for length in [1, 54, 55, 56, 57, 63, 64, 65, 119, 120, 128, 4000] {
        let bytes: Vec<u8> = (0..length).map(|k| (k * 7 + k / 11) as u8).collect();
        std::fs::write(&path, &bytes).unwrap();
        let said = Command::new("sha256sum").arg(&path).output().unwrap();
        assert_eq!(String::from_utf8(said.stdout).unwrap().split(' ').next().unwrap(), sha256(&bytes));
    }
    std::fs::remove_file(&path).unwrap();
}
