//! The source is the published one, byte for byte.

use std::fs;
use std::path::{Path, PathBuf};

#[test]
fn listed_files_have_their_checksums() {
    let sums = sums();
    assert_eq!(sums.len(), 9, "the licence and eight source files");
    for (sum, path) in sums {
        let bytes = fs::read(Path::new(env!("CARGO_MANIFEST_DIR")).join(&path)).unwrap();
        assert_eq!(sha256(&bytes), sum, "{path}");
    }
}

#[test]
fn every_source_file_is_listed() {
    let mut listed: Vec<String> = sums().into_iter().map(|(_, path)| path).collect();
    listed.retain(|path| path.ends_with(".rs"));
    listed.push("src/waveform/mod.rs".to_string());
    listed.sort();

    let root = Path::new(env!("CARGO_MANIFEST_DIR"));
    let mut found: Vec<String> = Vec::new();
    for path in files(&root.join("src")) {
        if path.extension().is_some_and(|it| it == "rs") {
            found.push(path.strip_prefix(root).unwrap().to_str().unwrap().to_string());
        }
    }
    found.sort();
    assert_eq!(found, listed);
}

/// The checksum and path on each line of SHA256SUMS.
fn sums() -> Vec<(String, String)> {
    let list = fs::read_to_string(concat!(env!("CARGO_MANIFEST_DIR"), "/SHA256SUMS")).unwrap();
    list.lines()
        .map(|line| line.split_once("  ").unwrap())
        .map(|(sum, path)| (sum.to_string(), path.to_string()))
        .collect()
}

fn files(folder: &Path) -> Vec<PathBuf> {
    let mut found = Vec::new();
    for entry in fs::read_dir(folder).unwrap() {
        let path = entry.unwrap().path();
        if path.is_dir() {
            found.extend(files(&path));
        } else {
            found.push(path);
        }
    }
    found
}

/// SHA-256 as FIPS 180-4 has it, in hexadecimal.
fn sha256(message: &[u8]) -> String {
    let constants = constants();
    let mut state: [u32; 8] = [
        0x6a09e667, 0xbb67ae85, 0x3c6ef372, 0xa54ff53a, 0x510e527f, 0x9b05688c, 0x1f83d9ab,
        0x5be0cd19,
    ];
    let mut padded = message.to_vec();
    padded.push(0x80);
    padded.resize(padded.len().next_multiple_of(64), 0);
    if padded.len() < message.len() + 9 {
        padded.resize(padded.len() + 64, 0);
    }
    let end = padded.len() - 8;
    padded[end..].copy_from_slice(&(message.len() as u64 * 8).to_be_bytes());

    for block in padded.chunks_exact(64) {
        let mut schedule = [0_u32; 64];
        for (word, bytes) in schedule.iter_mut().zip(block.chunks_exact(4)) {
            *word = u32::from_be_bytes(bytes.try_into().unwrap());
        }
        for t in 16..64 {
            let (x, y) = (schedule[t - 15], schedule[t - 2]);
            let low = x.rotate_right(7) ^ x.rotate_right(18) ^ (x >> 3);
            let high = y.rotate_right(17) ^ y.rotate_right(19) ^ (y >> 10);
            schedule[t] =
                schedule[t - 16].wrapping_add(low).wrapping_add(schedule[t - 7]).wrapping_add(high);
        }
        let [mut a, mut b, mut c, mut d, mut e, mut f, mut g, mut h] = state;
        for t in 0..64 {
            let first = h
                .wrapping_add(e.rotate_right(6) ^ e.rotate_right(11) ^ e.rotate_right(25))
                .wrapping_add((e & f) ^ (!e & g))
                .wrapping_add(constants[t])
                .wrapping_add(schedule[t]);
            let second = (a.rotate_right(2) ^ a.rotate_right(13) ^ a.rotate_right(22))
                .wrapping_add((a & b) ^ (a & c) ^ (b & c));
            (h, g, f, e) = (g, f, e, d.wrapping_add(first));
            (d, c, b, a) = (c, b, a, first.wrapping_add(second));
        }
        for (word, added) in state.iter_mut().zip([a, b, c, d, e, f, g, h]) {
            *word = word.wrapping_add(added);
        }
    }
    state.iter().map(|word| format!("{word:08x}")).collect()
}

/// The first 32 bits of the fractional parts of the cube roots of the first 64 primes.
fn constants() -> [u32; 64] {
    let mut primes = (2_u128..).filter(|n| (2..*n).all(|d| n % d != 0));
    std::array::from_fn(|_| {
        // The largest root with root^3 <= prime * 2^96 is the cube root times 2^32, rounded down.
        let bound = primes.next().unwrap() << 96;
        let (mut root, mut bit) = (0_u128, 1_u128 << 35);
        while bit > 0 {
            let next = root | bit;
            if next * next * next <= bound {
                root = next;
            }
            bit >>= 1;
        }
        root as u32
    })
}

#[test]
fn sha256_of_known_messages() {
    let known = [
        ("", "e3b0c44298fc1c149afbf4c8996fb92427ae41e4649b934ca495991b7852b855"),
        ("abc", "ba7816bf8f01cfea414140de5dae2223b00361a396177a9cb410ff61f20015ad"),
        (
            "abcdbcdecdefdefgefghfghighijhijkijkljklmklmnlmnomnopnopq",
            "248d6a61d20638b8e5c026930c3e6039a33ce45964ff2167f6ecedd419db06c1",
        ),
    ];
    for (message, sum) in known {
        assert_eq!(sha256(message.as_bytes()), sum);
    }
}
