//! The published vectors of DSTU 8845:2019 and of DSTU 7624:2014; keys of 512 bits that load, each
//! with an IV of its own, what the key of zeros loads; and the list of all these that the program
//! `vectors` prints, with blocks and keys of wrong lengths. A proved program prints the same list.

use crate::calls::{Cipher, BLANK};
use std::fmt::Write;

/// The file of published vectors: lines `BITS key KEY iv IV z Z0 .. Z7`, and comments behind #.
const PUBLISHED: &str = include_str!("../../data/dstu8845-vectors.txt");

/// That of DSTU 7624: lines of key, plaintext and ciphertext, and comments behind #.
const PUBLISHED_BLOCKS: &str = include_str!("../../data/dstu7624-vectors.txt");

/// A published vector: the words Z0 .. Z7 of a key and IV.
pub struct Vector {
    pub bits: usize,
    pub key: Vec<u8>,
    pub iv: Vec<u8>,
    pub words: Vec<u64>,
}

/// The eight published vectors in the order of their file.
pub fn published() -> Vec<Vector> {
    let vectors: Vec<Vector> = PUBLISHED
        .lines()
        .filter(|line| !line.starts_with('#'))
        .map(read_vector)
        .collect();
    assert_eq!(vectors.len(), 8, "eight published vectors");
    vectors
}

fn read_vector(line: &str) -> Vector {
    let parts: Vec<&str> = line.split(' ').collect();
    assert_eq!(parts.len(), 14, "parts of {line}");
    assert_eq!([parts[1], parts[3], parts[5]], ["key", "iv", "z"], "{line}");
    let bits = parts[0].parse().expect("bits");
    let vector = Vector {
        bits,
        key: read_bytes(parts[2]),
        iv: read_bytes(parts[4]),
        words: parts[6..]
            .iter()
            .map(|word| u64::from_str_radix(word, 16).expect("a word"))
            .collect(),
    };
    assert_eq!(
        (vector.key.len(), vector.iv.len()),
        (bits / 8, 32),
        "{line}"
    );
    vector
}

/// Key, plaintext and ciphertext of the five published vectors of DSTU 7624, in the order of their
/// file.
pub fn published_blocks() -> Vec<[[u8; 32]; 3]> {
    let read_line = |line: &str| {
        let parts: Vec<[u8; 32]> = line
            .split(' ')
            .map(|hex| read_bytes(hex).try_into().expect("32 bytes"))
            .collect();
        parts.try_into().expect("key, plaintext and ciphertext")
    };
    let lines = PUBLISHED_BLOCKS.lines();
    let vectors: Vec<_> = lines
        .filter(|line| !line.starts_with('#'))
        .map(read_line)
        .collect();
    assert_eq!(vectors.len(), 5, "five published vectors");
    vectors
}

/// The bytes of a string of hexadecimal digits.
pub fn read_bytes(hex: &str) -> Vec<u8> {
    (0..hex.len())
        .step_by(2)
        .map(|i| u8::from_str_radix(&hex[i..i + 2], 16).expect("a byte"))
        .collect()
}

/// Bytes as two small hexadecimal digits each.
pub fn hex(bytes: &[u8]) -> String {
    bytes.iter().map(|byte| format!("{byte:02x}")).collect()
}

/// The words that these bytes hold, least significant byte first.
pub fn words(bytes: &[u8]) -> Vec<u64> {
    bytes
        .chunks_exact(8)
        .map(|word| u64::from_le_bytes(word.try_into().expect("eight bytes")))
        .collect()
}

/// A key of 64 bytes whose word K4 is this one, its other words being zero.
pub fn key_of_k4(word: u64) -> Vec<u8> {
    let mut key = vec![0; 64];
    key[24..32].copy_from_slice(&word.to_be_bytes());
    key
}

/// This IV with the word ⊕ed into IV3 and IV1. With it the key of that word as K4 loads what the
/// key of zeros loads with the IV given.
pub fn iv_of_k4(iv: &[u8], word: u64) -> Vec<u8> {
    let mut iv = iv.to_vec();
    for (i, byte) in word.to_be_bytes().into_iter().enumerate() {
        iv[i] ^= byte;
        iv[16 + i] ^= byte;
    }
    iv
}

/// The list: a line for each published vector, then the keys of zeros, and two keys that load what
/// a key of zeros loads; then the published blocks, and keys and blocks of wrong lengths.
pub fn list(cipher: &Cipher) -> String {
    let alike = [1, 1 << 63].map(|word| alike_lines(cipher, word));
    let lengths = [
        length_lines(cipher, "encipher", Cipher::encipher_block),
        length_lines(cipher, "decipher", Cipher::decipher_block),
    ];
    let parts = [published_lines(cipher), zero_lines(cipher)];
    parts.concat() + &alike.concat() + &block_lines(cipher) + &lengths.concat()
}

fn published_lines(cipher: &Cipher) -> String {
    let mut list = String::new();
    for (i, vector) in published().iter().enumerate() {
        let mut state = BLANK;
        let mut target = [0; 64];
        assert_eq!(cipher.open(&vector.key, &vector.iv, &mut state), 0);
        assert_eq!(cipher.apply(&mut state, &[0; 64], &mut target), 0);
        write!(list, "vector {} {}", i + 1, vector.bits).unwrap();
        for word in words(&target) {
            write!(list, " {word:016x}").unwrap();
        }
        list.push('\n');
    }
    list
}

fn zero_lines(cipher: &Cipher) -> String {
    let mut list = String::new();
    for bits in [256, 512] {
        let number = cipher.open(&vec![0; bits / 8], &[0; 32], &mut BLANK.clone());
        writeln!(list, "open {bits} zeros: {number}").unwrap();
    }
    list
}

/// The key of this word as K4, opened and checked with an IV of it as IV3 and IV1, and checked with
/// an IV of zeros, with which only the key of zeros loads the same.
fn alike_lines(cipher: &Cipher, word: u64) -> String {
    let (key, iv) = (key_of_k4(word), iv_of_k4(&[0; 32], word));
    let mut state = BLANK;
    let number = cipher.open(&key, &iv, &mut state);
    let check = |iv: &[u8]| -> String {
        let mut found = [0xff; 64];
        let number = cipher.check(&state, iv, &mut found);
        format!("{number} {}", hex(&found))
    };
    let mut list = String::new();
    writeln!(list, "open 512 K4 = IV3 = IV1 = {word:016x}: {number}").unwrap();
    writeln!(list, "check with that IV: {}", check(&iv)).unwrap();
    writeln!(list, "check with an IV of zeros: {}", check(&[0; 32])).unwrap();
    list
}

/// A call of the block cipher: with key, source and target.
type BlockCall = fn(&Cipher, &[u8], &[u8], &mut [u8]) -> u64;

/// A line for each published plaintext enciphered and each published ciphertext deciphered.
fn block_lines(cipher: &Cipher) -> String {
    let mut list = String::new();
    for (i, [key, plain, enciphered]) in published_blocks().iter().enumerate() {
        let calls: [(&str, BlockCall, &[u8]); 2] = [
            ("enciphered", Cipher::encipher_block, plain),
            ("deciphered", Cipher::decipher_block, enciphered),
        ];
        for (name, call, source) in calls {
            let mut target = [0; 32];
            let number = call(cipher, key, source, &mut target);
            writeln!(list, "block {} {name}: {number} {}", i + 1, hex(&target)).unwrap();
        }
    }
    list
}

/// A line for each of key, source and target with a byte too few and with one too many: key and
/// source are zeros, and the target is bytes FF.
fn length_lines(cipher: &Cipher, name: &str, call: BlockCall) -> String {
    let mut list = String::new();
    for (i, argument) in ["key", "source", "target"].into_iter().enumerate() {
        for wrong in [31, 33] {
            let mut lengths = [32; 3];
            lengths[i] = wrong;
            let [key, source, target] = lengths;
            let mut target = vec![0xff; target];
            let number = call(cipher, &vec![0; key], &vec![0; source], &mut target);
            let target = hex(&target);
            writeln!(list, "{name}, {argument} of {wrong}: {number} {target}").unwrap();
        }
    }
    list
}
