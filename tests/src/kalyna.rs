//! The block cipher of DSTU 7624:2014 (Kalyna), for blocks and keys of 256 bits, written from its
//! description. Strumok has its π tables and its matrix M from there, so that this standard's
//! vectors test them too.
//!
//! A block or key is four words: word 0 has its first eight bytes, the least significant first.
//! Functions take T or its inverse as an argument, so that a test can see what is looked up.

use std::array::from_fn;

pub type Words = [u64; 4];

/// The words of 32 bytes.
pub fn words(bytes: &[u8; 32]) -> Words {
    from_fn(|c| u64::from_le_bytes(from_fn(|j| bytes[8 * c + j])))
}

/// The 32 bytes of these words.
pub fn bytes(words: Words) -> [u8; 32] {
    from_fn(|n| words[n / 8].to_le_bytes()[n % 8])
}

/// The sums word by word, without the carry out of 64 bits.
fn add(x: Words, y: Words) -> Words {
    from_fn(|c| x[c].wrapping_add(y[c]))
}

fn subtract(x: Words, y: Words) -> Words {
    from_fn(|c| x[c].wrapping_sub(y[c]))
}

fn xor(x: Words, y: Words) -> Words {
    from_fn(|c| x[c] ^ y[c])
}

/// Byte j of word c goes to byte j of word c + j/2, counted modulo 4.
fn shift(x: Words) -> Words {
    let mut shifted = [[0; 8]; 4];
    for c in 0..4 {
        for (j, byte) in x[c].to_le_bytes().into_iter().enumerate() {
            shifted[(c + j / 2) % 4][j] = byte;
        }
    }
    shifted.map(u64::from_le_bytes)
}

/// The words that `shift` takes to x.
fn shift_back(x: Words) -> Words {
    from_fn(|c| u64::from_le_bytes(from_fn(|j| x[(c + j / 2) % 4].to_le_bytes()[j])))
}

/// A round: each byte j of a word through π(j mod 4), the shift, M times each word. The shift leaves
/// a byte its j, so it may as well come first; what follows it is T of each word.
fn round(t: &impl Fn(u64) -> u64, x: Words) -> Words {
    shift(x).map(t)
}

/// The words that a round takes to x.
fn round_back(t_inverse: &impl Fn(u64) -> u64, x: Words) -> Words {
    shift_back(x.map(t_inverse))
}

/// The intermediate key, from which all round keys are made; 9 is (256 + 256 + 64) / 64.
fn intermediate_key(t: &impl Fn(u64) -> u64, key: Words) -> Words {
    let x = round(t, add([9, 0, 0, 0], key));
    let x = round(t, xor(x, key));
    round(t, add(x, key))
}

/// The round key 2i.
fn even_key(t: &impl Fn(u64) -> u64, key: Words, intermediate: Words, i: usize) -> Words {
    let mask = add(intermediate, [0x0001_0001_0001_0001 << i; 4]);
    let rotated = from_fn(|c| key[(c + i) % 4]);
    let x = round(t, add(rotated, mask));
    let x = round(t, xor(x, mask));
    add(x, mask)
}

/// The round key after an even one: its bytes, eleven places towards the front.
fn odd_key(even: Words) -> Words {
    let mut rotated = bytes(even);
    rotated.rotate_left(11);
    words(&rotated)
}

/// The round keys 0 to 14.
pub fn round_keys(t: &impl Fn(u64) -> u64, key: Words) -> [Words; 15] {
    let intermediate = intermediate_key(t, key);
    from_fn(|n| {
        let even = even_key(t, key, intermediate, n / 2);
        if n % 2 == 0 {
            even
        } else {
            odd_key(even)
        }
    })
}

/// The block enciphered with these round keys.
pub fn encipher(t: &impl Fn(u64) -> u64, keys: &[Words; 15], block: Words) -> Words {
    let mut x = add(block, keys[0]);
    for key in &keys[1..14] {
        x = xor(round(t, x), *key);
    }
    add(round(t, x), keys[14])
}

/// The block deciphered with these round keys.
pub fn decipher(t_inverse: &impl Fn(u64) -> u64, keys: &[Words; 15], block: Words) -> Words {
    let mut x = round_back(t_inverse, subtract(block, keys[14]));
    for key in keys[1..14].iter().rev() {
        x = round_back(t_inverse, xor(x, *key));
    }
    subtract(x, keys[0])
}
