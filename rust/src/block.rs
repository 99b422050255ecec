//! The block cipher of DSTU 7624:2014 (Kalyna), block and key of 256 bits, by which keys of entries
//! are wrapped under a master key.
//!
//! An entry key of 64 bytes is wrapped in two calls, each half enciphered by itself:
//!
//! ```
//! use strumok::block::{decipher, encipher};
//!
//! let master_key = [3; 32];
//! let mut entry_key = [5; 64];
//! entry_key[40] = 6;
//!
//! let mut wrapped = [0; 64];
//! for (half, target) in entry_key.chunks(32).zip(wrapped.chunks_mut(32)) {
//!     encipher(&master_key, half, target)?;
//! }
//!
//! let mut unwrapped = [0; 64];
//! for (half, target) in wrapped.chunks(32).zip(unwrapped.chunks_mut(32)) {
//!     decipher(&master_key, half, target)?;
//! }
//! assert_eq!(unwrapped, entry_key);
//!
//! // Both halves at once are no block: refused with number 15, and nothing is written.
//! let refusal = encipher(&master_key, &entry_key, &mut wrapped).unwrap_err();
//! assert_eq!(refusal.number(), 15);
//! # Ok::<(), strumok::Refusal>(())
//! ```
//!
//! - Equal halves show: two equal halves of a key give two equal enciphered halves, and equal keys
//!   give, under one master key, equal wrapped keys.
//! - Nothing is authenticated: a changed wrapped key deciphers to another key without any refusal,
//!   whether bytes of it were altered or its halves exchanged; and with another master key some key
//!   is deciphered too.

use crate::{answer, Refusal};

// The proved library. Each function reads and writes only the bytes it is lent, keeps no pointer,
// and answers 0 or the number of the refusal.
extern "C" {
    fn strumok_block_encipher(
        key: *const u8,
        key_len: usize,
        source: *const u8,
        source_len: usize,
        target: *mut u8,
        target_len: usize,
    ) -> u64;
    fn strumok_block_decipher(
        key: *const u8,
        key_len: usize,
        source: *const u8,
        source_len: usize,
        target: *mut u8,
        target_len: usize,
    ) -> u64;
}

/// Writes the block in the source, enciphered with this key, to the target. Each of the three has
/// 32 bytes; a key of zeros is accepted.
///
/// Refused with 15 where one of them has another length; the target is then left as it was.
pub fn encipher(key: &[u8], source: &[u8], target: &mut [u8]) -> Result<(), Refusal> {
    let (key, key_len) = (key.as_ptr(), key.len());
    let (source, source_len) = (source.as_ptr(), source.len());
    let (target, target_len) = (target.as_mut_ptr(), target.len());
    // SAFETY: key and source are readable for their lengths, target is writable for its length, and
    // as a mutable borrow it overlaps neither.
    answer(unsafe { strumok_block_encipher(key, key_len, source, source_len, target, target_len) })
}

/// Writes the block in the source, deciphered with this key, to the target: what [`encipher`] with
/// this key takes to the source. Each of the three has 32 bytes.
///
/// Refused with 15 where one of them has another length; the target is then left as it was.
pub fn decipher(key: &[u8], source: &[u8], target: &mut [u8]) -> Result<(), Refusal> {
    let (key, key_len) = (key.as_ptr(), key.len());
    let (source, source_len) = (source.as_ptr(), source.len());
    let (target, target_len) = (target.as_mut_ptr(), target.len());
    // SAFETY: as for `encipher`.
    answer(unsafe { strumok_block_decipher(key, key_len, source, source_len, target, target_len) })
}

#[cfg(test)]
mod tests {
    use super::*;

    /// The two halves of a key, each enciphered with the master key.
    fn wrapped(master_key: &[u8; 32], entry_key: &[u8; 64]) -> [[u8; 32]; 2] {
        let mut halves = [[0; 32]; 2];
        for (half, target) in entry_key.chunks(32).zip(&mut halves) {
            assert_eq!(encipher(master_key, half, target), Ok(()));
        }
        halves
    }

    #[test]
    fn equal_halves_show() {
        let [first, second] = wrapped(&[3; 32], &[5; 64]);
        assert_eq!(first, second);

        let mut entry_key = [5; 64];
        entry_key[63] ^= 1;
        let [first, other] = wrapped(&[3; 32], &entry_key);
        assert_eq!(first, second);
        assert_ne!(first, other);
    }

    #[test]
    fn a_changed_block_is_deciphered_to_another() {
        let (mut source, mut target) = ([0; 32], [0; 32]);
        assert_eq!(encipher(&[3; 32], &[5; 32], &mut source), Ok(()));
        assert_eq!(decipher(&[3; 32], &source, &mut target), Ok(()));
        assert_eq!(target, [5; 32]);
        source[31] ^= 0x80;
        assert_eq!(decipher(&[3; 32], &source, &mut target), Ok(()));
        assert_ne!(target, [5; 32]);
    }

    #[test]
    fn other_lengths_are_refused() {
        let bytes = [7; 64];
        for (key_len, source_len, target_len) in
            [(31, 32, 32), (32, 64, 32), (32, 32, 33), (0, 0, 0)]
        {
            for call in [encipher, decipher] {
                let mut target = vec![0xff; target_len];
                let refusal =
                    call(&bytes[..key_len], &bytes[..source_len], &mut target).unwrap_err();
                assert_eq!(refusal.number(), 15);
                let words =
                    "refused 15: the key, source or target length of the block cipher is not 32";
                assert_eq!(refusal.to_string(), words);
                assert_eq!(target, vec![0xff; target_len]);
            }
        }
    }
}
