//! The stream cipher Strumok (DSTU 8845:2019): a safe wrapper of the proved library.
//!
//! A [`State`] is opened from a key and an IV, then applied to portions, worked over windows of a
//! buffer, moved forward or back, or checked against an IV. Every call is one call of the proved
//! library; this crate adds nothing but Rust's types. The module [`block`] is the block cipher of
//! DSTU 7624:2014, under which keys are wrapped; the module [`orders`] reads order files.
//!
//! ```
//! use strumok::State;
//!
//! let (key, iv) = ([7; 32], [9; 32]);
//! let mut state = State::opened(&key, &iv)?;
//! let mut text = *b"thirteen byte";
//! state.window(&mut text, 0, 13)?;
//! assert_eq!(state.position(), 13);
//!
//! // The same bytes once more, from the start, give the text back.
//! state.move_by(-13)?;
//! state.window(&mut text, 0, 13)?;
//! assert_eq!(&text, b"thirteen byte");
//!
//! let mut found = [0; 32];
//! state.check(&iv, &mut found)?;
//! assert_eq!(found, key);
//!
//! // A move past the end is refused with number 7, and the state is left as it was.
//! assert_eq!(state.move_by(i64::MAX).unwrap_err().number(), 7);
//! assert_eq!(state.position(), 13);
//! # Ok::<(), strumok::Refusal>(())
//! ```

#![deny(unsafe_op_in_unsafe_fn)]
#![warn(missing_docs)]

pub mod block;
pub mod orders;

use std::fmt;

/// The last position, in bytes: positions run from 0 to this number inclusive.
pub const LIMIT: u64 = 16_777_216;

/// Word of a state that holds the size mark.
const SIZE_MARK: usize = 18;
/// Word of a state that holds the position.
const POSITION: usize = 19;

// The proved library. Each function reads and writes only the words and bytes it is lent, keeps no
// pointer, and answers 0 or the number of the refusal.
extern "C" {
    fn strumok_open(
        key: *const u8,
        key_len: usize,
        iv: *const u8,
        iv_len: usize,
        state: *mut u64,
    ) -> u64;
    fn strumok_apply(
        state: *mut u64,
        source: *const u8,
        source_len: usize,
        target: *mut u8,
        target_len: usize,
    ) -> u64;
    fn strumok_window(
        state: *mut u64,
        buffer: *mut u8,
        buffer_len: usize,
        start: usize,
        count: usize,
    ) -> u64;
    fn strumok_move(state: *mut u64, distance: i64) -> u64;
    fn strumok_check(
        state: *const u64,
        iv: *const u8,
        iv_len: usize,
        key: *mut u8,
        key_len: usize,
    ) -> u64;
}

/// A state of the cipher: sixteen cells, the registers r1 and r2, the size mark (256 or 512) and
/// the byte position.
///
/// A state is as secret as its key: the check recovers the key from it.
#[derive(Clone, Copy, PartialEq, Eq)]
pub struct State {
    words: [u64; 20],
}

impl State {
    /// The blank state, all zero. Every call but an opening refuses it.
    pub const BLANK: State = State { words: [0; 20] };

    /// The state of these words: cells 0 to 15, r1, r2, size mark, position.
    ///
    /// Any words may be given. Where the size mark and the position are in range, the state is
    /// worked from its registers as they are; otherwise every call but an opening refuses it.
    pub fn from_words(words: [u64; 20]) -> State {
        State { words }
    }

    /// The words of the state: cells 0 to 15, r1, r2, size mark, position.
    pub fn words(&self) -> &[u64; 20] {
        &self.words
    }

    /// The size mark: 256 or 512 once a key of that many bits was opened.
    pub fn size_mark(&self) -> u64 {
        self.words[SIZE_MARK]
    }

    /// The position: the number of the next keystream byte.
    pub fn position(&self) -> u64 {
        self.words[POSITION]
    }

    /// Opens a new state from a key of 32 or 64 bytes, which are not all zero, and an IV of 32, at
    /// position 0.
    ///
    /// Refused with 1 for another key length, else with 2 for another IV length, else with 14 for a
    /// key whose bytes are all zero.
    pub fn opened(key: &[u8], iv: &[u8]) -> Result<State, Refusal> {
        let mut state = State::BLANK;
        state.open(key, iv).map(|()| state)
    }

    /// Opens this state anew, as [`State::opened`] does. Where that is refused, the state is left
    /// blank.
    pub fn open(&mut self, key: &[u8], iv: &[u8]) -> Result<(), Refusal> {
        let state = self.words.as_mut_ptr();
        // SAFETY: key and iv are readable for their lengths, state is writable for its 20 words,
        // and as a mutable borrow it overlaps neither.
        answer(unsafe { strumok_open(key.as_ptr(), key.len(), iv.as_ptr(), iv.len(), state) })
    }

    /// Writes the source with the keystream applied to the first bytes of the target, and moves
    /// the position on by the source's length. Later target bytes keep their values.
    ///
    /// Refused with 3 or 4 for a state that is not well-formed, 5 for a target shorter than the
    /// source, 7 where the new position would be above [`LIMIT`]; state and target are then left
    /// as they were.
    pub fn apply(&mut self, source: &[u8], target: &mut [u8]) -> Result<(), Refusal> {
        let state = self.words.as_mut_ptr();
        let (target, target_len) = (target.as_mut_ptr(), target.len());
        // SAFETY: source is readable and target writable for its length, state is writable for its
        // 20 words, and the mutable borrows keep the three apart.
        answer(unsafe { strumok_apply(state, source.as_ptr(), source.len(), target, target_len) })
    }

    /// Applies the keystream to `count` bytes of the buffer from `start` on, and moves the
    /// position on by `count`. The bytes outside this window keep their values.
    ///
    /// Refused with 3 or 4 for a state that is not well-formed, 6 for a window that ends past the
    /// buffer, 7 where the new position would be above [`LIMIT`]; state and buffer are then left
    /// as they were.
    pub fn window(&mut self, buffer: &mut [u8], start: usize, count: usize) -> Result<(), Refusal> {
        let state = self.words.as_mut_ptr();
        let (buffer, buffer_len) = (buffer.as_mut_ptr(), buffer.len());
        // SAFETY: buffer is writable for its length and state for its 20 words, and the mutable
        // borrows keep them apart. The library itself refuses a window outside the buffer.
        answer(unsafe { strumok_window(state, buffer, buffer_len, start, count) })
    }

    /// Moves the state by this many bytes, towards the start where the number is negative.
    ///
    /// Refused with 3 or 4 for a state that is not well-formed, 7 where the new position would be
    /// above [`LIMIT`], 8 where it would be below 0; the state is then left as it was.
    pub fn move_by(&mut self, distance: i64) -> Result<(), Refusal> {
        // SAFETY: the state is writable for its 20 words.
        answer(unsafe { strumok_move(self.words.as_mut_ptr(), distance) })
    }

    /// Checks that a key which an opening accepts leads with this IV to this state, and writes that
    /// key.
    ///
    /// Refused with 2 for an IV length other than 32, 3 or 4 for a state that is not well-formed,
    /// 9 for a key target of a length other than size mark / 8, 10 where no key of that size that an
    /// opening accepts leads, with that IV, to the state; the key target is then left as it was.
    pub fn check(&self, iv: &[u8], key: &mut [u8]) -> Result<(), Refusal> {
        let state = self.words.as_ptr();
        let (key, key_len) = (key.as_mut_ptr(), key.len());
        // SAFETY: state is readable for its 20 words and iv for its length, key is writable for
        // its length, and as a mutable borrow it overlaps neither.
        answer(unsafe { strumok_check(state, iv.as_ptr(), iv.len(), key, key_len) })
    }
}

/// Shows the size mark and the position only: cells and registers are secret.
impl fmt::Debug for State {
    fn fmt(&self, f: &mut fmt::Formatter<'_>) -> fmt::Result {
        f.debug_struct("State")
            .field("size_mark", &self.size_mark())
            .field("position", &self.position())
            .finish_non_exhaustive()
    }
}

/// Why a call was refused, as one of the numbers 1 to 10, 14 and 15.
#[derive(Clone, Copy, Debug, PartialEq, Eq)]
pub struct Refusal {
    number: u64,
}

impl Refusal {
    /// The number of the refusal: the lowest that applies.
    pub fn number(&self) -> u64 {
        self.number
    }
}

impl fmt::Display for Refusal {
    fn fmt(&self, f: &mut fmt::Formatter<'_>) -> fmt::Result {
        let reason = match self.number {
            1 => "the key length is neither 32 nor 64",
            2 => "the IV length is not 32",
            3 => "the size mark is neither 256 nor 512",
            4 => "the position is above 16,777,216",
            5 => "the target is shorter than the source",
            6 => "the window's start + count is above the buffer length",
            7 => "the new position would be above 16,777,216",
            8 => "the new position would be below 0",
            9 => "the key target length is not size mark / 8",
            10 => "no key of that size that opening accepts leads, with that IV, to this state",
            14 => "the key is all zeros",
            15 => "the key, source or target length of the block cipher is not 32",
            _ => "unknown number",
        };
        write!(f, "refused {}: {}", self.number, reason)
    }
}

impl std::error::Error for Refusal {}

/// The answer that a number of the library stands for.
fn answer(number: u64) -> Result<(), Refusal> {
    match number {
        0 => Ok(()),
        _ => Err(Refusal { number }),
    }
}

#[cfg(test)]
mod tests {
    use super::*;

    #[test]
    fn a_shown_state_keeps_its_registers_secret() {
        let mut words = [u64::MAX; 20];
        words[SIZE_MARK] = 256;
        words[POSITION] = 5;
        let shown = format!("{:?}", State::from_words(words));
        assert_eq!(shown, "State { size_mark: 256, position: 5, .. }");
    }

    #[test]
    fn refusals_in_words() {
        let refusal = State::opened(&[0; 32], &[0; 31]).unwrap_err();
        assert_eq!(refusal.number(), 2);
        assert_eq!(refusal.to_string(), "refused 2: the IV length is not 32");

        let refusal = State::opened(&[0; 32], &[0; 32]).unwrap_err();
        assert_eq!(refusal.number(), 14);
        assert_eq!(refusal.to_string(), "refused 14: the key is all zeros");

        let mut state = State::opened(&[1; 32], &[0; 32]).unwrap();
        let refusal = state.move_by(LIMIT as i64 + 1).unwrap_err();
        let words = "refused 7: the new position would be above 16,777,216";
        assert_eq!(refusal.to_string(), words);

        assert!(state.open(&[1; 33], &[0; 32]).is_err());
        assert_eq!(state, State::BLANK);
    }

    #[test]
    fn keys_of_zeros() {
        for len in [32, 64] {
            let mut key = vec![0; len];
            let mut state = State::opened(&[1; 32], &[2; 32]).unwrap();
            assert_eq!(state.open(&key, &[2; 32]).unwrap_err().number(), 14);
            assert_eq!(state, State::BLANK);

            key[len - 1] = 1;
            let mut found = vec![0; len];
            assert_eq!(state.open(&key, &[2; 32]), Ok(()));
            assert_eq!(state.check(&[2; 32], &mut found), Ok(()));
            assert_eq!(found, key);
        }
    }

    /// With K4 = IV3 = IV1 = 1 and all other words zero a key loads what the key of zeros loads
    /// with an IV of zeros: with that IV there is no key, and the target is left as it was.
    #[test]
    fn a_state_of_the_key_of_zeros() {
        let (mut key, mut iv) = ([0; 64], [0; 32]);
        key[31] = 1;
        iv[7] = 1;
        iv[23] = 1;
        let mut state = State::opened(&key, &iv).unwrap();
        assert_eq!(state.move_by(1000), Ok(()));

        let mut found = [0xff; 64];
        assert_eq!(state.check(&[0; 32], &mut found).unwrap_err().number(), 10);
        assert_eq!(found, [0xff; 64]);
        assert_eq!(state.check(&iv, &mut found), Ok(()));
        assert_eq!(found, key);
    }
}
