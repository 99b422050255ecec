//! The calls with their refusals, in the shape of the proved library's C functions: five of the
//! stream cipher, two of the block cipher; and what the cipher program must write.
//!
//! Each call answers the lowest number of a refusal that applies, or 0. Positions and window ends
//! are summed as whole numbers.

use crate::cipher::{Registers, Step};
use crate::field::Tables;
use crate::kalyna;

/// A state: cells 0 to 15, r1, r2, size mark, position.
pub type State = [u64; 20];

/// The blank state, which a refused opening leaves.
pub const BLANK: State = [0; 20];

/// Words of a state behind the cells.
pub const R1: usize = 16;
pub const R2: usize = 17;
pub const SIZE_MARK: usize = 18;
pub const POSITION: usize = 19;

/// The last position.
pub const LIMIT: u64 = 16_777_216;

/// The registers of a state.
pub fn registers(state: &State) -> Registers {
    let mut cells = [0; 16];
    cells.copy_from_slice(&state[..16]);
    Registers {
        cells,
        r1: state[R1],
        r2: state[R2],
    }
}

/// The state of these registers, size mark and position.
pub fn state_of(registers: &Registers, size_mark: u64, position: u64) -> State {
    let mut state = BLANK;
    state[..16].copy_from_slice(&registers.cells);
    state[R1] = registers.r1;
    state[R2] = registers.r2;
    state[SIZE_MARK] = size_mark;
    state[POSITION] = position;
    state
}

/// The lowest number whose condition applies, or 0.
fn lowest(refusals: &[(u64, bool)]) -> u64 {
    let applying = refusals.iter().filter(|(_, applies)| *applies);
    applying.map(|(number, _)| *number).min().unwrap_or(0)
}

/// Refusal 3.
fn bad_size_mark(state: &State) -> bool {
    state[SIZE_MARK] != 256 && state[SIZE_MARK] != 512
}

/// Refusal 4.
fn bad_position(state: &State) -> bool {
    state[POSITION] > LIMIT
}

/// The number of an opening with this key and IV: it accepts them where that is 0.
fn opening(key: &[u8], iv: &[u8]) -> u64 {
    lowest(&[
        (1, key.len() != 32 && key.len() != 64),
        (2, iv.len() != 32),
        (14, key.iter().all(|byte| *byte == 0)),
    ])
}

/// The number of enciphering or deciphering a block with a key, source and target like these.
fn block_number(key: &[u8], source: &[u8], target: &[u8]) -> u64 {
    let lengths = [key.len(), source.len(), target.len()];
    lowest(&[(15, lengths != [32; 3])])
}

/// The words of a block or of its key.
fn block_words(bytes: &[u8]) -> kalyna::Words {
    kalyna::words(bytes.try_into().expect("32 bytes"))
}

/// The position this far from the state's, as a whole number.
fn moved(state: &State, distance: i128) -> i128 {
    i128::from(state[POSITION]) + distance
}

/// The other implementation.
#[derive(Default)]
pub struct Cipher {
    pub tables: Tables,
}

impl Cipher {
    pub fn new() -> Cipher {
        Cipher::default()
    }

    /// Opens a state from a key and an IV.
    pub fn open(&self, key: &[u8], iv: &[u8], state: &mut State) -> u64 {
        *state = BLANK;
        let number = opening(key, iv);
        if number == 0 {
            let registers = Registers::load(key, iv).initialise(&self.tables);
            *state = state_of(&registers, 8 * key.len() as u64, 0);
        }
        number
    }

    /// Writes the source with the keystream applied to the first bytes of the target.
    pub fn apply(&self, state: &mut State, source: &[u8], target: &mut [u8]) -> u64 {
        let number = lowest(&[
            (3, bad_size_mark(state)),
            (4, bad_position(state)),
            (5, target.len() < source.len()),
            (7, moved(state, source.len() as i128) > LIMIT.into()),
        ]);
        if number == 0 {
            self.run(state, source, target);
        }
        number
    }

    /// Applies the keystream to `count` bytes of the buffer from `start` on.
    pub fn window(&self, state: &mut State, buffer: &mut [u8], start: usize, count: usize) -> u64 {
        let number = lowest(&[
            (3, bad_size_mark(state)),
            (4, bad_position(state)),
            (6, start as u128 + count as u128 > buffer.len() as u128),
            (7, moved(state, count as i128) > LIMIT.into()),
        ]);
        if number == 0 {
            let window = &mut buffer[start..start + count];
            let source = window.to_vec();
            self.run(state, &source, window);
        }
        number
    }

    /// Moves the state by this many bytes.
    pub fn move_by(&self, state: &mut State, distance: i64) -> u64 {
        let position = moved(state, distance.into());
        let number = lowest(&[
            (3, bad_size_mark(state)),
            (4, bad_position(state)),
            (7, position > LIMIT.into()),
            (8, position < 0),
        ]);
        if number == 0 {
            let (old, new) = (state[POSITION] / 8, position as u64 / 8);
            let registers = if new >= old {
                registers(state).forward(&self.tables, new - old)
            } else {
                registers(state).back(&self.tables, old - new)
            };
            *state = state_of(&registers, state[SIZE_MARK], position as u64);
        }
        number
    }

    /// Walks back to the loading and writes the key, if one that opening accepts leads with this IV
    /// to this state.
    pub fn check(&self, state: &State, iv: &[u8], key: &mut [u8]) -> u64 {
        let number = lowest(&[
            (2, iv.len() != 32),
            (3, bad_size_mark(state)),
            (4, bad_position(state)),
            (9, key.len() as u64 != state[SIZE_MARK] / 8),
        ]);
        if number != 0 {
            return number;
        }
        let loading = registers(state)
            .back(&self.tables, state[POSITION] / 8)
            .initialise_back(&self.tables);
        match loading.loaded_key(state[SIZE_MARK], iv) {
            Some(found) if opening(&found, iv) == 0 => {
                key.copy_from_slice(&found);
                0
            }
            _ => 10,
        }
    }

    /// Applies the keystream byte by byte; a step gives each word and, where the word is used up, the
    /// registers to go on from.
    fn run(&self, state: &mut State, source: &[u8], target: &mut [u8]) {
        let mut registers = registers(state);
        let mut position = state[POSITION];
        let (mut next, mut word) = registers.step(&self.tables, Step::Ordinary);
        for (written, byte) in target.iter_mut().zip(source) {
            *written = byte ^ word.to_le_bytes()[(position % 8) as usize];
            position += 1;
            if position % 8 == 0 {
                registers = next;
                (next, word) = registers.step(&self.tables, Step::Ordinary);
            }
        }
        *state = state_of(&registers, state[SIZE_MARK], position);
    }

    /// Writes the block in the source, enciphered with this key, to the target.
    pub fn encipher_block(&self, key: &[u8], source: &[u8], target: &mut [u8]) -> u64 {
        let number = block_number(key, source, target);
        if number == 0 {
            let t = |w| self.tables.t(w);
            let keys = kalyna::round_keys(&t, block_words(key));
            let block = kalyna::encipher(&t, &keys, block_words(source));
            target.copy_from_slice(&kalyna::bytes(block));
        }
        number
    }

    /// Writes the block in the source, deciphered with this key, to the target.
    pub fn decipher_block(&self, key: &[u8], source: &[u8], target: &mut [u8]) -> u64 {
        let number = block_number(key, source, target);
        if number == 0 {
            let (t, t_inverse) = (|w| self.tables.t(w), |w| self.tables.t_inverse(w));
            let keys = kalyna::round_keys(&t, block_words(key));
            let block = kalyna::decipher(&t_inverse, &keys, block_words(source));
            target.copy_from_slice(&kalyna::bytes(block));
        }
        number
    }

    /// What the cipher program must write for this input: a byte giving the key length, the key,
    /// 32 IV bytes, data to the end.
    pub fn cipher_program(&self, input: &[u8]) -> Vec<u8> {
        let (key, rest) = match input.split_first() {
            Some((&len, rest)) if usize::from(len) <= rest.len() => rest.split_at(len.into()),
            _ => return b"refused 1\n".to_vec(),
        };
        let (iv, data) = rest.split_at(rest.len().min(32));
        let mut state = BLANK;
        let number = self.open(key, iv, &mut state);
        if number != 0 {
            return format!("refused {number}\n").into_bytes();
        }
        let data = &data[..data.len().min(LIMIT as usize)];
        let mut written = vec![0; data.len()];
        assert_eq!(self.apply(&mut state, data, &mut written), 0);
        written
    }
}
