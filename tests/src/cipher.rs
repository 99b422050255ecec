//! The registers of the cipher: loading, steps forward and back, keystream words, and the key that
//! a loading holds.

use crate::field::Tables;

/// The sixteen cells and the registers r1 and r2.
#[derive(Clone, Copy, Debug, PartialEq, Eq)]
pub struct Registers {
    pub cells: [u64; 16],
    pub r1: u64,
    pub r2: u64,
}

/// The two kinds of step.
#[derive(Clone, Copy, Debug, PartialEq, Eq)]
pub enum Step {
    Initialisation,
    Ordinary,
}

/// F(x, y, z) = (x + y) ⊕ z, without the carry out of 64 bits.
pub fn f(x: u64, y: u64, z: u64) -> u64 {
    x.wrapping_add(y) ^ z
}

/// The words of a key or IV, word 0 first: its bytes hold the highest word first, each word most
/// significant byte first.
fn words(bytes: &[u8]) -> Vec<u64> {
    bytes
        .chunks_exact(8)
        .rev()
        .map(|word| u64::from_be_bytes(word.try_into().expect("eight bytes")))
        .collect()
}

/// The bytes of these words, word 0 being last.
fn bytes(words: &[u64]) -> Vec<u8> {
    words.iter().rev().flat_map(|w| w.to_be_bytes()).collect()
}

impl Registers {
    /// The loading of a key of 32 or 64 bytes and an IV of 32.
    pub fn load(key: &[u8], iv: &[u8]) -> Registers {
        let (k, iv) = (words(key), words(iv));
        // From s15 down to s0.
        #[rustfmt::skip]
        let mut cells = if k.len() == 4 {
            [
                !k[0], k[1], !k[2], k[3],
                k[0], !k[1], k[2], k[3],
                !k[0], !k[1], k[2] ^ iv[3], k[3],
                k[0] ^ iv[2], k[1] ^ iv[1], k[2], k[3] ^ iv[0],
            ]
        } else {
            [
                k[0], !k[1], k[2], k[3],
                !k[7], k[5], !k[6], k[4] ^ iv[3],
                !k[0], k[1], k[2] ^ iv[2], k[3],
                k[4] ^ iv[1], k[5], k[6], k[7] ^ iv[0],
            ]
        };
        cells.reverse();
        let (r1, r2) = (0, 0);
        Registers { cells, r1, r2 }
    }

    /// The key of this size (256 or 512) that loads to these registers with this IV, if there is
    /// one: each key word is read from one cell, then the loading is compared whole.
    pub fn loaded_key(&self, size: u64, iv: &[u8]) -> Option<Vec<u8>> {
        let s = &self.cells;
        let key = if size == 256 {
            bytes(&[s[11], s[14], s[9], s[12]])
        } else {
            let k4 = s[8] ^ words(iv)[3];
            bytes(&[s[15], s[6], s[13], s[12], k4, s[10], s[1], !s[11]])
        };
        if Registers::load(&key, iv) == *self {
            Some(key)
        } else {
            None
        }
    }

    /// One step forward: the new registers, and the keystream word of those it left.
    pub fn step(&self, tables: &Tables, kind: Step) -> (Registers, u64) {
        let s = &self.cells;
        let mut last = tables.times_alpha(s[0]) ^ tables.over_alpha(s[11]) ^ s[13];
        if kind == Step::Initialisation {
            last ^= f(s[15], self.r1, self.r2);
        }
        let mut cells = [last; 16];
        cells[..15].copy_from_slice(&s[1..]);
        let registers = Registers {
            cells,
            r1: self.r2.wrapping_add(s[13]),
            r2: tables.t(self.r1),
        };
        (registers, self.keystream_word())
    }

    /// This many steps forward: the registers after them, and the words that they handed over.
    pub fn steps(&self, tables: &Tables, kind: Step, steps: u64) -> (Registers, Vec<u64>) {
        let mut registers = *self;
        let mut words = Vec::new();
        for _ in 0..steps {
            let (next, word) = registers.step(tables, kind);
            registers = next;
            words.push(word);
        }
        (registers, words)
    }

    /// One step back: the registers from which a step of this kind leads to these.
    pub fn step_back(&self, tables: &Tables, kind: Step) -> Registers {
        let mut old = Registers {
            cells: [0; 16],
            r1: tables.t_inverse(self.r2),
            r2: 0,
        };
        old.cells[1..].copy_from_slice(&self.cells[..15]);
        let s = &old.cells;
        old.r2 = self.r1.wrapping_sub(s[13]);
        let mut first = self.cells[15] ^ tables.over_alpha(s[11]) ^ s[13];
        if kind == Step::Initialisation {
            first ^= f(s[15], old.r1, old.r2);
        }
        old.cells[0] = tables.over_alpha(first);
        old
    }

    /// The registers this many ordinary steps on.
    pub fn forward(&self, tables: &Tables, steps: u64) -> Registers {
        (0..steps).fold(*self, |registers, _| {
            registers.step(tables, Step::Ordinary).0
        })
    }

    /// The registers this many ordinary steps back.
    pub fn back(&self, tables: &Tables, steps: u64) -> Registers {
        (0..steps).fold(*self, |registers, _| {
            registers.step_back(tables, Step::Ordinary)
        })
    }

    /// From a loading to S_0: 32 steps of initialisation and an ordinary one.
    pub fn initialise(&self, tables: &Tables) -> Registers {
        self.steps(tables, Step::Initialisation, 32)
            .0
            .forward(tables, 1)
    }

    /// From S_0 back to the loading.
    pub fn initialise_back(&self, tables: &Tables) -> Registers {
        let registers = self.step_back(tables, Step::Ordinary);
        (0..32).fold(registers, |registers, _| {
            registers.step_back(tables, Step::Initialisation)
        })
    }

    /// The keystream word Z of these registers.
    fn keystream_word(&self) -> u64 {
        f(self.cells[15], self.r1, self.r2) ^ self.cells[0]
    }
}
