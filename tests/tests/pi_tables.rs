//! The four π tables, which the proved library and the other implementation have from one file: the
//! published vectors of DSTU 7624:2014, where they come from, and which entries of the tables these
//! and the published vectors of Strumok look up.

use std::cell::RefCell;
use strumok_tests::cipher::{Registers, Step};
use strumok_tests::field::Tables;
use strumok_tests::kalyna::{bytes, decipher, encipher, round_keys, words};
use strumok_tests::vectors::{published, published_blocks};

/// For each entry of π0 .. π3, whether it was looked up.
struct LookedUp([[bool; 256]; 4]);

impl LookedUp {
    /// Notes what T of w looks up: byte j in π(j mod 4).
    fn note(&mut self, w: u64) {
        for (j, byte) in w.to_le_bytes().into_iter().enumerate() {
            self.0[j % 4][usize::from(byte)] = true;
        }
    }

    /// Table and index of each entry that was not.
    fn missing(&self) -> Vec<(usize, usize)> {
        let entries = (0..4).flat_map(|table| (0..256).map(move |index| (table, index)));
        entries.filter(|&(table, i)| !self.0[table][i]).collect()
    }
}

/// Enciphers the vectors of DSTU 7624, and notes what that and the round keys look up.
fn run_kalyna(tables: &Tables, looked_up: &RefCell<LookedUp>) {
    let t = |w| {
        looked_up.borrow_mut().note(w);
        tables.t(w)
    };
    for (i, [key, plain, enciphered]) in published_blocks().iter().enumerate() {
        let keys = round_keys(&t, words(key));
        let ours = bytes(encipher(&t, &keys, words(plain)));
        assert_eq!(ours, *enciphered, "DSTU 7624, vector {}", i + 1);
    }
}

/// Makes the words Z0 .. Z7 of the vectors of DSTU 8845, and notes what T of r1 looks up in each of
/// the 40 steps before Z7; the step's r2 is that T. The step that hands over Z7 looks up what no
/// published word depends on, and is not noted.
fn run_strumok(tables: &Tables, looked_up: &RefCell<LookedUp>) {
    for (i, vector) in published().iter().enumerate() {
        let mut registers = Registers::load(&vector.key, &vector.iv);
        let mut step = |kind| {
            looked_up.borrow_mut().note(registers.r1);
            let (next, word) = registers.step(tables, kind);
            registers = next;
            word
        };
        for _ in 0..32 {
            step(Step::Initialisation);
        }
        let mut words: Vec<u64> = (0..8).map(|_| step(Step::Ordinary)).collect();
        words.push(registers.step(tables, Step::Ordinary).1);
        assert_eq!(words[1..], vector.words, "DSTU 8845, vector {}", i + 1);
    }
}

#[test]
fn the_tables_give_the_published_vectors_of_dstu_7624() {
    let tables = Tables::new();
    let (t, t_inverse) = (|w| tables.t(w), |w| tables.t_inverse(w));
    for (i, [key, plain, enciphered]) in published_blocks().iter().enumerate() {
        let keys = round_keys(&t, words(key));
        let ours = bytes(encipher(&t, &keys, words(plain)));
        assert_eq!(ours, *enciphered, "vector {}", i + 1);
        let ours = bytes(decipher(&t_inverse, &keys, words(enciphered)));
        assert_eq!(ours, *plain, "vector {}, deciphered", i + 1);
    }
}

/// The one entry that no vector looks up is the byte that the others of its table leave.
#[test]
fn the_published_vectors_decide_every_entry() {
    let tables = Tables::new();
    for (i, pi) in tables.pi.iter().enumerate() {
        let mut sorted = *pi;
        sorted.sort_unstable();
        assert!(sorted.into_iter().eq(0..=255), "π{i} is a permutation");
    }
    let looked_up = RefCell::new(LookedUp([[false; 256]; 4]));
    run_kalyna(&tables, &looked_up);
    run_strumok(&tables, &looked_up);
    assert_eq!(looked_up.borrow().missing(), [(1, 0xa9)], "table and index");
}
