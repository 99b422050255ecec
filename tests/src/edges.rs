//! The lists that the programs `edges`, `checks` and `step_words` print. Proved programs print the
//! same lists.

use crate::calls::{Cipher, State, BLANK, LIMIT, POSITION, R1};
use crate::cipher::{Registers, Step};
use crate::field::Tables;
use crate::vectors::hex;
use std::fmt::Write;

/// The list of `edges`: key lengths, then portions, moves and a window for both sizes.
pub fn edges(cipher: &Cipher) -> String {
    let mut list = String::new();
    for len in [31, 32, 33, 63, 64, 65] {
        let number = cipher.open(&key(len), &iv(), &mut BLANK.clone());
        writeln!(list, "open {len}: {number}").unwrap();
    }
    list + &for_both_sizes(|key| edges_of(cipher, key))
}

/// The list of `checks`, for both sizes.
pub fn checks(cipher: &Cipher) -> String {
    for_both_sizes(|key| checks_of(cipher, key))
}

/// The list of `step_words`, for both sizes.
pub fn step_words(tables: &Tables) -> String {
    for_both_sizes(|key| step_words_of(tables, key))
}

/// Bytes from 1 on.
fn key(len: u8) -> Vec<u8> {
    (1..=len).collect()
}

fn iv() -> Vec<u8> {
    (101..133).collect()
}

/// The IV with its last bit changed.
fn another_iv() -> Vec<u8> {
    let mut another = iv();
    another[31] ^= 1;
    another
}

/// The lines for a key of either size, each behind its bits.
fn for_both_sizes(lines: impl Fn(&[u8]) -> Vec<String>) -> String {
    let mut list = String::new();
    for len in [32, 64] {
        for line in lines(&key(len)) {
            writeln!(list, "{} {line}", 8 * u32::from(len)).unwrap();
        }
    }
    list
}

/// The state of a key at a position.
fn at(cipher: &Cipher, key: &[u8], position: u64) -> State {
    let mut state = BLANK;
    assert_eq!(cipher.open(key, &iv(), &mut state), 0);
    assert_eq!(cipher.move_by(&mut state, position as i64), 0);
    state
}

/// A portion of zeros into a target of sixteen bytes FF.
fn portion(cipher: &Cipher, state: &mut State, count: usize) -> String {
    let from = state[POSITION];
    let mut target = [0xff; 16];
    let number = cipher.apply(state, &[0; 16][..count], &mut target);
    let (position, target) = (state[POSITION], hex(&target));
    format!("apply {count} at {from}: {number} {position} {target}")
}

fn edges_of(cipher: &Cipher, key: &[u8]) -> Vec<String> {
    let mut lines = Vec::new();
    for count in [1, 2] {
        lines.push(portion(cipher, &mut at(cipher, key, LIMIT - 1), count));
    }

    for distance in [-5, -6, i64::MIN] {
        let mut state = at(cipher, key, 5);
        let number = cipher.move_by(&mut state, distance);
        let position = state[POSITION];
        lines.push(format!("move {distance} at 5: {number} {position}"));
    }

    let mut state = at(cipher, key, 5);
    let mut buffer = [0; 16];
    let number = cipher.window(&mut state, &mut buffer, usize::MAX, 1);
    let (position, buffer) = (state[POSITION], hex(&buffer));
    lines.push(format!(
        "window {} 1 at 5: {number} {position} {buffer}",
        usize::MAX
    ));

    // Thirteen bytes at once, and as portions of 5, 0 and 8.
    lines.push(portion(cipher, &mut at(cipher, key, 3), 13));
    let mut state = at(cipher, key, 3);
    for count in [5, 0, 8] {
        lines.push(portion(cipher, &mut state, count));
    }
    lines
}

fn checks_of(cipher: &Cipher, key: &[u8]) -> Vec<String> {
    let check = |state: &State, iv: &[u8]| -> String {
        let mut found = vec![0xff; key.len()];
        let number = cipher.check(state, iv, &mut found);
        format!("{number} {}", hex(&found))
    };
    let mut lines = Vec::new();
    for position in [0, 1, 7, 8, LIMIT] {
        let checked = check(&at(cipher, key, position), &iv());
        lines.push(format!("check at {position}: {checked}"));
    }
    let mut changed = at(cipher, key, 8);
    changed[R1] ^= 1;
    lines.push(format!(
        "check at 8 with bit 0 of r1 changed: {}",
        check(&changed, &iv())
    ));
    lines.push(format!(
        "check at 8 with another IV: {}",
        check(&at(cipher, key, 8), &another_iv())
    ));
    lines
}

/// The words that the 32 steps of initialisation hand over from a loading on, and nine ordinary
/// steps after them: of two IVs.
fn step_words_of(tables: &Tables, key: &[u8]) -> Vec<String> {
    let line = |name: &str, words: Vec<u64>| -> String {
        let words: String = words.iter().map(|word| format!(" {word:016x}")).collect();
        format!("{name}:{words}")
    };
    let mut lines = Vec::new();
    for iv in [iv(), another_iv()] {
        let loading = Registers::load(key, &iv);
        let (registers, words) = loading.steps(tables, Step::Initialisation, 32);
        lines.push(line("initialisation", words));
        let (_, words) = registers.steps(tables, Step::Ordinary, 9);
        lines.push(line("ordinary", words));
    }
    lines
}
