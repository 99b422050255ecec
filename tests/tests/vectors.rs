//! The published vectors, run with the other implementation and with the proved library; the
//! worked rows, the tables and the keys of zeros of the other implementation; and the lists of the
//! programs `vectors`, `edges`, `checks` and `step_words`, compared with those of the proved
//! programs.

use std::path::Path;
use std::process::Command;
use strumok_tests::calls::{Cipher, BLANK};
use strumok_tests::cipher::{f, Registers, Step};
use strumok_tests::field::{
    g, matrix_times, multiply, over_alpha, times_alpha, Tables, M, M_INVERSE,
};
use strumok_tests::random::Random;
use strumok_tests::vectors::{iv_of_k4, key_of_k4, published, words};

const ONES: u64 = u64::MAX;
const T_OF_ZERO: u64 = 0x14e6cc3f14e6cc3f;

#[test]
fn the_other_implementation_gives_the_published_vectors() {
    let cipher = Cipher::new();
    for (i, vector) in published().iter().enumerate() {
        let (mut state, mut target) = (BLANK, [0; 64]);
        assert_eq!(cipher.open(&vector.key, &vector.iv, &mut state), 0);
        assert_eq!(cipher.apply(&mut state, &[0; 64], &mut target), 0);
        assert_eq!(words(&target), vector.words, "vector {}", i + 1);
    }
}

#[test]
fn the_proved_library_gives_the_published_vectors() {
    for (i, vector) in published().iter().enumerate() {
        let mut target = [0; 64];
        let mut state = strumok::State::opened(&vector.key, &vector.iv).expect("opened");
        assert_eq!(state.apply(&[0; 64], &mut target), Ok(()));
        assert_eq!(words(&target), vector.words, "vector {}", i + 1);
    }
}

/// The cells that hold only ones, the other cells and r1 and r2 being 0.
fn loading_with_ones(ones: &[usize]) -> Registers {
    let mut cells = [0; 16];
    for &j in ones {
        cells[j] = ONES;
    }
    let (r1, r2) = (0, 0);
    Registers { cells, r1, r2 }
}

#[test]
fn worked_rows() {
    let tables = Tables::new();
    // Rows 1 to 4: the tables of α and its inverse.
    assert_eq!(tables.alpha[1], 0xd73f04125e000004);
    assert_eq!(tables.alpha[2], 0xb37e0824bc000008);
    assert_eq!(tables.alpha_inverse[1], 0x47fcc6018a990000);
    assert_eq!(tables.alpha_inverse[2], 0x8ee59102092f0000);
    // Row 5: α times its inverse.
    assert_eq!(tables.times_alpha(0x47fcc6018a990000), 1);
    // Row 6: T of 0, and its inverse.
    assert_eq!(tables.t(0), T_OF_ZERO);
    assert_eq!(tables.t_inverse(T_OF_ZERO), 0);
    // Row 7: F drops the carry.
    assert_eq!(f(ONES, 1, 5), 5);
    // Row 8: the loading of zeros, 256.
    let loading = Registers::load(&[0; 32], &[0; 32]);
    assert_eq!(loading, loading_with_ones(&[15, 13, 10, 7, 6]));
    // Rows 9 and 10: one step of either kind from there. The word handed over is that of the
    // loading, whose s15 is all ones and whose r1, r2 and s0 are 0.
    let (initial, word) = loading.step(&tables, Step::Initialisation);
    assert_eq!((initial.r1, initial.r2), (ONES, T_OF_ZERO));
    assert_eq!((initial.cells[15], word), (0, ONES));
    let (ordinary, word) = loading.step(&tables, Step::Ordinary);
    assert_eq!((ordinary.r1, ordinary.r2), (ONES, T_OF_ZERO));
    assert_eq!((ordinary.cells[15], word), (ONES, ONES));
    // Row 11: two pairs of key and IV, 512, that load alike. Word 7 of the key and word 3 of the
    // IV come first, so that the last bytes of K4, IV3 and IV1 are bytes 31, 7 and 23.
    let (mut key, mut iv) = ([0; 64], [0; 32]);
    key[31] = 1;
    iv[7] = 1;
    iv[23] = 1;
    let zeros = Registers::load(&[0; 64], &[0; 32]);
    assert_eq!(zeros, loading_with_ones(&[14, 11, 9, 7]));
    assert_eq!(Registers::load(&key, &iv), zeros);
}

#[test]
fn the_other_implementation_refuses_keys_of_zeros() {
    let cipher = Cipher::new();
    for (key_len, iv_len) in (0..=80).flat_map(|key| (0..=40).map(move |iv| (key, iv))) {
        let must = match (key_len, iv_len) {
            (32 | 64, 32) => 14,
            (32 | 64, _) => 2,
            _ => 1,
        };
        let mut state = [ONES; 20];
        let number = cipher.open(&vec![0; key_len], &vec![5; iv_len], &mut state);
        assert_eq!(number, must, "key length {key_len}, IV length {iv_len}");
        assert_eq!(state, BLANK, "key length {key_len}, IV length {iv_len}");
    }
    for len in [32, 64] {
        for i in 0..len {
            let mut key = vec![0; len];
            key[i] = 1;
            assert_eq!(cipher.open(&key, &[5; 32], &mut BLANK.clone()), 0);
        }
    }
}

/// Words for K4: each bit alone, all ones, and random ones.
fn words_for_k4() -> Vec<u64> {
    let mut random = Random::new(2);
    let mut words: Vec<u64> = (0..64).map(|bit| 1 << bit).collect();
    words.push(ONES);
    words.extend((0..100).map(|_| random.word()));
    words
}

/// With K4 = IV3 = IV1 and all other words zero, 512, a key that is accepted loads what the key of
/// zeros loads with an IV of zeros: the IV tells the check which of the two it is.
#[test]
fn the_other_implementation_tells_keys_that_load_alike() {
    let cipher = Cipher::new();
    let zeros = Registers::load(&[0; 64], &[0; 32]);
    for word in words_for_k4() {
        let (key, iv) = (key_of_k4(word), iv_of_k4(&[0; 32], word));
        assert_eq!(Registers::load(&key, &iv), zeros, "{word:016x}");
        let mut state = BLANK;
        assert_eq!(cipher.open(&key, &iv, &mut state), 0, "{word:016x}");

        let mut found = [0xff; 64];
        let number = cipher.check(&state, &[0; 32], &mut found);
        assert_eq!((number, found), (10, [0xff; 64]), "{word:016x}");
        assert_eq!(cipher.check(&state, &iv, &mut found), 0, "{word:016x}");
        assert_eq!(found[..], key, "{word:016x}");
    }
}

#[test]
fn tables_follow_their_rules() {
    let tables = Tables::new();
    let g = g();
    assert_eq!(g, [0x04, 0x00, 0x00, 0x5e, 0x12, 0x04, 0x3f, 0xd7]);
    let begin = [0xa8435f06, 0xcebbeb92, 0x93d99ab5, 0x688dca4d];
    for (pi, begin) in tables.pi.iter().zip(begin) {
        assert_eq!(u32::from_be_bytes([pi[0], pi[1], pi[2], pi[3]]), begin);
        let mut sorted = pi.to_vec();
        sorted.sort_unstable();
        assert!(sorted.into_iter().eq(0..=255), "π is a permutation");
    }
    let first = [0xd7, 0x3f, 0x04, 0x12, 0x5e, 0x00, 0x00, 0x04];
    let second = [0x47, 0xfc, 0xc6, 0x01, 0x8a, 0x99, 0x00, 0x00];
    for c in 0..=255 {
        let entry = |row: [u8; 8]| u64::from_be_bytes(row.map(|byte| multiply(c, byte)));
        assert_eq!(tables.alpha[usize::from(c)], entry(first));
        assert_eq!(tables.alpha_inverse[usize::from(c)], entry(second));
    }
    let mut random = Random::new(1);
    for _ in 0..1000 {
        let w = random.word();
        assert_eq!(tables.times_alpha(w), times_alpha(&g, w));
        assert_eq!(tables.over_alpha(w), over_alpha(&g, w));
        assert_eq!(tables.over_alpha(tables.times_alpha(w)), w);
        assert_eq!(matrix_times(&M_INVERSE, matrix_times(&M, w)), w);
        let mut r = w.to_le_bytes();
        for (j, byte) in r.iter_mut().enumerate() {
            *byte = tables.pi[j % 4][usize::from(*byte)];
        }
        assert_eq!(tables.t(w), matrix_times(&M, u64::from_le_bytes(r)));
        assert_eq!(tables.t_inverse(tables.t(w)), w);
    }
}

/// The other implementation's program prints what the proved crate's file `stdout` holds, and as
/// many lines.
fn prints_the_same_list(program: &str, name: &str, lines: usize) {
    let crates = Path::new(env!("CARGO_MANIFEST_DIR")).join("../crates");
    let path = crates.join(name).join("stdout");
    let proved = std::fs::read_to_string(&path)
        .unwrap_or_else(|error| panic!("the proved program's list, {}: {error}", path.display()));
    let run = Command::new(program).output();
    let ours = String::from_utf8(run.expect("the program runs").stdout).unwrap();
    for (i, (ours, proved)) in ours.lines().zip(proved.lines()).enumerate() {
        assert_eq!(ours, proved, "line {} of {}", i + 1, path.display());
    }
    assert_eq!(ours, proved, "the list and {}", path.display());
    assert_eq!(ours.lines().count(), lines);
}

#[test]
fn the_proved_programs_print_the_same_lists() {
    let vectors = 8 + 2 + 2 * 3 + 5 * 2 + 2 * 6;
    prints_the_same_list(env!("CARGO_BIN_EXE_vectors"), "vectors", vectors);
    prints_the_same_list(env!("CARGO_BIN_EXE_edges"), "edges", 6 + 2 * 10);
    prints_the_same_list(env!("CARGO_BIN_EXE_checks"), "checks", 2 * 7);
    prints_the_same_list(env!("CARGO_BIN_EXE_step_words"), "step_words", 2 * 2 * 2);
}
