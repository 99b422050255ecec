//! The proved library's block cipher beside the other implementation: the published vectors, random
//! keys and blocks and those at the edges, deciphering of what was enciphered and the reverse, and
//! every length of key, source and target about 32.
//!
//! After every call the answer's number, every byte of the target and the guard bytes around all
//! buffers are compared, and that key and source are what they were; and after a refused call, that
//! the target is too. The environment variable STRUMOK_SEED (decimal) chooses other inputs.

use std::ops::Range;
use strumok::block;
use strumok_tests::calls::Cipher;
use strumok_tests::random::{seed, Random};
use strumok_tests::vectors::{hex, published_blocks};

type Block = [u8; 32];

/// One of the two calls.
#[derive(Clone, Copy, Debug)]
enum Call {
    Encipher,
    Decipher,
}

use Call::{Decipher, Encipher};

impl Call {
    /// The call that undoes this one.
    fn reverse(self) -> Call {
        match self {
            Encipher => Decipher,
            Decipher => Encipher,
        }
    }
}

/// A buffer between guard bytes, which no call may alter.
#[derive(Clone, PartialEq)]
struct Guarded {
    bytes: Vec<u8>,
    buffer: Range<usize>,
}

impl Guarded {
    fn get(&self) -> &[u8] {
        &self.bytes[self.buffer.clone()]
    }

    fn get_mut(&mut self) -> &mut [u8] {
        &mut self.bytes[self.buffer.clone()]
    }
}

/// Key, source and target.
type Lent = [Guarded; 3];

/// Makes a call of the other implementation.
fn call_other(cipher: &Cipher, call: Call, [key, source, target]: &mut Lent) -> u64 {
    match call {
        Encipher => cipher.encipher_block(key.get(), source.get(), target.get_mut()),
        Decipher => cipher.decipher_block(key.get(), source.get(), target.get_mut()),
    }
}

/// Makes a call of the proved library.
fn call_library(call: Call, [key, source, target]: &mut Lent) -> u64 {
    let answer = match call {
        Encipher => block::encipher(key.get(), source.get(), target.get_mut()),
        Decipher => block::decipher(key.get(), source.get(), target.get_mut()),
    };
    answer.err().map_or(0, |refusal| refusal.number())
}

struct Comparison {
    other: Cipher,
    seed: u64,
    random: Random,
    calls: u64,
    /// How often 0 and 15 were answered.
    accepted: u64,
    refused: u64,
}

impl Comparison {
    fn new() -> Comparison {
        Comparison {
            other: Cipher::new(),
            seed: seed(),
            random: Random::new(seed()),
            calls: 0,
            accepted: 0,
            refused: 0,
        }
    }

    /// Makes a call of both, compares what they answer and leave, and hands over the target.
    fn run(&mut self, call: Call, key: &[u8], source: &[u8], target: &[u8]) -> Vec<u8> {
        let given = [key, source, target].map(|buffer| self.guarded(buffer));
        let (mut other, mut library) = (given.clone(), given.clone());
        let number = call_other(&self.other, call, &mut other);
        let library_number = call_library(call, &mut library);
        self.calls += 1;
        let about = || {
            format!(
                "STRUMOK_SEED={}, call {}: {call:?}, key {}, source {}, target {}",
                self.seed,
                self.calls,
                shown(key),
                shown(source),
                shown(target),
            )
        };
        assert_eq!(library_number, number, "the numbers of {}", about());
        let targets = [other[2].get(), library[2].get()].map(hex);
        assert_eq!(targets[1], targets[0], "the targets of {}", about());
        assert!(library == other, "the guard bytes of {}", about());
        assert!(library[..2] == given[..2], "key and source of {}", about());

        let lengths = [key.len(), source.len(), target.len()];
        let must = if lengths == [32; 3] { 0 } else { 15 };
        assert_eq!(number, must, "the number of {}", about());
        if must == 0 {
            self.accepted += 1;
        } else {
            assert!(library == given, "what is left by {}", about());
            self.refused += 1;
        }
        library[2].get().to_vec()
    }

    /// Makes a call with a key and a block, and the other on what it wrote, which gives the block
    /// back. Hands over what the first wrote.
    fn there_and_back(&mut self, call: Call, key: &Block, source: &Block) -> Block {
        let target = self.random.bytes(32);
        let written = self.run(call, key, source, &target);
        let back = self.run(call.reverse(), key, &written, &target);
        assert_eq!(back, source, "{call:?} and back, key {}", hex(key));
        written.try_into().expect("32 bytes")
    }

    /// A copy of these bytes between guard bytes, beginning at any alignment.
    fn guarded(&mut self, buffer: &[u8]) -> Guarded {
        let before = 16 + self.random.below(8);
        let mut bytes = self.random.bytes(before);
        bytes.extend_from_slice(buffer);
        bytes.extend(self.random.bytes(16));
        Guarded {
            bytes,
            buffer: before..before + buffer.len(),
        }
    }

    fn block(&mut self) -> Block {
        self.random.bytes(32).try_into().expect("32 bytes")
    }

    /// A block whose halves are equal.
    fn equal_halves(&mut self) -> Block {
        let mut block = self.block();
        block.copy_within(..16, 16);
        block
    }

    /// Blocks and keys at the edges: all bytes equal, equal halves, equal words, each bit alone, and
    /// each alone missing.
    fn edges(&mut self) -> Vec<Block> {
        let mut edges: Vec<Block> = [0, 0xff, 1, 0x80, 0x7f, 0xa9].map(|byte| [byte; 32]).into();
        edges.extend((0..4).map(|_| self.equal_halves()));
        let word = self.random.bytes(8);
        edges.push(word.repeat(4).try_into().expect("32 bytes"));
        for bit in 0..256 {
            let mut block = [0; 32];
            block[bit / 8] = 1 << (bit % 8);
            edges.push(block);
            edges.push(block.map(|byte| !byte));
        }
        edges
    }

    /// Keys of any kind with blocks of any kind.
    fn random_blocks(&mut self) {
        for _ in 0..5_000 {
            let (key, source) = (self.block(), self.block());
            self.there_and_back(Encipher, &key, &source);
            self.there_and_back(Decipher, &key, &source);
        }
    }

    /// Each block at the edges under some keys, and each such key with some blocks.
    fn blocks_at_edges(&mut self) {
        let edges = self.edges();
        let few: Vec<Block> = edges[..12].to_vec();
        let random = [self.block(), self.block()];
        for edge in &edges {
            for other in few.iter().chain(&random) {
                for call in [Encipher, Decipher] {
                    self.there_and_back(call, edge, other);
                    self.there_and_back(call, other, edge);
                }
            }
        }
    }

    /// Each of the calls with key, source and target of these lengths.
    fn lengths(&mut self, key: usize, source: usize, target: usize) {
        let (key, source) = (self.random.bytes(key), self.random.bytes(source));
        let target = self.random.bytes(target);
        for call in [Encipher, Decipher] {
            self.run(call, &key, &source, &target);
        }
    }

    /// All lengths up to 64 of any two of the three, the third having 32 bytes.
    fn lengths_of_two(&mut self) {
        for a in 0..=64 {
            for b in 0..=64 {
                self.lengths(a, b, 32);
                self.lengths(a, 32, b);
                self.lengths(32, a, b);
            }
        }
    }

    /// Longer ones, those that are 32 but for a high bit among them, alone and together.
    fn longer(&mut self) {
        for long in [65, 96, 128, 255, 256, 256 + 32, 1000, 65_536 + 32, 1 << 20] {
            for [key, source, target] in [
                [long, 32, 32],
                [32, long, 32],
                [32, 32, long],
                [long, long, 32],
                [long, 32, long],
                [32, long, long],
                [long; 3],
            ] {
                self.lengths(key, source, target);
            }
        }
    }

    /// The comparison is of some size, and answered with both numbers.
    fn report(&self, name: &str, accepted: u64, refused: u64) {
        let Comparison { calls, .. } = self;
        let counts = [self.accepted, self.refused];
        println!("{name}: {calls} calls; answers 0 and 15: {counts:?}");
        assert_eq!(counts, [accepted, refused], "calls of each number");
    }
}

/// The bytes of a short buffer, the length of a longer one.
fn shown(buffer: &[u8]) -> String {
    match buffer.len() {
        0..=80 => format!("[{}]", hex(buffer)),
        len => format!("{len} bytes"),
    }
}

#[test]
fn both_give_the_published_vectors() {
    let mut comparison = Comparison::new();
    for (i, [key, plain, enciphered]) in published_blocks().iter().enumerate() {
        let written = comparison.there_and_back(Encipher, key, plain);
        assert_eq!(written, *enciphered, "vector {}", i + 1);
        let written = comparison.there_and_back(Decipher, key, enciphered);
        assert_eq!(written, *plain, "vector {}, deciphered", i + 1);
    }
    comparison.report("published blocks", 5 * 4, 0);
}

#[test]
fn blocks_as_by_the_other_implementation() {
    let mut comparison = Comparison::new();
    comparison.random_blocks();
    comparison.blocks_at_edges();
    let edges = comparison.edges().len() as u64;
    assert_eq!(edges, 11 + 2 * 256);
    comparison.report("blocks", 5_000 * 4 + edges * 14 * 8, 0);
}

#[test]
fn lengths_as_by_the_other_implementation() {
    let mut comparison = Comparison::new();
    comparison.lengths_of_two();
    comparison.longer();
    let refused = 3 * (65 * 65 - 1) * 2 + 9 * 7 * 2;
    comparison.report("lengths", 3 * 2, refused);
}

/// A key of 64 bytes wrapped in two calls: equal halves show, and a changed wrapped key is another
/// key.
#[test]
fn keys_of_64_bytes() {
    let mut comparison = Comparison::new();
    for _ in 0..200 {
        let (master_key, half) = (comparison.block(), comparison.block());
        let mut other_half = half;
        other_half[comparison.random.below(32)] ^= 1 << comparison.random.below(8);
        let wrapped = comparison.there_and_back(Encipher, &master_key, &half);
        let again = comparison.there_and_back(Encipher, &master_key, &half);
        let other = comparison.there_and_back(Encipher, &master_key, &other_half);
        assert_eq!(wrapped, again, "equal halves");
        assert_ne!(wrapped, other, "other halves");

        let mut changed = wrapped;
        changed[comparison.random.below(32)] ^= 1 << comparison.random.below(8);
        let key = comparison.there_and_back(Decipher, &master_key, &changed);
        assert_ne!(key, half, "a changed half");
    }
    comparison.report("keys of 64 bytes", 200 * 8, 0);
}
