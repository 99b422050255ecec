//! The proved library's stream cipher beside the other implementation, on random inputs and at the
//! edges.
//!
//! After every call the answer's number, all twenty words of the state and every byte of every
//! buffer are compared, and the guard bytes around the buffers too; and after a refused call, that
//! they are what they were, but for the blank state of an opening. The environment variable
//! STRUMOK_SEED (decimal) chooses other inputs.

use std::ops::Range;
use strumok_tests::calls::{state_of, Cipher, State, BLANK, LIMIT, POSITION, SIZE_MARK};
use strumok_tests::cipher::Registers;
use strumok_tests::random::{seed, Random};
use strumok_tests::vectors::{hex, iv_of_k4, key_of_k4};

/// The numbers that these calls answer.
const NUMBERS: [usize; 12] = [0, 1, 2, 3, 4, 5, 6, 7, 8, 9, 10, 14];

/// A call, without the state and the buffers that it is lent.
#[derive(Clone, Copy, Debug)]
enum Call {
    /// With key and IV.
    Open,
    /// With source and target.
    Apply,
    /// With one buffer.
    Window { start: usize, count: usize },
    /// Without a buffer.
    Move { distance: i64 },
    /// With IV and key target.
    Check,
}

/// What a call is lent: a state and two buffers, empty where the call takes fewer.
#[derive(Clone)]
struct Lent {
    state: State,
    buffers: [Guarded; 2],
}

/// A buffer between guard bytes, which no call may alter.
#[derive(Clone)]
struct Guarded {
    bytes: Vec<u8>,
    buffer: Range<usize>,
}

impl Guarded {
    fn buffer(&mut self) -> &mut [u8] {
        &mut self.bytes[self.buffer.clone()]
    }
}

/// Makes a call of the other implementation.
fn call_other(cipher: &Cipher, call: Call, lent: &mut Lent) -> u64 {
    let state = &mut lent.state;
    let [first, second] = &mut lent.buffers;
    let (first, second) = (first.buffer(), second.buffer());
    match call {
        Call::Open => cipher.open(first, second, state),
        Call::Apply => cipher.apply(state, first, second),
        Call::Window { start, count } => cipher.window(state, first, start, count),
        Call::Move { distance } => cipher.move_by(state, distance),
        Call::Check => cipher.check(state, first, second),
    }
}

/// Makes a call of the proved library.
fn call_library(call: Call, lent: &mut Lent) -> u64 {
    let mut state = strumok::State::from_words(lent.state);
    let [first, second] = &mut lent.buffers;
    let (first, second) = (first.buffer(), second.buffer());
    let answer = match call {
        Call::Open => state.open(first, second),
        Call::Apply => state.apply(first, second),
        Call::Window { start, count } => state.window(first, start, count),
        Call::Move { distance } => state.move_by(distance),
        Call::Check => state.check(first, second),
    };
    lent.state = *state.words();
    answer.err().map_or(0, |refusal| refusal.number())
}

/// What a call of each left differently: words of the state, and the first such byte of a buffer.
fn differences(other: &Lent, library: &Lent) -> Vec<String> {
    let mut found = Vec::new();
    for (i, (a, b)) in other.state.iter().zip(&library.state).enumerate() {
        if a != b {
            found.push(format!("word {i} of the state: {a:016x} and {b:016x}"));
        }
    }
    for (a, b) in other.buffers.iter().zip(&library.buffers) {
        if let Some(at) = (0..a.bytes.len()).find(|&at| a.bytes[at] != b.bytes[at]) {
            // Guard bytes before the buffer have negative numbers.
            let i = at as i64 - a.buffer.start as i64;
            let (len, a, b) = (a.buffer.len(), a.bytes[at], b.bytes[at]);
            found.push(format!("byte {i} of {len} lent: {a:02x} and {b:02x}"));
        }
    }
    found
}

/// What a refused call must leave of what it was given.
fn refused(call: Call, given: &Lent) -> Lent {
    let mut left = given.clone();
    if let Call::Open = call {
        left.state = BLANK;
    }
    left
}

/// A key, an IV, and the state that opening gave and later calls or damage altered.
struct Chain {
    key: Vec<u8>,
    iv: Vec<u8>,
    state: State,
}

struct Comparison {
    other: Cipher,
    seed: u64,
    random: Random,
    calls: u64,
    /// How often each number was answered.
    numbers: [u64; 15],
}

impl Comparison {
    fn new(seed: u64) -> Comparison {
        Comparison {
            other: Cipher::new(),
            seed,
            random: Random::new(seed),
            calls: 0,
            numbers: [0; 15],
        }
    }

    /// Makes a call of both, compares what they leave, and answers the number.
    fn run(&mut self, call: Call, state: &mut State, first: &[u8], second: &[u8]) -> u64 {
        let (number, left) = self.run_with_buffers(call, state, first, second);
        *state = left.state;
        number
    }

    /// Makes a call of both, compares what they leave, and answers the number and what they left.
    fn run_with_buffers(
        &mut self,
        call: Call,
        state: &State,
        first: &[u8],
        second: &[u8],
    ) -> (u64, Lent) {
        let given = Lent {
            state: *state,
            buffers: [self.guarded(first), self.guarded(second)],
        };
        let (mut other, mut library) = (given.clone(), given.clone());
        let number = call_other(&self.other, call, &mut other);
        let library_number = call_library(call, &mut library);
        let mut found = differences(&other, &library);
        self.calls += 1;
        if library_number != number {
            found.push(format!("number: {number} and {library_number}"));
        }
        if !found.is_empty() {
            panic!(
                "STRUMOK_SEED={}, call {}: {call:?}\nstate: {:016x?}\nbuffers: {}, {}\n\
                 the other implementation and the proved library differ:\n{}",
                self.seed,
                self.calls,
                given.state,
                shown(first),
                shown(second),
                found.join("\n")
            );
        }
        if number != 0 {
            let altered = differences(&refused(call, &given), &other);
            assert!(altered.is_empty(), "{call:?}, {number}: {altered:?}");
        }
        self.numbers[number as usize] += 1;
        (number, other)
    }

    /// Checks a state with this IV: the key that both wrote, or the number of the refusal.
    fn key_of(&mut self, state: &State, iv: &[u8]) -> Result<Vec<u8>, u64> {
        let target = self.random.bytes(state[SIZE_MARK] as usize / 8);
        let (number, mut left) = self.run_with_buffers(Call::Check, state, iv, &target);
        match number {
            0 => Ok(left.buffers[1].buffer().to_vec()),
            number => Err(number),
        }
    }

    /// The state at this position that a loading of a key of this length leads to, by the other
    /// implementation.
    fn state_from(&self, loading: &Registers, key_len: usize, position: u64) -> State {
        let registers = loading.initialise(&self.other.tables);
        let registers = registers.forward(&self.other.tables, position / 8);
        state_of(&registers, 8 * key_len as u64, position)
    }

    /// A copy of these bytes between guard bytes, beginning at any alignment.
    fn guarded(&mut self, buffer: &[u8]) -> Guarded {
        let mut bytes = self.random.bytes(16);
        bytes.resize(16 + self.random.below(8), 0x5a);
        let start = bytes.len();
        bytes.extend_from_slice(buffer);
        let end = bytes.len();
        bytes.extend(self.random.bytes(16));
        Guarded {
            bytes,
            buffer: start..end,
        }
    }

    /// A chain from a random key of this size; some keys and IVs are all zeros or all ones, but one
    /// bit of a key of zeros is changed.
    fn opened(&mut self, bits: usize) -> Chain {
        let mut bytes = |count| match self.random.below(16) {
            0 => vec![0; count],
            1 => vec![0xff; count],
            _ => self.random.bytes(count),
        };
        let (mut key, iv) = (bytes(bits / 8), bytes(32));
        if key.iter().all(|byte| *byte == 0) {
            key[self.random.below(bits / 8)] = 1 << self.random.below(8);
        }
        let mut state = BLANK;
        assert_eq!(self.run(Call::Open, &mut state, &key, &iv), 0);
        Chain { key, iv, state }
    }

    /// A length of a portion: mostly short, at times some tens of KiB.
    fn length(&mut self) -> usize {
        let most = match self.random.below(20) {
            0..=9 => 20,
            10..=15 => 300,
            16..=18 => 3_000,
            _ => 40_000,
        };
        self.random.between(0, most)
    }

    /// Applies a portion; the target is as long as the source, longer or shorter.
    fn apply(&mut self, chain: &mut Chain, count: usize) {
        let target = match self.random.below(4) {
            0 => count,
            1 | 2 => count + self.random.below(40),
            _ => self.random.between(0, count),
        };
        let (source, target) = (self.random.bytes(count), self.random.bytes(target));
        self.run(Call::Apply, &mut chain.state, &source, &target);
    }

    /// Works a window inside a buffer, at its edge or past its end.
    fn window(&mut self, chain: &mut Chain, len: usize) {
        let start = self.random.between(0, len);
        let rest = len - start;
        let few = self.random.below(20);
        let (start, count) = match self.random.below(16) {
            0..=6 => (start, self.random.between(0, rest)),
            7..=9 => (start, rest),
            10 => (start, rest + 1 + few),
            11 => (len + 1 + few, 0),
            12 => (usize::MAX - few, self.random.below(40)),
            13 => (few, usize::MAX - self.random.below(40)),
            14 => (usize::MAX, self.random.choose(&[0, 1, 2, len, usize::MAX])),
            _ => (self.random.word() as usize, self.random.word() as usize),
        };
        let buffer = self.random.bytes(len);
        let call = Call::Window { start, count };
        self.run(call, &mut chain.state, &buffer, &[]);
    }

    /// Moves forward or back, to the start, or past either end.
    fn move_by(&mut self, chain: &mut Chain) {
        let to_start = (chain.state[POSITION] as i64).wrapping_neg();
        let to_end = to_start.wrapping_add(LIMIT as i64);
        let few = self.random.below(20) as i64;
        let distance = match self.random.below(16) {
            0..=2 => self.length() as i64,
            3..=5 => -(self.length() as i64),
            6 => few,
            7 => -few,
            8 => to_start,
            9 => to_start.wrapping_add(few),
            10 => to_start.wrapping_sub(1 + few),
            11 => to_end.wrapping_add(1 + few),
            12 => i64::MIN + few,
            13 => i64::MAX - few,
            14 => self.random.choose(&[i64::MIN, i64::MAX]),
            _ => self.random.word() as i64,
        };
        self.run(Call::Move { distance }, &mut chain.state, &[], &[]);
    }

    /// Checks with the IV, one with a bit changed, or one of another length.
    fn check(&mut self, chain: &mut Chain) {
        let mut iv = chain.iv.clone();
        match self.random.below(6) {
            0 => iv[self.random.below(32)] ^= 1 << self.random.below(8),
            1 => iv.resize(self.random.below(40), 0),
            _ => {}
        }
        let len = match self.random.below(6) {
            0 => self.random.below(80),
            1 => self.random.choose(&[0, 31, 32, 33, 63, 64, 65]),
            2 => chain.key.len(),
            _ => chain.state[SIZE_MARK].min(800) as usize / 8,
        };
        let target = self.random.bytes(len);
        self.run(Call::Check, &mut chain.state, &iv, &target);
    }

    /// Any call but an opening.
    fn any_call(&mut self, chain: &mut Chain) {
        let length = self.length();
        match self.random.below(10) {
            0..=3 => self.apply(chain, length),
            4..=6 => self.window(chain, length),
            7 | 8 => self.move_by(chain),
            _ => self.check(chain),
        }
    }

    /// One of each call but an opening, with little data.
    fn each_call(&mut self, chain: &mut Chain) {
        let length = self.random.below(20);
        self.check(chain);
        self.apply(chain, length);
        self.window(chain, length);
        self.move_by(chain);
    }

    /// A state with a bit changed, with other registers, size mark or position.
    fn damaged(&mut self, state: &State) -> State {
        let mut state = *state;
        let word = self.random.word();
        match self.random.below(8) {
            0..=2 => state[self.random.below(18)] ^= 1 << (word % 64),
            3 => (0..18).for_each(|i| state[i] = self.random.word()),
            4 => state[SIZE_MARK] ^= 256 ^ 512,
            5 => state[SIZE_MARK] = self.random.choose(&[0, 32, 64, 255, 768, 1 << 63, word]),
            6 => state[POSITION] = LIMIT + 1 + word % 20,
            _ => state[POSITION] = self.random.choose(&[u64::MAX, 1 << 63, 1 << 32, word]),
        }
        state
    }

    /// Chains of calls from a fresh opening, damaged at times.
    fn chains(&mut self) {
        for i in 0..400 {
            let mut chain = self.opened([256, 512][i % 2]);
            for _ in 0..30 {
                self.any_call(&mut chain);
                if self.random.below(10) == 0 {
                    let state = self.damaged(&chain.state);
                    let (key, iv) = (chain.key.clone(), chain.iv.clone());
                    self.each_call(&mut Chain { key, iv, state });
                }
            }
        }
    }

    /// Keys and IVs of all lengths, opened into a state that is not blank.
    fn openings(&mut self) {
        for key_len in 0..=80 {
            for iv_len in 0..=40 {
                let (key, iv) = (self.random.bytes(key_len), self.random.bytes(iv_len));
                let mut state = [0; 20].map(|_: u64| self.random.word());
                self.run(Call::Open, &mut state, &key, &iv);
            }
        }
    }

    /// Keys of zeros of all lengths with IVs of all lengths, and with many IVs of the right one.
    fn zero_keys(&mut self) {
        let lengths = pairs(&Vec::from_iter(0..=80), &Vec::from_iter(0..=40));
        let right = pairs(&[32, 64], &[32; 100]);
        for (key_len, iv_len) in lengths.into_iter().chain(right) {
            let iv = self.random.bytes(iv_len);
            let mut state = [0; 20].map(|_: u64| self.random.word());
            let number = self.run(Call::Open, &mut state, &vec![0; key_len], &iv);
            let must = match (key_len, iv_len) {
                (32 | 64, 32) => 14,
                (32 | 64, _) => 2,
                _ => 1,
            };
            assert_eq!(number, must, "key length {key_len}, IV length {iv_len}");
        }
    }

    /// Keys that are all zeros but for one bit, or for one byte, at every place: opening accepts
    /// each, and the check finds it.
    fn keys_beside_zeros(&mut self) {
        for len in [32, 64] {
            for i in 0..9 * len {
                let mut key = vec![0; len];
                key[i / 9] = match i % 9 {
                    8 => self.random.between(1, 255) as u8,
                    bit => 1 << bit,
                };
                let iv = self.random.bytes(32);
                let mut state = BLANK;
                assert_eq!(self.run(Call::Open, &mut state, &key, &iv), 0);
                assert_eq!(self.key_of(&state, &iv), Ok(key));
            }
        }
    }

    /// The states of keys of zeros: the check finds no key. Where one bit of the key is changed it
    /// finds that key, at the same position and with the same IV.
    fn states_of_zero_keys(&mut self) {
        for i in 0..200 {
            let len = [32, 64][i % 2];
            let position = match i {
                0 | 1 => LIMIT,
                2..=101 => i as u64 / 2 - 1,
                _ => self.random.below(5_000) as u64,
            };
            let iv = match i % 10 {
                0 | 1 => vec![0; 32],
                _ => self.random.bytes(32),
            };
            let mut key = vec![0; len];
            let state = self.state_from(&Registers::load(&key, &iv), len, position);
            assert_eq!(self.key_of(&state, &iv), Err(10), "at {position}");

            key[self.random.below(len)] = 1 << self.random.below(8);
            let state = self.state_from(&Registers::load(&key, &iv), len, position);
            assert_eq!(self.key_of(&state, &iv), Ok(key), "at {position}");
        }
    }

    /// Keys that load, with an IV of their own, what a key of zeros loads with another IV (512):
    /// the check finds the key with the one IV, and none with the other.
    fn alike_to_zeros(&mut self) {
        for i in 0..100 {
            let word = self.random.word();
            let zeros_iv = match i % 2 {
                0 => vec![0; 32],
                _ => self.random.bytes(32),
            };
            let (key, iv) = (key_of_k4(word), iv_of_k4(&zeros_iv, word));
            let mut state = BLANK;
            assert_eq!(self.run(Call::Open, &mut state, &key, &iv), 0);
            let distance = self.random.below(2_000) as i64;
            assert_eq!(self.run(Call::Move { distance }, &mut state, &[], &[]), 0);
            assert_eq!(self.key_of(&state, &zeros_iv), Err(10), "K4 = {word:016x}");
            assert_eq!(self.key_of(&state, &iv), Ok(key), "K4 = {word:016x}");
        }
    }

    /// States with any one bit changed.
    fn changed_bits(&mut self) {
        for bits in [256, 512] {
            let mut chain = self.opened(bits);
            let distance = self.random.below(200) as i64;
            self.run(Call::Move { distance }, &mut chain.state, &[], &[]);
            let state = chain.state;
            for i in 0..20 * 64 {
                chain.state = state;
                chain.state[i / 64] ^= 1 << (i % 64);
                self.each_call(&mut chain);
            }
        }
    }

    /// States that walk back to a loading with any one bit changed: none has a key.
    fn changed_loadings(&mut self) {
        for i in 0..2 * 18 * 64 {
            let size = [32, 64][i % 2];
            let (key, iv) = (self.random.bytes(size), self.random.bytes(32));
            let mut loading = Registers::load(&key, &iv);
            let bit = 1 << (i / 2 % 64);
            match i / 128 {
                16 => loading.r1 ^= bit,
                17 => loading.r2 ^= bit,
                cell => loading.cells[cell] ^= bit,
            }
            let position = self.random.below(100) as u64;
            let state = self.state_from(&loading, size, position);
            assert_eq!(self.key_of(&state, &iv), Err(10));
        }
    }

    /// IVs that load alike with another key K4 (512): both keys are found.
    fn alike(&mut self) {
        for _ in 0..50 {
            let mut chain = self.opened(512);
            self.any_call(&mut chain);
            let mut iv = chain.iv.clone();
            for i in 0..8 {
                // Byte i of IV3 and of IV1.
                let change = self.random.word() as u8;
                iv[i] ^= change;
                iv[16 + i] ^= change;
            }
            for iv in [&chain.iv, &iv] {
                let target = self.random.bytes(64);
                assert_eq!(self.run(Call::Check, &mut chain.state, iv, &target), 0);
            }
        }
    }

    /// Refusals alone and together: every mix of good and bad size marks, positions and lengths.
    fn refusals_together(&mut self) {
        let size_marks = [256, 512, 0, 255, 768, u64::MAX];
        let positions = [0, 5, LIMIT - 3, LIMIT, LIMIT + 1, u64::MAX];
        for (size_mark, position) in pairs(&size_marks, &positions) {
            let mut state = [0; 20].map(|_: u64| self.random.word());
            state[SIZE_MARK] = size_mark;
            state[POSITION] = position;
            for (source, target) in pairs(&[0, 1, 3, 4, 20], &[0, 1, 2, 3, 4, 19, 20, 21]) {
                let (source, target) = (self.random.bytes(source), self.random.bytes(target));
                self.run(Call::Apply, &mut state.clone(), &source, &target);
            }
            let numbers = [0, 1, 3, 4, 5, 19, 20, 21, usize::MAX - 1, usize::MAX];
            for (start, count) in pairs(&numbers, &numbers) {
                let buffer = self.random.bytes(20);
                let call = Call::Window { start, count };
                self.run(call, &mut state.clone(), &buffer, &[]);
            }
            for distance in [0, 1, 3, 4, -1, -5, -6, i64::MAX, i64::MIN, i64::MIN + 1] {
                self.run(Call::Move { distance }, &mut state.clone(), &[], &[]);
            }
            for (iv, key) in pairs(&[0, 31, 32, 33], &[0, 31, 32, 33, 63, 64, 65, 96]) {
                let (iv, key) = (self.random.bytes(iv), self.random.bytes(key));
                self.run(Call::Check, &mut state.clone(), &iv, &key);
            }
        }
    }

    /// Portions and windows of some hundred KiB.
    fn long_portions(&mut self) {
        for i in 0..8 {
            let mut chain = self.opened([256, 512][i % 2]);
            for _ in 0..3 {
                let length = self.random.between(100_000, 400_000);
                self.apply(&mut chain, length);
                self.window(&mut chain, length);
                self.check(&mut chain);
            }
        }
    }

    /// Calls about the last position, and moves between both ends of the range.
    fn end_of_range(&mut self) {
        for i in 0..6 {
            let mut chain = self.opened([256, 512][i % 2]);
            let end = LIMIT as i64;
            let before = self.random.choose(&[0, 1, 2, 7, 8, 9, 100, 5_000]);
            for distance in [end, -end, end, -before] {
                let call = Call::Move { distance };
                assert_eq!(self.run(call, &mut chain.state, &[], &[]), 0);
            }
            let state = chain.state;
            for _ in 0..20 {
                chain.state = state;
                let length = self.length();
                self.apply(&mut chain, length);
                self.window(&mut chain, length);
                let (source, target) = (self.random.bytes(9), self.random.bytes(12));
                for count in 0..=9 {
                    let mut state = chain.state;
                    self.run(Call::Apply, &mut state, &source[..count], &target);
                }
            }
            self.check(&mut chain);
            self.move_by(&mut chain);
            self.check(&mut chain);
        }
    }
}

/// Every pair of a value of the first list and one of the second.
fn pairs<A: Copy, B: Copy>(first: &[A], second: &[B]) -> Vec<(A, B)> {
    let with = |a: A| second.iter().map(move |&b| (a, b));
    first.iter().flat_map(|&a| with(a)).collect()
}

/// The bytes of a short buffer, the length of a longer one.
fn shown(buffer: &[u8]) -> String {
    match buffer.len() {
        0..=80 => format!("[{}]", hex(buffer)),
        len => format!("{len} bytes"),
    }
}

#[test]
fn the_proved_library_does_as_the_other_implementation() {
    let mut comparison = Comparison::new(seed());
    comparison.openings();
    comparison.zero_keys();
    comparison.keys_beside_zeros();
    comparison.states_of_zero_keys();
    comparison.alike_to_zeros();
    comparison.chains();
    comparison.changed_bits();
    comparison.changed_loadings();
    comparison.alike();
    comparison.refusals_together();
    comparison.long_portions();
    comparison.end_of_range();
    let Comparison { calls, numbers, .. } = comparison;
    let counts = NUMBERS.map(|number| numbers[number]);
    println!("{calls} calls; answers 0 to 10 and 14: {counts:?}");
    assert!(calls >= 10_000, "{calls} calls");
    for (number, count) in NUMBERS.iter().zip(counts) {
        assert!(count >= 50, "number {number} was answered {count} times");
    }
    assert_eq!(counts.iter().sum::<u64>(), calls, "no other number");
}
