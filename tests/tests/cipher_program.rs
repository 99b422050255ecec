//! The cipher program, run with whole and cut inputs, with keys of zeros, up to the limit and past
//! it, through pipes and from a file, and compared with what the other implementation says it must
//! write; and what it says on standard error where a read or a write fails or input is left over.
//!
//! The program is target/bin/cipher, or the one that the environment variable STRUMOK_CIPHER names.

use std::env;
use std::fs::{self, File};
use std::io::{Read, Write};
use std::path::{Path, PathBuf};
use std::process::{Child, ChildStdout, Command, ExitStatus, Stdio};
use std::sync::mpsc;
use std::thread;
use std::time::Duration;
use strumok_tests::calls::{Cipher, LIMIT};
use strumok_tests::random::{seed, Random};

/// What the program says on standard error.
const READING_FAILED: &str = "cipher: reading failed, the output may not be whole\n";
const WRITING_FAILED: &str = "cipher: writing failed, the output is not whole\n";
const LEFT_OVER: &str = "cipher: stopped after 16777216 bytes of data, there was more\n";

/// The command that runs the program; it must be there.
fn program() -> Command {
    let built = Path::new(env!("CARGO_MANIFEST_DIR")).join("../target/bin/cipher");
    let program = env::var_os("STRUMOK_CIPHER").map_or(built, PathBuf::from);
    let path = program.display();
    assert!(
        program.is_file(),
        "the cipher program {path} is missing; `tools/program cipher` makes it"
    );
    Command::new(program)
}

fn start(command: &mut Command, input: Stdio) -> Child {
    let (output, errors) = (Stdio::piped(), Stdio::piped());
    let child = command.stdin(input).stdout(output).stderr(errors).spawn();
    child.expect("the cipher program runs")
}

/// A program that has ended: what was taken of its output, what it said on standard error.
struct Ended<T> {
    taken: T,
    status: ExitStatus,
    said: String,
}

/// Waits for the end of the program, of whose output this was taken.
fn end<T>(mut child: Child, taken: T) -> Ended<T> {
    let status = child.wait().expect("wait");
    let said = whole(child.stderr.take().expect("piped"));
    let said = String::from_utf8(said).expect("text");
    Ended {
        taken,
        status,
        said,
    }
}

/// Gives the program these pieces of input one after the other, and its output to `take`.
fn run<'a, T>(
    command: &mut Command,
    pieces: impl Iterator<Item = &'a [u8]> + Send,
    take: impl FnOnce(ChildStdout) -> T,
) -> Ended<T> {
    let mut child = start(command, Stdio::piped());
    let mut input = child.stdin.take().expect("piped");
    let output = child.stdout.take().expect("piped");
    thread::scope(|scope| {
        scope.spawn(move || {
            // The program may end before it has read all: a broken pipe is no mistake.
            for piece in pieces {
                if input.write_all(piece).is_err() {
                    break;
                }
            }
        });
        let taken = take(output);
        end(child, taken)
    })
}

/// All output of the program.
fn whole(mut output: impl Read) -> Vec<u8> {
    let mut written = Vec::new();
    output.read_to_end(&mut written).expect("output");
    written
}

/// An input with a random key of this length, a random IV and this many data bytes.
fn input(random: &mut Random, key_len: u8, data_len: usize) -> Vec<u8> {
    let mut input = vec![key_len];
    input.extend(random.bytes(usize::from(key_len) + 32 + data_len));
    input
}

/// Stops where the program's output, or what it said, is not what it must be.
fn compare(what: &str, ended: Ended<Vec<u8>>, must: &[u8], must_say: &str) {
    let written = ended.taken;
    if written != must {
        let same = written.iter().zip(must).take_while(|(a, b)| a == b);
        panic!(
            "{what}: {} bytes written, {} expected, the first {} of them alike (STRUMOK_SEED={})",
            written.len(),
            must.len(),
            same.count(),
            seed()
        );
    }
    assert_eq!(ended.said, must_say, "{what}");
    assert_eq!(ended.status.code(), Some(0), "{what}");
}

/// Runs the program with this input whole, and compares.
fn check(cipher: &Cipher, what: &str, input: &[u8], must_say: &str) {
    let ended = run(&mut program(), [input].into_iter(), whole);
    compare(what, ended, &cipher.cipher_program(input), must_say);
}

#[test]
fn headers_cut_short() {
    let (cipher, mut random) = (Cipher::new(), Random::new(seed()));
    assert_eq!(cipher.cipher_program(b""), b"refused 1\n");
    for key_len in [0, 5, 31, 32, 33, 63, 64, 65, 255] {
        let header = input(&mut random, key_len, 0);
        for cut in 0..=header.len() {
            let what = format!("header of key length {key_len} cut to {cut} bytes");
            check(&cipher, &what, &header[..cut], "");
        }
    }
}

#[test]
fn keys_of_zeros() {
    let (cipher, mut random) = (Cipher::new(), Random::new(seed()));
    for key_len in [32, 64] {
        let (iv_from, data_from) = (1 + key_len, 1 + key_len + 32);
        let mut input = input(&mut random, key_len as u8, 100_000);
        input[1..iv_from].fill(0);
        let longer = [data_from + 1, data_from + 100, input.len()];
        for cut in (0..=data_from).chain(longer) {
            let must: &[u8] = match cut {
                _ if cut < iv_from => b"refused 1\n",
                _ if cut < data_from => b"refused 2\n",
                _ => b"refused 14\n",
            };
            let what = format!("{key_len} zeros as key, cut to {cut} bytes");
            assert_eq!(cipher.cipher_program(&input[..cut]), must, "{what}");
            check(&cipher, &what, &input[..cut], "");
        }
    }
}

#[test]
fn keys_with_one_byte_that_is_not_zero() {
    let (cipher, mut random) = (Cipher::new(), Random::new(seed()));
    for (key_len, place) in [(32, 0), (32, 31), (64, 0), (64, 31), (64, 32), (64, 63)] {
        let mut input = input(&mut random, key_len as u8, 1000);
        input[1..1 + key_len].fill(0);
        input[1 + place] = 1;
        let what = format!("key of {key_len} bytes, all zero but byte {place}");
        assert_eq!(cipher.cipher_program(&input).len(), 1000, "{what}");
        check(&cipher, &what, &input, "");
    }
}

#[test]
fn inputs_that_the_gate_runs() {
    let crates = Path::new(env!("CARGO_MANIFEST_DIR")).join("../crates");
    for program in ["cipher", "cipher_refusal"] {
        let read = |name| fs::read(crates.join(program).join(name)).expect(name);
        let must = Cipher::new().cipher_program(&read("stdin"));
        assert!(must == read("stdout"), "crates/{program}/stdout");
    }
}

#[test]
fn data_of_many_lengths() {
    let (cipher, mut random) = (Cipher::new(), Random::new(seed()));
    for key_len in [0, 31, 32, 33, 64, 255] {
        for data_len in [0, 1, 7, 8, 9, 65_535, 65_536, 65_537] {
            let what = format!("key length {key_len}, {data_len} data bytes");
            check(&cipher, &what, &input(&mut random, key_len, data_len), "");
        }
    }
}

#[test]
fn data_to_the_limit_and_past_it() {
    let (cipher, mut random) = (Cipher::new(), Random::new(seed()));
    for key_len in [32, 64] {
        for (more, must_say) in [(0, ""), (1, LEFT_OVER), (1000, LEFT_OVER)] {
            let what = format!("key length {key_len}, 16 MiB + {more} data bytes");
            let input = input(&mut random, key_len, LIMIT as usize + more);
            check(&cipher, &what, &input, must_say);
        }
    }
}

#[test]
fn one_byte_past_the_limit_is_read() {
    let (cipher, mut random) = (Cipher::new(), Random::new(seed()));
    let input = input(&mut random, 32, LIMIT as usize + 1000);
    let path = Path::new(env!("CARGO_TARGET_TMPDIR")).join("what_follows_the_limit");
    fs::write(&path, &input).expect("write the input");
    let file = File::open(&path).expect("open the input");
    fs::remove_file(&path).expect("remove the input");
    // Both share one place in the file, so what the program leaves can be read after its end.
    let rest = file.try_clone().expect("clone");
    let mut child = start(&mut program(), Stdio::from(file));
    let written = whole(child.stdout.take().expect("piped"));
    let ended = end(child, written);
    compare("a file", ended, &cipher.cipher_program(&input), LEFT_OVER);
    assert!(whole(rest) == input[input.len() - 999..], "what is left");
}

#[test]
fn input_in_small_pieces() {
    let (cipher, mut random) = (Cipher::new(), Random::new(seed()));
    let short = input(&mut random, 64, 300);
    let run_short = run(&mut program(), short.chunks(1), whole);
    let must = cipher.cipher_program(&short);
    compare("single bytes", run_short, &must, "");

    let long = input(&mut random, 32, LIMIT as usize);
    let mut rest = &long[..];
    let pieces = std::iter::from_fn(|| {
        let (piece, after) = rest.split_at(random.between(1, 700).min(rest.len()));
        rest = after;
        Some(piece).filter(|piece| !piece.is_empty())
    });
    let run_long = run(&mut program(), pieces, whole);
    let must = cipher.cipher_program(&long);
    compare("small pieces", run_long, &must, "");
}

#[test]
fn output_taken_slowly() {
    let (cipher, mut random) = (Cipher::new(), Random::new(seed()));
    let input = input(&mut random, 64, 300_000);
    let slowly = |mut output: ChildStdout| {
        let mut written = Vec::new();
        loop {
            let mut piece = vec![0; random.between(1, 700)];
            let count = output.read(&mut piece).expect("output");
            if count == 0 {
                return written;
            }
            written.extend_from_slice(&piece[..count]);
            if random.below(20) == 0 {
                thread::sleep(Duration::from_millis(5));
            }
        }
    };
    let run = run(&mut program(), [&input[..]].into_iter(), slowly);
    compare("a slow reader", run, &cipher.cipher_program(&input), "");
}

#[test]
fn output_closed_early() {
    let (cipher, mut random) = (Cipher::new(), Random::new(seed()));
    let input = input(&mut random, 32, LIMIT as usize + 1000);
    let must = cipher.cipher_program(&input);
    // Once with the signal for a broken pipe as usual, which the program's start ignores today, once with that signal ignored before.
    let mut ignoring = Command::new("sh");
    ignoring.args(["-c", "trap '' PIPE; exec \"$0\""]);
    ignoring.arg(program().get_program());
    for (mut command, must_say) in [(program(), WRITING_FAILED), (ignoring, WRITING_FAILED)] {
        let input = input.clone();
        let some = |mut output: ChildStdout| {
            let mut written = vec![0; 1000];
            output.read_exact(&mut written).expect("output");
            written
        };
        let (ended, end) = mpsc::channel();
        thread::spawn(move || ended.send(run(&mut command, [&input[..]].into_iter(), some)));
        let ended = end
            .recv_timeout(Duration::from_secs(60))
            .expect("the program ends after its output is closed");
        assert!(ended.taken == must[..1000], "the first bytes");
        assert_eq!(ended.said, must_say);
    }
}

#[test]
fn reads_that_fail() {
    // A directory is opened, and cannot be read; a closed input neither: no byte of a header comes.
    let mut closed = Command::new("sh");
    closed.args(["-c", "exec \"$0\" <&-"]);
    closed.arg(program().get_program());
    for (what, mut command) in [("a directory", program()), ("closed", closed)] {
        let directory = File::open("/").expect("open a directory");
        let mut child = start(&mut command, Stdio::from(directory));
        let written = whole(child.stdout.take().expect("piped"));
        let ended = end(child, written);
        compare(what, ended, b"refused 1\n", READING_FAILED);
    }
}

#[test]
fn writes_that_fail() {
    let mut random = Random::new(seed());
    for (what, input) in [
        ("a refusal", vec![]),
        ("data", input(&mut random, 32, 100_000)),
    ] {
        let full = File::options().write(true).open("/dev/full");
        let mut command = program();
        command.stdin(Stdio::piped()).stderr(Stdio::piped());
        command.stdout(full.expect("open /dev/full"));
        let mut child = command.spawn().expect("the cipher program runs");
        let mut pipe = child.stdin.take().expect("piped");
        // It stops at the first write, so that it may not read all.
        let _ = pipe.write_all(&input);
        drop(pipe);
        let ended = end(child, Vec::new());
        compare(what, ended, b"", WRITING_FAILED);
    }
}
