//! The command: applies the keystream to standard input and writes standard output. The script
//! `strumok` at the root of the repository builds it, runs it and holds its help.

use std::env;
use std::ffi::{OsStr, OsString};
use std::fmt::Display;
use std::fs::File;
use std::io::{self, ErrorKind, Read, Write};
use std::os::unix::ffi::OsStrExt;
use std::os::unix::io::AsFd;
use std::path::Path;
use std::process::ExitCode;

use strumok::{Refusal, State, LIMIT};

/// The most that is read at once.
const PIECE: usize = 64 * 1024;

/// More bytes than this are no key, whatever white space is among them.
const LONGEST_KEY_FILE: u64 = 1024;

/// What ends the command: its message, and whether it is the options that are wrong.
enum Failure {
    Options(String),
    Other(String),
}

impl From<Refusal> for Failure {
    fn from(refusal: Refusal) -> Failure {
        Failure::Other(refusal.to_string())
    }
}

/// The failure of something that is named, for use with `map_err`.
fn of<E: Display>(what: impl Display) -> impl FnOnce(E) -> Failure {
    move |error| Failure::Other(format!("{what}: {error}"))
}

fn main() -> ExitCode {
    let (message, status) = match run() {
        Ok(()) => return ExitCode::SUCCESS,
        Err(Failure::Options(message)) => (message + "; see strumok --help", 2),
        Err(Failure::Other(message)) => (message, 1),
    };
    // A message that cannot be written leaves the status to speak.
    let _ = writeln!(io::stderr(), "strumok: {message}");
    ExitCode::from(status)
}

fn run() -> Result<(), Failure> {
    let options = Options::read(env::args_os().skip(1))?;
    let name = Path::new(&options.key_file).display();
    let key = read_key(&options.key_file).map_err(of(&name))?;
    let mut state = State::opened(&key, &options.iv).map_err(of(&name))?;
    state.move_by(options.position as i64)?;

    // As files, since `Stdin` and `Stdout` pass over the error of a descriptor that is not open
    // for reading or writing.
    let input = io::stdin().as_fd().try_clone_to_owned();
    let output = io::stdout().as_fd().try_clone_to_owned();
    let input = File::from(input.map_err(of("standard input"))?);
    let output = File::from(output.map_err(of("standard output"))?);
    apply_to_all(state, input, output)
}

struct Options {
    key_file: OsString,
    iv: Vec<u8>,
    position: u64,
}

impl Options {
    fn read(mut words: impl Iterator<Item = OsString>) -> Result<Options, Failure> {
        let (mut key_file, mut iv, mut at) = (None, None, None);
        while let Some(word) = words.next() {
            let (name, value) = split(&word);
            let option = match name.to_str() {
                Some("--key-file") => &mut key_file,
                Some("--iv") => &mut iv,
                Some("--at") => &mut at,
                _ if name.as_bytes().starts_with(b"-") => {
                    let name = name.to_string_lossy();
                    return Err(Failure::Options(format!("unknown option {name}")));
                }
                _ => return Err(Failure::Options("a word that is no option".into())),
            };
            let name = name.to_string_lossy();
            if option.is_some() {
                return Err(Failure::Options(format!("{name} is given twice")));
            }
            *option = value
                .or_else(|| words.next())
                .filter(|value| !value.is_empty());
            if option.is_none() {
                return Err(Failure::Options(format!("{name} has no value")));
            }
        }

        let missing = |name| Failure::Options(format!("{name} is missing"));
        let wrong = |what: &str| Failure::Options(what.into());
        let key_file = key_file.ok_or_else(|| missing("--key-file"))?;
        let iv = iv.ok_or_else(|| missing("--iv"))?;
        Ok(Options {
            key_file,
            iv: from_hexadecimal(iv.as_bytes())
                .filter(|iv| iv.len() == 32)
                .ok_or_else(|| wrong("the value of --iv is not 64 hexadecimal digits"))?,
            position: match at {
                None => 0,
                Some(at) => position(&at)
                    .ok_or_else(|| wrong("the value of --at is not a number from 0 to 16777216"))?,
            },
        })
    }
}

/// An option's name, and its value where that follows in the same word after a `=`.
fn split(word: &OsStr) -> (&OsStr, Option<OsString>) {
    let bytes = word.as_bytes();
    match bytes.iter().position(|byte| *byte == b'=') {
        None => (word, None),
        Some(end) => (
            OsStr::from_bytes(&bytes[..end]),
            Some(OsStr::from_bytes(&bytes[end + 1..]).into()),
        ),
    }
}

/// A position in decimal digits.
fn position(text: &OsStr) -> Option<u64> {
    let text = text.to_str()?;
    let digits = text.bytes().all(|byte| byte.is_ascii_digit());
    text.parse().ok().filter(|at| digits && *at <= LIMIT)
}

/// The bytes that pairs of hexadecimal digits stand for.
fn from_hexadecimal(digits: &[u8]) -> Option<Vec<u8>> {
    let digit = |byte: u8| char::from(byte).to_digit(16);
    digits
        .chunks(2)
        .map(|pair| match *pair {
            [high, low] => Some((16 * digit(high)? + digit(low)?) as u8),
            _ => None,
        })
        .collect()
}

fn read_key(name: &OsStr) -> io::Result<Vec<u8>> {
    let mut bytes = Vec::new();
    let longer = LONGEST_KEY_FILE + 1;
    File::open(name)?.take(longer).read_to_end(&mut bytes)?;
    Ok(key_of(bytes))
}

/// The key of a key file: what its 64 or 128 hexadecimal digits stand for, and else its bytes,
/// whose length the opening tests.
fn key_of(bytes: Vec<u8>) -> Vec<u8> {
    let blank = |byte: &u8| byte.is_ascii_whitespace();
    let end = bytes.len() - bytes.iter().rev().take_while(|byte| blank(byte)).count();
    match from_hexadecimal(&bytes[..end]) {
        Some(key) if matches!(key.len(), 32 | 64) && bytes.len() as u64 <= LONGEST_KEY_FILE => key,
        _ => bytes,
    }
}

/// Applies the keystream to the input as it comes, up to its end or to the last position.
fn apply_to_all(
    mut state: State,
    mut input: impl Read,
    mut output: impl Write,
) -> Result<(), Failure> {
    let mut piece = vec![0; PIECE];
    loop {
        let count = match input.read(&mut piece) {
            Ok(0) => return output.flush().map_err(of("standard output")),
            Ok(count) => count,
            Err(error) if error.kind() == ErrorKind::Interrupted => continue,
            Err(error) => return Err(of("standard input")(error)),
        };
        let within = count.min((LIMIT - state.position()) as usize);
        state.window(&mut piece, 0, within)?;
        let written = output.write_all(&piece[..within]);
        written.map_err(of("standard output"))?;
        // What is left goes past the last position, and is refused.
        state.window(&mut piece, within, count - within)?;
    }
}
