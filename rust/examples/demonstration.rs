//! The demonstration, run from the root of the repository: an order file is enciphered, a row in
//! its middle deciphered alone, a state stored and taken up again, a damaged one refused, and the
//! rows of the opened file read. Every step is verified; where one is not as it says, the program
//! fails.

use std::borrow::Cow;
use std::error::Error;
use std::fs;
use std::process::ExitCode;

use strumok::{orders, State};

/// Fixed, and published here: for the demonstration alone.
const KEY: [u8; 32] = *b"a demonstration key, for no use!";
const IV: [u8; 32] = *b"an IV for the demonstration only";
const OTHER_IV: [u8; 32] = *b"an IV of some other order file..";

const ORDERS: &str = "examples/orders.csv";
const DIRECTORY: &str = "target/demonstration";

/// The portions that a link delivers, in bytes.
const PORTION: usize = 100;

/// The row that is deciphered alone; row 0 has the names of the columns.
const ROW: usize = 7;

fn main() -> ExitCode {
    match run() {
        Ok(()) => ExitCode::SUCCESS,
        Err(error) => {
            eprintln!("demonstration: {error}");
            ExitCode::FAILURE
        }
    }
}

fn run() -> Result<(), Box<dyn Error>> {
    let plain = fs::read(ORDERS).map_err(|error| format!("{ORDERS}: {error}"))?;
    fs::create_dir_all(DIRECTORY).map_err(|error| format!("{DIRECTORY}: {error}"))?;
    println!("Strumok (DSTU 8845:2019), with a key and an IV that are fixed and for show only.");
    println!("  key    {}", hexadecimal(&KEY));
    println!("  IV     {}", hexadecimal(&IV));

    let (enciphered, state) = encipher(&plain)?;
    let state = decipher_row(&plain, &enciphered, state)?;
    let stored = store(&state)?;
    take_up(&plain, &enciphered, &stored)?;
    refuse(&stored)?;
    read_rows(&plain, &enciphered)?;
    println!("\nEvery step was verified.");
    Ok(())
}

/// The order file enciphered in portions, and the state after the last one.
fn encipher(plain: &[u8]) -> Result<(Vec<u8>, State), Box<dyn Error>> {
    println!("\n1. The order file {ORDERS} is enciphered in portions of {PORTION} bytes.");
    let mut state = State::opened(&KEY, &IV)?;
    let mut enciphered = vec![0; plain.len()];
    for (source, target) in plain.chunks(PORTION).zip(enciphered.chunks_mut(PORTION)) {
        state.apply(source, target)?;
    }
    expect(
        state.position() == plain.len() as u64,
        "the state stands behind the last byte",
    )?;

    let mut again = enciphered.clone();
    State::opened(&KEY, &IV)?.window(&mut again, 0, plain.len())?;
    expect(again == plain, "the same call deciphers")?;
    let file = format!("{DIRECTORY}/orders.enciphered");
    fs::write(&file, &enciphered)?;
    println!("  plain  {}  {:?}", sample(plain), text(first(plain)));
    println!("  cipher {}", sample(&enciphered));
    println!(
        "  The {} bytes are in {file}; the same call deciphers them.",
        plain.len()
    );
    Ok((enciphered, state))
}

/// One row deciphered alone, from where it stands; the state behind it.
fn decipher_row(
    plain: &[u8],
    enciphered: &[u8],
    mut state: State,
) -> Result<State, Box<dyn Error>> {
    let row = orders::read(plain)?.rows().nth(ROW);
    let row = row.ok_or("the order file has too few rows")?;
    let last = row[row.len() - 1];
    let (begin, end) = (row[0].start(), last.start() + last.part().len());
    let from = state.position();
    println!("\n2. Row {ROW} is deciphered alone: the state moves from byte {from} to {begin}.");
    state.move_by(begin as i64 - from as i64)?;
    let mut bytes = vec![0; end - begin];
    state.apply(&enciphered[begin..end], &mut bytes)?;
    expect(bytes == plain[begin..end], "the row is what was enciphered")?;
    expect(
        state.position() == end as u64,
        "the state stands behind the row",
    )?;
    println!("  cipher {}", sample(&enciphered[begin..end]));
    println!("  plain  {}  {:?}", sample(&bytes), text(&bytes));
    Ok(state)
}

/// The state as a file of twenty words, least significant byte first.
fn store(state: &State) -> Result<Vec<u8>, Box<dyn Error>> {
    let file = format!("{DIRECTORY}/state");
    let bytes: Vec<u8> = state
        .words()
        .iter()
        .flat_map(|word| word.to_le_bytes())
        .collect();
    fs::write(&file, &bytes)?;
    println!(
        "\n3. The state at byte {} is stored: 20 words, in {file}.",
        state.position()
    );
    println!("  state  {}", sample(&bytes));
    let stored = fs::read(&file)?;
    expect(stored == bytes, "the file has the state")?;
    Ok(stored)
}

/// The stored state checked, and the rest of the file deciphered with it.
fn take_up(plain: &[u8], enciphered: &[u8], stored: &[u8]) -> Result<(), Box<dyn Error>> {
    println!("\n4. It is taken up again. The check against the IV accepts it, and gives its key.");
    let mut state = restored(stored)?;
    let mut key = [0; 32];
    state.check(&IV, &mut key)?;
    expect(key == KEY, "the check hands the key back")?;
    println!("  key    {}", hexadecimal(&key));

    let begin = state.position() as usize;
    let mut rest = enciphered[begin..].to_vec();
    let count = rest.len();
    state.window(&mut rest, 0, count)?;
    expect(
        rest == plain[begin..],
        "the rest of the file is what was enciphered",
    )?;
    println!("  The {count} bytes from {begin} on are deciphered with it.");
    println!("  plain  {}  {:?}", sample(&rest), text(first(&rest)));
    Ok(())
}

/// The stored state with one bit changed, and with another IV: no key leads to either.
fn refuse(stored: &[u8]) -> Result<(), Box<dyn Error>> {
    println!("\n5. One bit of the stored state is changed, in cell 5. The check refuses it.");
    let mut damaged = stored.to_vec();
    damaged[8 * 5] ^= 1;
    println!("  answer {}", refused_with_10(&restored(&damaged)?, &IV)?);

    println!("\n6. The stored state as it was is checked against another IV. It is refused too.");
    println!("  IV     {}", hexadecimal(&OTHER_IV));
    println!(
        "  answer {}",
        refused_with_10(&restored(stored)?, &OTHER_IV)?
    );
    Ok(())
}

/// The file deciphered whole, and its rows read where they stand; cut inside quotes it is refused.
fn read_rows(plain: &[u8], enciphered: &[u8]) -> Result<(), Box<dyn Error>> {
    println!("\n7. The file is deciphered whole, and its rows are read where they stand.");
    let mut opened = enciphered.to_vec();
    let count = opened.len();
    State::opened(&KEY, &IV)?.window(&mut opened, 0, count)?;
    expect(opened == plain, "the file is what was enciphered")?;

    let table = orders::read(&opened)?;
    let (rows, columns) = (table.row_count(), table.column_count());
    println!("  {rows} rows of {columns} fields; their contents:");
    let mut again = Vec::new();
    for row in table.rows() {
        expect(row.len() == columns, "a row has as many fields as columns")?;
        let contents: Vec<String> = row.iter().map(|field| text(&field.content())).collect();
        let padded: String = contents.iter().map(|text| format!("{text:<16}")).collect();
        println!("    {}", padded.trim_end());
        let parts: Vec<&[u8]> = row.iter().map(|field| field.part()).collect();
        again.extend(parts.join(&b','));
        again.extend(b"\r\n");
    }
    expect(
        again == plain,
        "the fields with commas and line ends between them are the file",
    )?;

    let doubled = |field: &orders::Field<'_>| matches!(field.content(), Cow::Owned(_));
    let quoted = table.fields().find(doubled);
    let quoted = quoted.ok_or("the order file has no field with doubled quotes")?;
    println!("  A field with doubled quotes, and its content:");
    println!("    {}", text(quoted.part()));
    println!("    {}", text(&quoted.content()));
    let cut = quoted.start() + quoted.part().len() - 1;
    let refusal = orders::read(&opened[..cut]).err();
    let refusal = refusal.ok_or("not so: a file that is cut inside quotes is refused")?;
    expect(
        (refusal.number(), refusal.place()) == (11, cut),
        "it is refused with 11, at its end",
    )?;
    println!("  The file is cut before that field's last quote. The reader refuses it.");
    println!("  answer {refusal}");
    Ok(())
}

/// What the check answers, which must be 10 and leave the key target as it was.
fn refused_with_10(state: &State, iv: &[u8]) -> Result<String, Box<dyn Error>> {
    let mut key = [0xA5; 32];
    let answer = state.check(iv, &mut key);
    expect(
        key == [0xA5; 32],
        "a refusal leaves the key target as it was",
    )?;
    match answer {
        Err(refusal) if refusal.number() == 10 => Ok(refusal.to_string()),
        _ => Err("not so: the check answers 10".into()),
    }
}

fn expect(holds: bool, what: &str) -> Result<(), String> {
    match holds {
        true => Ok(()),
        false => Err(format!("not so: {what}")),
    }
}

/// The state of twenty words, least significant byte first.
fn restored(bytes: &[u8]) -> Result<State, Box<dyn Error>> {
    expect(bytes.len() == 160, "a stored state has 20 words")?;
    let mut words = [0; 20];
    for (word, bytes) in words.iter_mut().zip(bytes.chunks(8)) {
        *word = u64::from_le_bytes(bytes.try_into()?);
    }
    Ok(State::from_words(words))
}

fn hexadecimal(bytes: &[u8]) -> String {
    bytes.iter().map(|byte| format!("{byte:02X}")).collect()
}

/// The first sixteen bytes, or all where there are fewer.
fn first(bytes: &[u8]) -> &[u8] {
    &bytes[..bytes.len().min(16)]
}

fn sample(bytes: &[u8]) -> String {
    hexadecimal(first(bytes)) + if bytes.len() > 16 { " .." } else { "" }
}

fn text(bytes: &[u8]) -> String {
    String::from_utf8_lossy(bytes).into_owned()
}
