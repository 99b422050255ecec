//! The proved reader of order files beside the other one: the calls for C and the Rust wrapper, on
//! all short texts, on random order files whole and damaged, and at the edges.
//!
//! Every word and byte that a call may write is compared, and guard words and bytes around them.
//! The environment variable STRUMOK_SEED (decimal) chooses other random files.

use std::borrow::Cow;
use std::collections::BTreeMap;
use std::ops::Range;
use strumok::orders;
use strumok_tests::csv::{self, Fault, Table, MOST_FIELDS};
use strumok_tests::random::{seed, Random};
use strumok_tests::vectors::hex;

extern "C" {
    fn orders_read(text: *const u8, text_len: usize, answer: *mut u64) -> u64;
    fn orders_part(text: *const u8, text_len: usize, row: usize, column: usize, part: *mut u64);
    fn orders_content(
        part: *const u8,
        part_len: usize,
        target: *mut u8,
        target_len: usize,
        written: *mut u64,
    ) -> u64;
    fn orders_next(text: *const u8, text_len: usize, cursor: *mut u64, part: *mut u64) -> u64;
}

/// What stands in words before a call, and around them.
const GUARD: u64 = 0x5a5a_a5a5_c3c3_3c3c;

/// Lends N words between guard words; what the call answers, and the words it leaves.
fn lending<const N: usize, T>(words: [u64; N], call: impl FnOnce(*mut u64) -> T) -> (T, [u64; N]) {
    let mut lent = [[GUARD; N], words, [GUARD; N]];
    let answer = call(lent[1].as_mut_ptr());
    assert_eq!([lent[0], lent[2]], [[GUARD; N]; 2], "the guard words");
    (answer, lent[1])
}

/// The number of a reading and the two words that it leaves.
fn read(text: &[u8]) -> (u64, [u64; 2]) {
    lending([GUARD; 2], |answer| {
        // SAFETY: the text has its bytes and the answer its two words, which do not overlap.
        unsafe { orders_read(text.as_ptr(), text.len(), answer) }
    })
}

/// Start and length of the part of this row and column.
fn part(text: &[u8], row: usize, column: usize) -> [u64; 2] {
    let ((), words) = lending([GUARD; 2], |part| {
        // SAFETY: the text has its bytes and the part its two words, which do not overlap.
        unsafe { orders_part(text.as_ptr(), text.len(), row, column, part) }
    });
    words
}

/// The number of a content to this target, and the count written.
fn content(part: &[u8], target: &mut [u8]) -> (u64, u64) {
    let (target, target_len) = (target.as_mut_ptr(), target.len());
    let (number, [written]) = lending([GUARD], |written| {
        // SAFETY: part and target have their bytes, and none of the three overlaps another.
        unsafe { orders_content(part.as_ptr(), part.len(), target, target_len, written) }
    });
    (number, written)
}

/// The answer of a step of a walk, start and length of its field, and the cursor that it leaves.
fn next(text: &[u8], cursor: [u64; 2]) -> (u64, [u64; 2], [u64; 2]) {
    let ((answer, part), cursor) = lending(cursor, |cursor| {
        lending([GUARD; 2], |part| {
            // SAFETY: the text has its bytes, cursor and part two words each, and none of the three
            // overlaps another.
            unsafe { orders_next(text.as_ptr(), text.len(), cursor, part) }
        })
    });
    (answer, part, cursor)
}

/// A part as start and length.
fn words(part: &Range<usize>) -> [u64; 2] {
    [part.start as u64, part.len() as u64]
}

/// The number and the two words that a reading has to leave.
fn answer_of(table: &Result<Table, Fault>) -> (u64, [u64; 2]) {
    match table {
        Ok(table) => {
            let columns = table.first().map_or(0, Vec::len);
            (0, [table.len() as u64, columns as u64])
        }
        Err(Fault { place, number }) => (*number, [*place as u64, 0]),
    }
}

/// The bytes of a short text, the ends of a longer one.
fn shown(text: &[u8]) -> String {
    let length = text.len();
    match length {
        0..=200 => format!("{length} bytes [{}]", hex(text)),
        _ => {
            let (first, last) = (hex(&text[..100]), hex(&text[length - 100..]));
            format!("{length} bytes [{first} .. {last}]")
        }
    }
}

/// Every text of up to so many of these bytes, the empty one first.
fn texts(letters: &[u8], most: usize) -> Vec<Vec<u8>> {
    let mut all = vec![Vec::new()];
    let mut first = 0;
    for _ in 0..most {
        let last = all.len();
        for i in first..last {
            let longer = letters
                .iter()
                .map(|&letter| [&all[i][..], &[letter]].concat());
            let longer: Vec<Vec<u8>> = longer.collect();
            all.extend(longer);
        }
        first = last;
    }
    all
}

const LETTERS: &[u8] = b"a,\"\r\n\xe9";

/// Texts of up to this length are also read by the definitions.
const SHORT: usize = 40;

/// Tables of up to so many fields are asked for every part, larger ones for some.
const SMALL: usize = 200;

struct Comparison {
    random: Random,
    calls: u64,
    /// How often each number was answered, by readings and by contents.
    numbers: BTreeMap<u64, u64>,
}

impl Comparison {
    fn new() -> Comparison {
        Comparison {
            random: Random::new(seed()),
            calls: 0,
            numbers: BTreeMap::new(),
        }
    }

    fn count(&mut self, number: u64) {
        self.calls += 1;
        *self.numbers.entry(number).or_insert(0) += 1;
    }

    /// Makes every call on a text, and compares what each leaves with what the other reader says.
    /// The answer of its reading.
    fn text(&mut self, text: &[u8]) -> (u64, [u64; 2]) {
        let table = csv::read(text);
        if text.len() <= SHORT {
            let defined = csv::read_by_definition(text);
            assert_eq!(table, defined, "by definition: {}", shown(text));
        }
        // Lent is a copy between guard bytes, at any alignment.
        let mut lent = vec![b'"'; 1 + self.random.below(8)];
        let start = lent.len();
        lent.extend_from_slice(text);
        lent.extend([b'"'; 9]);
        let guarded = lent.clone();
        let lent_text = &lent[start..start + text.len()];

        let answer = read(lent_text);
        assert_eq!(answer, answer_of(&table), "reading {}", shown(text));
        self.count(answer.0);
        self.parts(lent_text, &table);
        self.walk(lent_text, &table);
        if let Ok(table) = &table {
            for place in self.some_fields(table) {
                self.contents(&lent_text[place]);
            }
        }
        assert_eq!(lent, guarded, "a text is only read: {}", shown(text));
        self.wrapper(text, &table);
        answer
    }

    /// All fields of a small table, some fields of a large one.
    fn some_fields(&mut self, table: &Table) -> Vec<Range<usize>> {
        let fields: Vec<Range<usize>> = table.iter().flatten().cloned().collect();
        match fields.len() {
            0..=SMALL => fields,
            count => (0..20)
                .map(|_| fields[self.random.below(count)].clone())
                .collect(),
        }
    }

    /// Parts by row and column: of a small table all, of a large one some; and beyond it.
    fn parts(&mut self, text: &[u8], table: &Result<Table, Fault>) {
        let (rows, columns) = match table {
            Ok(table) => (table.len(), table.first().map_or(0, Vec::len)),
            Err(_) => (1, 1),
        };
        let mut wanted = Vec::new();
        if rows * columns <= SMALL {
            wanted.extend((0..rows).flat_map(|row| (0..columns).map(move |column| (row, column))));
        } else {
            wanted.extend((0..20).map(|_| (self.random.below(rows), self.random.below(columns))));
            wanted.push((rows - 1, columns - 1));
        }
        let far = [usize::MAX, 1 << 63, 1 << 32];
        for row in [rows, rows + 1].iter().chain(&far) {
            wanted.extend([0, columns, usize::MAX].map(|column| (*row, column)));
        }
        for column in [columns, columns + 1].iter().chain(&far) {
            wanted.extend([0, rows.saturating_sub(1)].map(|row| (row, *column)));
        }
        for (row, column) in wanted {
            let want = words(&csv::part(table, row, column));
            let found = part(text, row, column);
            assert_eq!(found, want, "part {row}, {column} of {}", shown(text));
            self.calls += 1;
        }
    }

    /// The walk over all fields of an accepted text, and what is behind the last one. Over a
    /// refused text it stays within it, and ends.
    fn walk(&mut self, text: &[u8], table: &Result<Table, Fault>) {
        let table = match table {
            Ok(table) => table,
            Err(_) => return self.walk_within(text, [0, 0]),
        };
        let mut cursor = [0, 0];
        for row in table {
            for (column, place) in row.iter().enumerate() {
                let (answer, part, moved) = next(text, cursor);
                self.calls += 1;
                let goes_on = u64::from(column + 1 < row.len());
                assert_eq!(
                    (answer, part, moved[1]),
                    (1, words(place), goes_on),
                    "from {cursor:?} in {}",
                    shown(text)
                );
                cursor = moved;
            }
        }
        for _ in 0..2 {
            let end = next(text, cursor);
            assert_eq!(end, (0, [GUARD; 2], cursor), "behind {}", shown(text));
            self.calls += 1;
        }
    }

    /// A walk from any cursor over any text: every part stands in the text, and the walk ends.
    fn walk_within(&mut self, text: &[u8], from: [u64; 2]) {
        let mut cursor = from;
        for _ in 0..text.len() + 2 {
            let (answer, part, moved) = next(text, cursor);
            self.calls += 1;
            if answer == 0 {
                assert_eq!(
                    (part, moved),
                    ([GUARD; 2], cursor),
                    "the end of a walk from {from:?} in {}",
                    shown(text)
                );
                return;
            }
            let end = u128::from(part[0]) + u128::from(part[1]);
            assert!(
                answer == 1 && end <= text.len() as u128 && moved[1] <= 1,
                "from {cursor:?}: {answer}, {part:?} and {moved:?} in {}",
                shown(text)
            );
            cursor = moved;
        }
        panic!("no end of a walk from {from:?} in {}", shown(text));
    }

    /// The content of a part, to targets of several lengths.
    fn contents(&mut self, part: &[u8]) {
        let want = csv::content(part);
        if part.len() <= SHORT {
            let defined = csv::content_by_definition(part);
            assert_eq!(want, defined, "by definition: {}", shown(part));
        }
        let exact = want.as_ref().map_or(part.len(), Vec::len);
        let mut lengths = vec![0, exact.saturating_sub(1), exact, exact + 1, exact + 9];
        lengths.dedup();
        for length in lengths {
            let before: Vec<u8> = (0..length + 4).map(|i| (17 * i + 3) as u8).collect();
            let mut after = before.clone();
            let (number, written) = match &want {
                None => (11, 0),
                Some(content) if length < content.len() => (5, 0),
                Some(content) => {
                    after[..content.len()].copy_from_slice(content);
                    (0, content.len() as u64)
                }
            };
            let mut target = before.clone();
            let answer = content(part, &mut target[..length]);
            assert_eq!(
                (answer, &target),
                ((number, written), &after),
                "content to {length} bytes of {}",
                shown(part)
            );
            self.count(number);

            let mut target = before;
            let answer = orders::content(part, &mut target[..length]);
            let answer = answer.map_err(|refusal| (refusal.number(), refusal.place()));
            let want = match number {
                0 => Ok(written as usize),
                _ => Err((number, 0)),
            };
            assert_eq!((answer, target), (want, after), "{}", shown(part));
        }
    }

    /// The wrapper: its table, rows and fields, parts and contents.
    fn wrapper(&mut self, text: &[u8], table: &Result<Table, Fault>) {
        let (found, table) = match (orders::read(text), table) {
            (Ok(found), Ok(table)) => (found, table),
            (Err(refusal), Err(Fault { place, number })) => {
                let found = (refusal.place(), refusal.number());
                assert_eq!(found, (*place, *number), "{}", shown(text));
                assert_eq!(orders::part(text, 0, 0), b"", "{}", shown(text));
                return;
            }
            (found, table) => panic!("{found:?} and {table:?} of {}", shown(text)),
        };
        let columns = table.first().map_or(0, Vec::len);
        let counts = (found.row_count(), found.column_count());
        assert_eq!(counts, (table.len(), columns), "{}", shown(text));
        let place = |field: &orders::Field<'_>| {
            let place = field.start()..field.start() + field.part().len();
            assert_eq!(field.part().as_ptr(), text[place.clone()].as_ptr());
            place
        };
        let rows = found.rows().map(|row| row.iter().map(place).collect());
        let rows: Table = rows.collect();
        assert_eq!(&rows, table, "rows of {}", shown(text));
        let fields = found.fields().map(|field| place(&field));
        assert!(
            fields.eq(table.iter().flatten().cloned()),
            "{}",
            shown(text)
        );

        for field in found.fields() {
            let want = csv::content(field.part()).expect("a field");
            let content = field.content();
            assert_eq!(content, want, "content of {}", shown(field.part()));
            let quotes = field.part().iter().filter(|byte| **byte == b'"').count();
            assert_eq!(matches!(content, Cow::Owned(_)), quotes > 2);
        }
        if let Some(row) = table.last() {
            let last = row.len() - 1;
            let part = orders::part(text, table.len() - 1, last);
            assert_eq!(part, &text[row[last].clone()], "{}", shown(text));
        }
        assert_eq!(orders::part(text, table.len(), 0), b"", "{}", shown(text));
    }
}

/// Random order files.
impl Comparison {
    /// A byte of text that needs no quotes, mostly a letter.
    fn text_byte(&mut self) -> u8 {
        match self.random.below(4) {
            0 => loop {
                let byte = self.random.word() as u8;
                if byte >= 32 && !matches!(byte, b'"' | b',' | 127) {
                    return byte;
                }
            },
            _ => self.random.choose(b"abcdefgh 0123456789"),
        }
    }

    /// A field: empty, plain, or in quotes.
    fn field(&mut self) -> Vec<u8> {
        let length = self.random.choose(&[0, 1, 2, 5, 9, 20]);
        if self.random.below(3) > 0 {
            return (0..length).map(|_| self.text_byte()).collect();
        }
        let mut field = vec![b'"'];
        for _ in 0..length {
            match self.random.below(8) {
                0 => field.extend(b"\"\""),
                1 => field.push(b','),
                2 => field.extend(b"\r\n"),
                3 => field.push(self.random.choose(b"\r\n")),
                _ => field.push(self.text_byte()),
            }
        }
        field.push(b'"');
        field
    }

    /// A row of so many fields.
    fn row(&mut self, columns: usize) -> Vec<u8> {
        let fields: Vec<Vec<u8>> = (0..columns).map(|_| self.field()).collect();
        fields.join(&b',')
    }

    /// An order file, with empty lines here and there, mostly with equally long rows.
    fn file(&mut self, most_rows: usize) -> Vec<u8> {
        let columns = self.random.choose(&[1, 1, 2, 3, 3, 3, 5, 8, 31, 32, 33]);
        let rows = self.random.below(most_rows + 1);
        let mut lines = Vec::new();
        for _ in 0..rows {
            while self.random.below(6) == 0 {
                lines.push(Vec::new());
            }
            let other = self.random.below(20 * most_rows) == 0;
            let columns = if other { columns % 33 + 1 } else { columns };
            lines.push(self.row(columns));
        }
        // After the last row: nothing, its line end, and empty lines.
        lines.resize(
            lines.len() + self.random.choose(&[0, 1, 1, 2, 4]),
            Vec::new(),
        );
        lines.join(&b"\r\n"[..])
    }

    /// The text with a byte changed, doubled, left out or put in, cut, or with two bytes exchanged.
    fn damaged(&mut self, text: &[u8]) -> Vec<u8> {
        let mut text = text.to_vec();
        let any = self.random.word() as u8;
        let byte = self
            .random
            .choose(&[b',', b'"', b'\r', b'\n', b'a', 0, 127, 128, any]);
        if text.is_empty() {
            return vec![byte];
        }
        let at = self.random.below(text.len());
        let behind = (at + 1) % text.len();
        match self.random.below(7) {
            0 | 1 => text[at] = byte,
            2 => text.truncate(at),
            3 => text.insert(at, text[at]),
            4 => drop(text.remove(at)),
            5 => text.insert(at, byte),
            _ => text.swap(at, behind),
        }
        text
    }

    /// Files of up to so many rows, each also damaged so many times. How many were accepted, of the
    /// whole and of the damaged.
    fn files(&mut self, count: usize, most_rows: usize, damages: usize) -> [usize; 2] {
        let mut accepted = [0, 0];
        for _ in 0..count {
            let file = self.file(most_rows);
            accepted[0] += usize::from(self.text(&file).0 == 0);
            for _ in 0..damages {
                let mut damaged = self.damaged(&file);
                if self.random.below(3) == 0 {
                    damaged = self.damaged(&damaged);
                }
                accepted[1] += usize::from(self.text(&damaged).0 == 0);
            }
        }
        accepted
    }
}

#[test]
fn the_proved_reader_does_as_the_other_one() {
    let mut comparison = Comparison::new();
    for text in texts(LETTERS, 6) {
        comparison.text(&text);
    }
    for text in texts(b"b,\"\r\n\t\x7f\xff", 4) {
        comparison.text(&text);
    }
    let [whole, damaged] = comparison.files(4000, 6, 4);
    assert!((2500..4000).contains(&whole), "{whole} of 4000 files");
    assert!((2000..14000).contains(&damaged), "{damaged} of 16000");
    let [whole, damaged] = comparison.files(20, 3000, 2);
    assert!(whole >= 5, "{whole} of 20 long files");
    assert!(damaged >= 2, "{damaged} of 40 long files that were damaged");

    let Comparison { calls, numbers, .. } = comparison;
    println!("order files: {calls} calls; answers and how often: {numbers:?}");
    assert!(numbers.keys().eq(&[0, 5, 11, 12, 13]), "{numbers:?}");
    for (number, count) in numbers {
        assert!(count >= 500, "number {number} was answered {count} times");
    }
}

/// Parts that are fields and parts that are none, among them all short ones.
#[test]
fn contents_of_all_parts() {
    let mut comparison = Comparison::new();
    for part in texts(LETTERS, 5).iter().chain(&texts(b"b\"\0\x7f\x80", 4)) {
        comparison.contents(part);
    }
    for byte in 0..=255 {
        comparison.contents(&[byte]);
        comparison.contents(&[b'"', byte, b'"']);
        comparison.contents(&[b'"', b'"', byte, b'"']);
        comparison.contents(&[b'"', b'"', byte]);
    }
    for _ in 0..2000 {
        let field = comparison.field();
        comparison.contents(&field);
        let damaged = comparison.damaged(&field);
        comparison.contents(&damaged);
    }
    let numbers = comparison.numbers;
    assert!(numbers.keys().eq(&[0, 5, 11]), "{numbers:?}");
    assert!(numbers.values().all(|count| *count > 1000), "{numbers:?}");
}

/// From cursors that no walk leaves, over all short texts and some files.
#[test]
fn walks_from_any_cursor_stay_within_the_text() {
    let mut comparison = Comparison::new();
    let mut texts = texts(LETTERS, 4);
    for _ in 0..200 {
        let file = comparison.file(4);
        texts.push(comparison.damaged(&file));
        texts.push(file);
    }
    for text in &texts {
        let length = text.len() as u64;
        let far = [
            length + 1,
            length + 2,
            1 << 32,
            1 << 63,
            u64::MAX - 1,
            u64::MAX,
        ];
        for place in (0..=length).chain(far) {
            for inside in [0, 1, 2, u64::MAX] {
                comparison.walk_within(text, [place, inside]);
            }
        }
    }
    assert!(comparison.calls > 100_000, "{} calls", comparison.calls);
}

/// Texts with their answers, worked out by hand: the number, then the counts or the place.
#[test]
fn edges() {
    let mut comparison = Comparison::new();
    let mut expect = |text: &[u8], want: (u64, [u64; 2])| {
        assert_eq!(comparison.text(text), want, "{}", shown(text));
    };
    let accepted = |rows, columns| (0, [rows, columns]);
    let refused = |number, place| (number, [place, 0]);

    // No rows, and rows of one field.
    expect(b"", accepted(0, 0));
    expect(b"\r\n", accepted(0, 0));
    expect(b"\r\n\r\n\r\n", accepted(0, 0));
    expect(b"a", accepted(1, 1));
    expect(b"a\r\n", accepted(1, 1));
    expect(b"\"\"", accepted(1, 1));
    expect(b"\"\"\r\n", accepted(1, 1));
    expect(b"\r\na\r\n\r\nb\r\n\r\n", accepted(2, 1));
    expect(b" ", accepted(1, 1));
    // Fields of no bytes where there is a comma, and whatever may stand in quotes.
    expect(b",", accepted(1, 2));
    expect(b",\r\n,", accepted(2, 2));
    expect(b"a,b\r\n\r\nc,d", accepted(2, 2));
    expect(b"\"a,b\",c\r\n\"d\r\n\r\ne\",\"\"\"\"", accepted(2, 2));
    expect(b"\"\r\",\"\n\"", accepted(1, 2));
    expect(b"\x80,\xff,\xc3\xa9", accepted(1, 3));

    // 11 at the first byte that fits nothing.
    expect(b"\n", refused(11, 0));
    expect(b"a\nb", refused(11, 1));
    expect(b"a\"", refused(11, 1));
    expect(b"a\"b\"", refused(11, 1));
    expect(b"\"a\"b", refused(11, 3));
    expect(b"\"a\" ", refused(11, 3));
    expect(b" \"a\"", refused(11, 1));
    expect(b"a\rb", refused(11, 2));
    expect(b"a\r\r\n", refused(11, 2));
    expect(b"\r\r\n", refused(11, 1));
    expect(b"\"a\"\r,", refused(11, 4));
    expect(b"a,b\x7f", refused(11, 3));
    expect(b"\"a\tb\"", refused(11, 2));
    expect(b"\"a\0", refused(11, 2));
    // 11 at the end of a text that ends inside quotes or on a lone CR.
    expect(b"\"", refused(11, 1));
    expect(b"\"a", refused(11, 2));
    expect(b"\"\"\"", refused(11, 3));
    expect(b"a,\"b\r\n", refused(11, 6));
    expect(b"\r", refused(11, 1));
    expect(b"a\r", refused(11, 2));
    expect(b"a\r\nb\r", refused(11, 5));
    expect(b"\"a\"\r", refused(11, 4));

    // 12 at the line end of a row of another length.
    expect(b"a,b\r\nc", refused(12, 6));
    expect(b"a,b\r\nc\r\n", refused(12, 6));
    expect(b"a\r\nb,c\r\nd", refused(12, 6));
    expect(b"a,b\r\n\r\n\"\"", refused(12, 9));
    expect(b"\r\n\r\na\r\n,\r\n", refused(12, 8));
    expect(b"a,b\r\n\"c\r\n\"\r\n\"", refused(12, 10));
    // Whether or not an LF follows its CR; but 11 where something comes before it.
    expect(b"a,b\r\nc\r", refused(12, 6));
    expect(b"a,b\r\nc\rd", refused(12, 6));
    expect(b"a,b\r\nc\r\r\n", refused(12, 6));
    expect(b"a,b\r\nc\n\r\n", refused(11, 6));
    expect(b"a,b\r\nc,d\r", refused(11, 9));
    // At the end of a text inside quotes 11 and 12 meet.
    expect(b"a,b\r\n\"c", refused(11, 7));
    expect(b"a,b\r\n\"c\r\n", refused(11, 9));
    expect(b"a,b\r\n\"c\"\"", refused(11, 9));
}

/// Rows about the most fields, alone and below a first row.
#[test]
fn most_fields() {
    let mut comparison = Comparison::new();
    assert_eq!(MOST_FIELDS, 32);
    for field in [&b""[..], b"a", b"\"\"", b"\",\r\n\"\"\""] {
        let row = |fields: usize| vec![field; fields].join(&b',');
        let comma = (32 * field.len() + 31) as u64;
        for fields in 31..=34 {
            let fits = fields <= 32;
            for end in [&b""[..], b"\r\n", b"\r\n\r\n"] {
                let text = [&row(fields), end].concat();
                let want = if fits {
                    (0, [1, fields as u64])
                } else {
                    (13, [comma, 0])
                };
                assert_eq!(comparison.text(&text), want, "{}", shown(&text));
            }
            for first in 31..=34 {
                let text = [row(first), row(fields)].join(&b"\r\n"[..]);
                let below = row(first).len() as u64 + 2;
                let want = match first {
                    33 | 34 => (13, [comma, 0]),
                    _ if !fits => (13, [below + comma, 0]),
                    _ if first == fields => (0, [2, fields as u64]),
                    _ => (12, [text.len() as u64, 0]),
                };
                assert_eq!(comparison.text(&text), want, "{}", shown(&text));
            }
        }

        // A byte that fits nothing, before the 32nd comma, in its place and after it.
        let text = row(34);
        for at in 0..text.len() {
            let mut damaged = text.clone();
            damaged[at] = 0;
            let want = match at as u64 {
                at if at <= comma => (11, [at, 0]),
                _ => (13, [comma, 0]),
            };
            assert_eq!(comparison.text(&damaged), want, "{}", shown(&damaged));
        }
        // Cut before the 32nd comma, and inside the row.
        let cut = &text[..comma as usize];
        assert_eq!(comparison.text(cut), (0, [1, 32]), "{}", shown(cut));
        let cut = [cut, b",\""].concat();
        let want = (13, [comma, 0]);
        assert_eq!(comparison.text(&cut), want, "{}", shown(&cut));
    }
}

/// Every byte as a text, inside quotes, behind quotes, behind a CR and in a plain field.
#[test]
fn every_byte() {
    let mut comparison = Comparison::new();
    let mut expect = |text: &[u8], want: (u64, [u64; 2])| {
        assert_eq!(comparison.text(text), want, "{}", shown(text));
    };
    let accepted = |rows, columns| (0, [rows, columns]);
    let refused = |place| (11, [place, 0]);
    // Plain text, what needs quotes, and what stands in no field, among it the quote itself.
    let mut kinds = [0; 3];
    for byte in 0..=255 {
        let plain = (32..127).contains(&byte) && byte != 34 && byte != 44 || byte > 127;
        let quotes_needed = [10, 13, 44].contains(&byte);
        let kind = [plain, quotes_needed, true].iter().position(|is| *is);
        kinds[kind.expect("one of three")] += 1;
        expect(
            &[byte],
            match byte {
                _ if plain => accepted(1, 1),
                b',' => accepted(1, 2),
                b'"' | b'\r' => refused(1),
                _ => refused(0),
            },
        );
        expect(
            &[b'"', byte, b'"'],
            match byte {
                _ if plain || quotes_needed => accepted(1, 1),
                b'"' => refused(3),
                _ => refused(1),
            },
        );
        expect(
            &[b'"', b'x', b'"', byte],
            match byte {
                b',' => accepted(1, 2),
                b'"' | b'\r' => refused(4),
                _ => refused(3),
            },
        );
        expect(
            &[b'x', b'\r', byte],
            match byte {
                b'\n' => accepted(1, 1),
                _ => refused(2),
            },
        );
        expect(
            &[b'x', byte, b'y'],
            match byte {
                _ if plain => accepted(1, 1),
                b',' => accepted(1, 2),
                b'\r' => refused(2),
                _ => refused(1),
            },
        );
        // In a row that is too short: 12 at its CR, and otherwise 11 before it or at the end.
        expect(
            &[b',', b'\r', b'\n', byte],
            match byte {
                _ if plain => (12, [4, 0]),
                b',' => accepted(2, 2),
                b'"' | b'\r' => refused(4),
                _ => refused(3),
            },
        );
    }
    assert_eq!(kinds, [221, 3, 32]);
}
