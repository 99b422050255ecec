//! The reader of order files: RFC 4180 text, read where it stands.
//!
//! [`read`] tells the counts of rows and columns of a text, or why and where it is refused. From
//! the [`Table`] that it answers, rows and fields are walked over in one pass; [`part`] finds one
//! field by row and column. A field is a part of the caller's own text, quotes included, and its
//! content (quotes removed, doubled quotes made single) is copied only where quotes are doubled.
//!
//! Bytes 128 to 255 are ordinary text. A line of no bytes is skipped, and the final line end may be
//! missing. Every row has as many fields as the first, at most [`MOST_FIELDS`]. Rows, columns and
//! places are counted from 0.
//!
//! ```
//! use strumok::orders;
//!
//! let text = b"shop,article\r\n\"Lviv, Rynok 9\",\"roll \"\"poppy\"\"\"\r\n";
//! let table = orders::read(text)?;
//! assert_eq!((table.row_count(), table.column_count()), (2, 2));
//!
//! for row in table.rows().skip(1) {
//!     assert_eq!(row[0].part(), b"\"Lviv, Rynok 9\"");
//!     assert_eq!(row[0].start(), 14);
//!     assert_eq!(&row[0].content()[..], b"Lviv, Rynok 9");
//!     assert_eq!(&row[1].content()[..], b"roll \"poppy\"");
//! }
//! assert_eq!(orders::part(text, 0, 1), b"article");
//!
//! // Row 1 has one field where row 0 has two: refused with number 12, at the end of its line.
//! let refusal = orders::read(b"a,b\r\nc\r\n").unwrap_err();
//! assert_eq!((refusal.number(), refusal.place()), (12, 6));
//! # Ok::<(), orders::Refusal>(())
//! ```

use std::borrow::Cow;
use std::fmt;
use std::iter::FusedIterator;
use std::ops::Deref;

/// The most fields of a row.
pub const MOST_FIELDS: usize = 32;

// The proved library. Each function reads and writes only the words and bytes it is lent, and keeps
// no pointer.
extern "C" {
    fn orders_read(text: *const u8, text_len: usize, answer: *mut u64) -> u64;
    fn orders_part(text: *const u8, text_len: usize, row: usize, column: usize, part: *mut u64);
    fn orders_content(
        part: *const u8,
        part_len: usize,
        target: *mut u8,
        target_len: usize,
        written: *mut u64,
    ) -> u64;
    fn orders_next(text: *const u8, text_len: usize, cursor: *mut u64, part: *mut u64) -> u64;
}

/// Reads a text: its table where it is accepted.
///
/// Refused with 11 at the first byte with which the text so far can no longer begin an order file,
/// or at the end of a text that ends inside quotes or on a lone CR; with 12 at the line end of a
/// row whose field count differs from the first row's; with 13 at the 32nd separating comma of a
/// row of more than 32 fields. The earliest place is reported, and at one place the lower number.
pub fn read(text: &[u8]) -> Result<Table<'_>, Refusal> {
    let mut words = [0; 2];
    // SAFETY: text is readable for its length, and the answer is writable for its 2 words.
    let number = unsafe { orders_read(text.as_ptr(), text.len(), words.as_mut_ptr()) };
    let [first, second] = words.map(|word| word as usize);
    match number {
        0 => Ok(Table {
            text,
            rows: first,
            columns: second,
        }),
        _ => Err(Refusal {
            number,
            place: first,
        }),
    }
}

/// The field of this row and column, quotes included: empty where there is none, or where the text
/// is refused.
///
/// The text is read from its beginning at each call. To go over all fields there are
/// [`Table::rows`] and [`Table::fields`].
pub fn part(text: &[u8], row: usize, column: usize) -> &[u8] {
    let mut words = [0; 2];
    // SAFETY: text is readable for its length, and the part is writable for its 2 words.
    unsafe { orders_part(text.as_ptr(), text.len(), row, column, words.as_mut_ptr()) };
    part_of(text, words).1
}

/// Writes the content of a part to the first bytes of the target, and answers their count. Later
/// target bytes keep their values.
///
/// Refused with 11 for a part that is no field, else with 5 for a target shorter than the content,
/// both at place 0; the target is then left as it was.
pub fn content(part: &[u8], target: &mut [u8]) -> Result<usize, Refusal> {
    let (target, target_len) = (target.as_mut_ptr(), target.len());
    let mut written = 0;
    // SAFETY: part is readable and target writable for its length, written is a word, and the
    // mutable borrows keep the three apart.
    match unsafe { orders_content(part.as_ptr(), part.len(), target, target_len, &mut written) } {
        0 => Ok(written as usize),
        number => Err(Refusal { number, place: 0 }),
    }
}

/// The start and the bytes of a part that the library gave by its start and length.
fn part_of(text: &[u8], words: [u64; 2]) -> (usize, &[u8]) {
    let [start, length] = words.map(|word| word as usize);
    (start, &text[start..][..length])
}

/// A text that was accepted, with the counts of its rows and columns.
#[derive(Clone, Copy, Debug, PartialEq, Eq)]
pub struct Table<'a> {
    text: &'a [u8],
    rows: usize,
    columns: usize,
}

impl<'a> Table<'a> {
    /// The text that was read.
    pub fn text(&self) -> &'a [u8] {
        self.text
    }

    /// The number of rows.
    pub fn row_count(&self) -> usize {
        self.rows
    }

    /// The number of columns: the fields of every row, or 0 where there are no rows.
    pub fn column_count(&self) -> usize {
        self.columns
    }

    /// The rows, in one pass over the text.
    pub fn rows(&self) -> Rows<'a> {
        Rows {
            fields: self.fields(),
            columns: self.columns,
        }
    }

    /// The fields of all rows, one row behind the other, in one pass over the text.
    pub fn fields(&self) -> Fields<'a> {
        Fields {
            text: self.text,
            cursor: [0, 0],
        }
    }
}

/// The rows of a table, from [`Table::rows`].
#[derive(Clone, Debug)]
pub struct Rows<'a> {
    fields: Fields<'a>,
    columns: usize,
}

impl<'a> Iterator for Rows<'a> {
    type Item = Row<'a>;

    fn next(&mut self) -> Option<Row<'a>> {
        let mut fields = Vec::with_capacity(self.columns);
        fields.push(self.fields.next()?);
        while self.fields.row_goes_on() {
            fields.extend(self.fields.next());
        }
        Some(Row { fields })
    }
}

impl FusedIterator for Rows<'_> {}

/// A row: a slice of its fields.
#[derive(Clone, Debug, PartialEq, Eq)]
pub struct Row<'a> {
    fields: Vec<Field<'a>>,
}

impl<'a> Deref for Row<'a> {
    type Target = [Field<'a>];

    fn deref(&self) -> &[Field<'a>] {
        &self.fields
    }
}

/// The fields of a table, from [`Table::fields`].
#[derive(Clone, Debug)]
pub struct Fields<'a> {
    text: &'a [u8],
    cursor: [u64; 2],
}

impl Fields<'_> {
    /// Whether another field of the same row follows: the second word is odd.
    fn row_goes_on(&self) -> bool {
        self.cursor[1] % 2 == 1
    }
}

impl<'a> Iterator for Fields<'a> {
    type Item = Field<'a>;

    fn next(&mut self) -> Option<Field<'a>> {
        let (text, text_len) = (self.text.as_ptr(), self.text.len());
        let mut words = [0; 2];
        let (cursor, part) = (self.cursor.as_mut_ptr(), words.as_mut_ptr());
        // SAFETY: text is readable for its length, cursor and part are writable for 2 words each,
        // and the mutable borrows keep the three apart.
        match unsafe { orders_next(text, text_len, cursor, part) } {
            0 => None,
            _ => {
                let (start, part) = part_of(self.text, words);
                Some(Field { start, part })
            }
        }
    }
}

impl FusedIterator for Fields<'_> {}

/// A field of a text that was accepted.
#[derive(Clone, Copy, Debug, PartialEq, Eq)]
pub struct Field<'a> {
    start: usize,
    part: &'a [u8],
}

impl<'a> Field<'a> {
    /// The place in the text where the field starts.
    pub fn start(&self) -> usize {
        self.start
    }

    /// The field as it stands in the text, quotes included.
    pub fn part(&self) -> &'a [u8] {
        self.part
    }

    /// The content of the field: quotes removed, doubled quotes made single. It is a part of the
    /// text still where no quotes are doubled, and otherwise copied.
    pub fn content(&self) -> Cow<'a, [u8]> {
        match self.part {
            [b'"', inside @ .., b'"'] if !inside.contains(&b'"') => Cow::Borrowed(inside),
            [b'"', ..] => {
                let mut bytes = vec![0; self.part.len()];
                let count = content(self.part, &mut bytes).expect("a part of an accepted text");
                bytes.truncate(count);
                Cow::Owned(bytes)
            }
            _ => Cow::Borrowed(self.part),
        }
    }
}

/// Why a text or a part was refused, as one of the numbers 5, 11, 12 and 13, and where.
#[derive(Clone, Copy, Debug, PartialEq, Eq)]
pub struct Refusal {
    number: u64,
    place: usize,
}

impl Refusal {
    /// The number of the refusal.
    pub fn number(&self) -> u64 {
        self.number
    }

    /// The place of the refusal in the text, which may be its end; 0 where a content is refused.
    pub fn place(&self) -> usize {
        self.place
    }
}

impl fmt::Display for Refusal {
    fn fmt(&self, f: &mut fmt::Formatter<'_>) -> fmt::Result {
        let reason = match self.number {
            5 => "the target is shorter than the content",
            11 => "not of the grammar of RFC 4180",
            12 => "the row's field count differs from the first row's",
            13 => "the row has more than 32 fields",
            _ => "unknown number",
        };
        write!(
            f,
            "refused {} at place {}: {}",
            self.number, self.place, reason
        )
    }
}

impl std::error::Error for Refusal {}

#[cfg(test)]
mod tests {
    use super::*;

    /// The parts of a text's rows.
    fn parts(text: &str) -> Vec<Vec<&str>> {
        let table = read(text.as_bytes()).expect("accepted");
        let shown = |field: &Field<'_>| {
            let end = field.start() + field.part().len();
            assert_eq!(field.part(), &text.as_bytes()[field.start()..end]);
            &text[field.start()..end]
        };
        table
            .rows()
            .map(|row| row.iter().map(shown).collect())
            .collect()
    }

    #[test]
    fn rows_and_fields() {
        let text = "a,\"b\"\r\n\r\n,\"c\r\n,\"\"d\"\r\n\r\n";
        assert_eq!(
            parts(text),
            [["a", "\"b\""], ["", "\"c\r\n,\"\"d\""]],
            "quotes are included, empty lines skipped"
        );
        let table = read(text.as_bytes()).unwrap();
        assert_eq!(table.text(), text.as_bytes());
        assert_eq!((table.row_count(), table.column_count()), (2, 2));
        let starts: Vec<usize> = table.fields().map(|field| field.start()).collect();
        assert_eq!(starts, [0, 2, 9, 10]);

        assert_eq!(parts("a"), [["a"]]);
        assert_eq!(parts("\"\""), [["\"\""]]);
        assert_eq!(parts(","), [["", ""]]);
        assert_eq!(parts("\r\n\r\n"), Vec::<Vec<&str>>::new());
        let empty = read(b"").unwrap();
        assert_eq!((empty.row_count(), empty.column_count()), (0, 0));
        assert_eq!(empty.fields().next(), None);
    }

    #[test]
    fn contents_are_copied_only_where_quotes_are_doubled() {
        let text = b"a,\"\",\"b,c\",\"\"\"\",\"d\"\"e\"";
        let table = read(text).unwrap();
        let contents: Vec<Cow<'_, [u8]>> = table.fields().map(|field| field.content()).collect();
        let want: [&[u8]; 5] = [b"a", b"", b"b,c", b"\"", b"d\"e"];
        assert_eq!(contents, want);
        let copied = |content: &Cow<'_, [u8]>| matches!(content, Cow::Owned(_));
        let copied: Vec<bool> = contents.iter().map(copied).collect();
        assert_eq!(copied, [false, false, false, true, true]);
    }

    #[test]
    fn contents_to_a_target() {
        let mut target = *b"12345";
        assert_eq!(content(b"\"a\"\"b\"", &mut target), Ok(3));
        assert_eq!(&target, b"a\"b45");

        let refusal = content(b"\"a\"\"b\"", &mut target[..2]).unwrap_err();
        assert_eq!((refusal.number(), refusal.place()), (5, 0));
        let refusal = content(b"\"a\"b", &mut target).unwrap_err();
        assert_eq!((refusal.number(), refusal.place()), (11, 0));
        assert_eq!(&target, b"a\"b45", "a refusal leaves the target as it was");
    }

    #[test]
    fn parts_by_row_and_column() {
        let text = b"a,b\r\nc,\"d\"";
        assert_eq!(part(text, 1, 1), b"\"d\"");
        for (row, column) in [(0, 2), (2, 0), (usize::MAX, 0), (0, usize::MAX)] {
            assert_eq!(part(text, row, column), b"");
        }
        assert_eq!(part(b"a,b\r\nc", 0, 0), b"", "a refused text has no parts");
    }

    #[test]
    fn refusals_in_words() {
        let refused = |text: &[u8]| read(text).unwrap_err().to_string();
        assert_eq!(
            refused(b"a\"b\""),
            "refused 11 at place 1: not of the grammar of RFC 4180"
        );
        assert_eq!(
            refused(b"a,b\r\nc"),
            "refused 12 at place 6: the row's field count differs from the first row's"
        );
        assert_eq!(
            refused(&[b','; 40]),
            "refused 13 at place 31: the row has more than 32 fields"
        );
        assert_eq!(
            content(b"a", &mut []).unwrap_err().to_string(),
            "refused 5 at place 0: the target is shorter than the content"
        );
    }
}
