//! The grammar of order files: RFC 4180's, with bytes 128 to 255 as ordinary text and the final
//! line end as a last line of no bytes. It stands as a list of productions, and whatever is asked
//! about a text is found by trying them all.
//!
//! - [`divisions`]: every way in which a beginning of the text is divided into fields;
//! - [`begins`]: which beginnings of the text can be carried on to a text of the grammar;
//! - [`contents`]: the content of a part, for every way in which it is a field.

use std::ops::Range;
use std::rc::Rc;
use Symbol::*;

/// The symbols of the grammar. The last five stand for one byte each, the others for what their
/// productions say.
#[derive(Clone, Copy, Debug, PartialEq, Eq)]
enum Symbol {
    Text,
    MoreLines,
    Line,
    MoreFields,
    Field,
    Escaped,
    Inside,
    NonEscaped,
    TextData,
    Comma,
    Cr,
    Lf,
    Quote,
}

/// The productions of a symbol: what may stand in its place. A symbol for one byte has none.
fn productions(symbol: Symbol) -> &'static [&'static [Symbol]] {
    match symbol {
        Text => &[&[Line, MoreLines]],
        MoreLines => &[&[], &[Cr, Lf, Line, MoreLines]],
        Line => &[&[Field, MoreFields]],
        MoreFields => &[&[], &[Comma, Field, MoreFields]],
        Field => &[&[Escaped], &[NonEscaped]],
        Escaped => &[&[Quote, Inside, Quote]],
        Inside => &[
            &[],
            &[TextData, Inside],
            &[Comma, Inside],
            &[Cr, Inside],
            &[Lf, Inside],
            &[Quote, Quote, Inside],
        ],
        NonEscaped => &[&[], &[TextData, NonEscaped]],
        TextData | Comma | Cr | Lf | Quote => &[],
    }
}

/// Whether a symbol stands for this one byte.
fn stands_for(symbol: Symbol, byte: u8) -> bool {
    match symbol {
        TextData => matches!(byte, 0x20..=0x21 | 0x23..=0x2b | 0x2d..=0x7e | 0x80..=0xff),
        Comma => byte == 0x2c,
        Cr => byte == 0x0d,
        Lf => byte == 0x0a,
        Quote => byte == 0x22,
        _ => false,
    }
}

/// A derivation: a symbol, the places of the bytes that it stands for, and the derivations of
/// the symbols that one of its productions put in its place.
struct Tree {
    symbol: Symbol,
    bytes: Range<usize>,
    parts: Vec<Rc<Tree>>,
}

/// Every derivation of a symbol from this place of the text on, to whatever place.
fn derivations(symbol: Symbol, text: &[u8], start: usize) -> Vec<Rc<Tree>> {
    let tree = |end, parts| {
        let bytes = start..end;
        Rc::new(Tree {
            symbol,
            bytes,
            parts,
        })
    };
    match text.get(start) {
        Some(&byte) if stands_for(symbol, byte) => vec![tree(start + 1, Vec::new())],
        _ => productions(symbol)
            .iter()
            .flat_map(|symbols| rows_of_derivations(symbols, text, start))
            .map(|(end, parts)| tree(end, parts))
            .collect(),
    }
}

/// Every row of derivations of these symbols, one behind the other, and the place where it ends.
fn rows_of_derivations(
    symbols: &[Symbol],
    text: &[u8],
    start: usize,
) -> Vec<(usize, Vec<Rc<Tree>>)> {
    let mut rows = vec![(start, Vec::new())];
    for &symbol in symbols {
        let mut longer = Vec::new();
        for (end, row) in rows {
            for tree in derivations(symbol, text, end) {
                let (end, mut row) = (tree.bytes.end, row.clone());
                row.push(tree);
                longer.push((end, row));
            }
        }
        rows = longer;
    }
    rows
}

/// The topmost derivations of a symbol in this one, from left to right.
fn topmost<'t>(tree: &'t Tree, symbol: Symbol, found: &mut Vec<&'t Tree>) {
    match tree.symbol == symbol {
        true => found.push(tree),
        false => tree
            .parts
            .iter()
            .for_each(|part| topmost(part, symbol, found)),
    }
}

fn all_topmost(tree: &Tree, symbol: Symbol) -> Vec<&Tree> {
    let mut found = Vec::new();
    topmost(tree, symbol, &mut found);
    found
}

/// A text as lines, and a line as the places of its fields; lines of no bytes are there too.
pub type Division = Vec<Vec<Range<usize>>>;

/// For each count of bytes from 0 to all, every division of the text's first so many.
pub fn divisions(text: &[u8]) -> Vec<Vec<Division>> {
    let mut divisions = vec![Vec::new(); text.len() + 1];
    for tree in derivations(Text, text, 0) {
        let fields = |line| all_topmost(line, Field).into_iter();
        let places = |line| fields(line).map(|field| field.bytes.clone()).collect();
        let lines = all_topmost(&tree, Line).into_iter().map(places);
        divisions[tree.bytes.end].push(lines.collect());
    }
    divisions
}

/// For each count of bytes from 0 to all, whether the text's first so many begin a text.
///
/// Kept are the rows of symbols that may still follow, the first symbol last in its row: those
/// before it stand for the bytes so far. Every symbol can stand for some bytes, so a text can be
/// carried on exactly where such a row is left.
pub fn begins(text: &[u8]) -> Vec<bool> {
    let mut following = vec![vec![Text]];
    let mut begins = vec![true];
    for &byte in text {
        let mut left = Vec::new();
        while let Some(mut row) = following.pop() {
            let symbol = match row.pop() {
                Some(symbol) => symbol,
                None => continue,
            };
            for symbols in productions(symbol) {
                let mut row = row.clone();
                row.extend(symbols.iter().rev());
                following.push(row);
            }
            if stands_for(symbol, byte) && !left.contains(&row) {
                left.push(row);
            }
        }
        following = left;
        begins.push(!following.is_empty());
    }
    begins
}

/// The content of a part by each derivation of it as a field.
pub fn contents(part: &[u8]) -> Vec<Vec<u8>> {
    derivations(Field, part, 0)
        .iter()
        .filter(|field| field.bytes.end == part.len())
        .map(|field| content(field, part))
        .collect()
}

/// The bytes that a derivation stands for, without the quotes around an escaped field, and with
/// the first alone of two quotes inside it.
fn content(tree: &Tree, part: &[u8]) -> Vec<u8> {
    let content_of =
        |trees: &[Rc<Tree>]| trees.iter().flat_map(|tree| content(tree, part)).collect();
    match (tree.symbol, &tree.parts[..]) {
        (Escaped, [_, inside, _]) => content(inside, part),
        (Inside, [quote, _, inside]) => content_of(&[quote.clone(), inside.clone()]),
        (_, []) => part[tree.bytes.clone()].to_vec(),
        (_, trees) => content_of(trees),
    }
}
