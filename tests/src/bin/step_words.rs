//! Prints the list of words that steps hand over, worked by the other implementation.

use strumok_tests::edges::step_words;
use strumok_tests::field::Tables;

fn main() {
    print!("{}", step_words(&Tables::new()));
}
