//! Prints the list of edges, worked by the other implementation.

use strumok_tests::calls::Cipher;
use strumok_tests::edges::edges;

fn main() {
    print!("{}", edges(&Cipher::new()));
}
