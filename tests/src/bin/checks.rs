//! Prints the list of checks, worked by the other implementation.

use strumok_tests::calls::Cipher;
use strumok_tests::edges::checks;

fn main() {
    print!("{}", checks(&Cipher::new()));
}
