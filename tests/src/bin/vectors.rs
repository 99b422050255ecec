//! Prints the list of published vectors, of keys of zeros and of published blocks, worked by the
//! other implementation.

use strumok_tests::calls::Cipher;
use strumok_tests::vectors::list;

fn main() {
    print!("{}", list(&Cipher::new()));
}
