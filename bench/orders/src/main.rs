//! Reads the histories, with the orders that the Rust found, and prints orders proposed for them.

use std::io::Read;

fn main() {
    let mut histories = String::new();
    std::io::stdin()
        .read_to_string(&mut histories)
        .expect("the histories");
    print!("{}", orders::list::text(&histories));
}
