//! bench [WORD]: prints a table of the least times, of all operations or of those whose name has
//! the word.

fn main() {
    folgutan_harness::bench::run(std::env::args().nth(1).as_deref());
}
