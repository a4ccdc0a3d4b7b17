//! Compares the proved library, through its C entries, with the plain Rust implementation of the same operations.

mod archive;
mod call;
mod cases;
mod numbers;
mod program;
mod random;
mod records;
mod runs;
mod shapes;
mod speed;
mod stack;
mod vectors;

use std::process::ExitCode;

const USAGE: &str = "\
compare entries                          the entries of the library that this program was built with
compare vectors reference|archive FILE.. every line of the files with right answers
compare program PROGRAM FILE..           the listing program on every listing line of the files
compare random N SEED                    N random records, every operation, both sides
compare runs N SEED                      N sound records taken back, key by key and at once, and done again
compare speed                            time of the library over time of the plain implementation
compare growth                           time of each operation at 500 to 4,000 nodes
compare stack                            bytes of stack that each entry touches
";

fn main() -> ExitCode {
    let words: Vec<String> = std::env::args().skip(1).collect();
    let words: Vec<&str> = words.iter().map(String::as_str).collect();
    let number = |word: &str| word.parse::<u64>().expect("a number");
    let agreed = match words.as_slice() {
        ["entries"] => archive::print_entries(),
        ["vectors", "reference", files @ ..] => vectors::check(call::Side::Reference, files),
        ["vectors", "archive", files @ ..] => vectors::check(call::Side::Archive, files),
        ["program", program, files @ ..] => program::check(program, files),
        ["random", n, seed] => random::check(number(n), number(seed)),
        ["runs", n, seed] => runs::check(number(n), number(seed)),
        ["speed"] => speed::ratios(),
        ["growth"] => speed::growth(),
        ["stack"] => stack::measure(),
        _ => {
            eprint!("{USAGE}");
            return ExitCode::from(2);
        }
    };
    if agreed {
        ExitCode::SUCCESS
    } else {
        ExitCode::FAILURE
    }
}
