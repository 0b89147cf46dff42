//! Reads a rule from standard input and prints the answer: `check < RULE`

mod tuharimo;

use std::io::{self, Read, Write};

fn main() -> io::Result<()> {
    let one_too_many = tuharimo::TEXT_LIMIT as u64 + 1; // enough to be found too long
    let mut text = Vec::new();
    io::stdin().take(one_too_many).read_to_end(&mut text)?;

    let mut output = [0; tuharimo::OUTPUT_ENOUGH];
    let answer = tuharimo::answer(&text, &mut output).expect("the output is always long enough");

    io::stdout().write_all(answer)
}
