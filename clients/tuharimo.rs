//! The library for Rust: what `tuharimo.h` is for C, behind a safe function.

/// A longer text is refused whatever it holds, so a caller need not read further than one byte
/// beyond this.
#[allow(dead_code)]
pub const TEXT_LIMIT: usize = 8192;

/// An output of so many bytes is long enough for the answer to any text.
pub const OUTPUT_ENOUGH: usize = 10_200;

/// Reads a rule text, checks it over known bits and ranges, and prints the answer into `output`:
/// the reports, or why the text is no rule. Answers the part of the output that was printed; none,
/// with the output untouched, if it is too short. `tuharimo.h` shows what is printed.
pub fn answer<'o>(text: &[u8], output: &'o mut [u8]) -> Option<&'o [u8]> {
    // SAFETY: each pointer is that of a slice with the length that is told, which is never null;
    // the library reads the one and writes the other, and they cannot overlap.
    let printed =
        unsafe { tuharimo_answer(text.as_ptr(), text.len(), output.as_mut_ptr(), output.len()) };
    (printed > 0).then(|| &output[..printed])
}

unsafe extern "C" {
    fn tuharimo_answer(
        text: *const u8,
        text_len: usize,
        output: *mut u8,
        output_len: usize,
    ) -> usize;
}
