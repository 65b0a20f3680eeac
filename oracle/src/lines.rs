//! Standard input answered line by line, as `planlines` does it. The memory does not grow with the input.

use std::io::{self, BufRead, BufReader, Read, Write};

use crate::texts::{Answerer, MAX_LINE};

const BLOCK: usize = 1 << 16;

/// Calls `each` with every line, without its line feed; of a line that is too long with the first bytes alone.
pub fn each_line<E: From<io::Error>>(
    input: impl Read,
    mut each: impl FnMut(&[u8]) -> Result<(), E>,
) -> Result<(), E> {
    let mut input = BufReader::with_capacity(BLOCK, input);
    // The beginning of a line that goes on in the next block.
    let mut begun = vec![];
    loop {
        let block = input.fill_buf()?;
        if block.is_empty() {
            break;
        }
        let mut rest = block;
        while let Some(end) = rest.iter().position(|&b| b == b'\n') {
            if begun.is_empty() {
                each(&rest[..end])?;
            } else {
                keep(&mut begun, &rest[..end]);
                each(&begun)?;
                begun.clear();
            }
            rest = &rest[end + 1..];
        }
        keep(&mut begun, rest);
        let read = block.len();
        input.consume(read);
    }
    if begun.is_empty() {
        Ok(())
    } else {
        each(&begun)
    }
}

/// One byte above the limit is kept, and tells that the line is too long.
fn keep(begun: &mut Vec<u8>, bytes: &[u8]) {
    let room = MAX_LINE + 1 - begun.len();
    begun.extend_from_slice(&bytes[..bytes.len().min(room)]);
}

pub fn answer_all(input: impl Read, mut output: impl Write) -> io::Result<()> {
    let mut answerer = Answerer::default();
    let mut out = Vec::with_capacity(2 * BLOCK);
    each_line(input, |line| -> io::Result<()> {
        answerer.answer(line, &mut out);
        if out.len() >= BLOCK {
            output.write_all(&out)?;
            out.clear();
        }
        Ok(())
    })?;
    output.write_all(&out)?;
    output.flush()
}
