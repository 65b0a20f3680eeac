//! Answers of `planlines`, read one after another.

use std::io::{BufRead, BufReader, Error, ErrorKind, Read, Result};

/// Each answer begins with an `H` or `R` line.
pub struct Answers<R: Read> {
    input: BufReader<R>,
    /// The line behind the last answer, if it is read already.
    first: Option<String>,
}

impl<R: Read> Answers<R> {
    pub fn new(input: R) -> Self {
        Answers {
            input: BufReader::with_capacity(1 << 16, input),
            first: None,
        }
    }

    /// The lines of the next answer, without their line feeds; none at the end.
    pub fn next(&mut self) -> Result<Vec<String>> {
        let mut answer = vec![];
        let Some(first) = self
            .first
            .take()
            .map_or_else(|| self.line(), |l| Ok(Some(l)))?
        else {
            return Ok(answer);
        };
        answer.push(first);
        while let Some(line) = self.line()? {
            if line.starts_with(['H', 'R']) {
                self.first = Some(line);
                break;
            }
            answer.push(line);
        }
        Ok(answer)
    }

    /// The next line, none at the end. A last line without its line feed is an error, and so are bytes that are no text.
    fn line(&mut self) -> Result<Option<String>> {
        let mut line = String::new();
        if self.input.read_line(&mut line)? == 0 {
            return Ok(None);
        }
        match line.pop() {
            Some('\n') => Ok(Some(line)),
            _ => Err(Error::new(
                ErrorKind::UnexpectedEof,
                "the last line of the answers has no line feed",
            )),
        }
    }
}
