//! The peer of `album judge`: answers the same lines by the same bytes, over serde's derive.
//!
//! Texts are borrowed from the line, buffers are kept from line to line, and a line is read in one pass. Only one that
//! isn't of the plain shape (a key twice, a text with an escape, anything wrong) is read a second time, as a tree, in
//! which the last of two equal keys counts and which says what is wrong with it.
mod judging;
mod lines;
mod values;

use judging::{judged, Found};
use std::io::{self, stdin, stdout, BufRead, BufReader, BufWriter, Write};
use values::Refusal;

const BUFFER: usize = 1 << 18;
const MAX_LINE: usize = 65_536;

fn main() -> io::Result<()> {
    let mut reader = BufReader::with_capacity(BUFFER, stdin().lock());
    let mut writer = BufWriter::with_capacity(BUFFER, stdout().lock());
    let mut found = Found::default();
    let mut line = Vec::new();
    while reader.read_until(b'\n', &mut line)? > 0 {
        if line.last() == Some(&b'\n') {
            line.pop();
        }
        answer(&line, &mut found, &mut writer)?;
        line.clear();
    }
    writer.flush()
}

fn answer(line: &[u8], found: &mut Found, writer: &mut impl Write) -> io::Result<()> {
    if line.len() > MAX_LINE {
        return Refusal::BadLine.write(writer);
    }
    if line.iter().all(|byte| matches!(byte, b' ' | b'\t' | b'\r')) {
        return Ok(());
    }
    match judged(line, found) {
        Ok(verdict) => verdict.write(writer),
        Err(refusal) => refusal.write(writer),
    }
}
