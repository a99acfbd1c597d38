//! A plain reader to compare with: it cuts each line as csv has it into one buffer that it uses again, adds up the last
//! field, and writes every sum before it reads on, or in blocks of 64 KiB where its word is `blocks`.
use std::env;
use std::fs::File;
use std::io::{self, BufRead, BufWriter, Write};
use std::os::fd::AsFd;

#[derive(Clone, Copy, PartialEq)]
enum Place {
    Front,
    Plain,
    Quoted,
    Behind,
}

/// Puts the fields of a line one after the other, and where each ends.
fn cut(line: &[u8], text: &mut Vec<u8>, ends: &mut Vec<usize>) {
    text.clear();
    ends.clear();
    let mut place = Place::Front;
    for &byte in line {
        place = match (place, byte) {
            (Place::Quoted, b'"') => Place::Behind,
            (Place::Front, b'"') => Place::Quoted,
            (Place::Quoted, _) => {
                text.push(byte);
                Place::Quoted
            }
            (Place::Behind, b'"') => {
                text.push(byte);
                Place::Quoted
            }
            (_, b',') => {
                ends.push(text.len());
                Place::Front
            }
            _ => {
                text.push(byte);
                Place::Plain
            }
        };
    }
    ends.push(text.len());
}

fn main() -> io::Result<()> {
    let mut input = io::stdin().lock();
    // Without std's buffer, so that each answer is one write.
    let direct = File::from(io::stdout().as_fd().try_clone_to_owned()?);
    let mut output: Box<dyn Write> = match env::args().nth(1).as_deref() {
        Some("blocks") => Box::new(BufWriter::with_capacity(65_536, direct)),
        _ => Box::new(direct),
    };
    let (mut line, mut text) = (Vec::new(), Vec::new());
    let (mut ends, mut answer) = (Vec::new(), Vec::new());
    let mut sum = 0i64;
    while input.read_until(b'\n', &mut line)? > 0 {
        let body = line.strip_suffix(b"\n").unwrap_or(&line);
        cut(body.strip_suffix(b"\r").unwrap_or(body), &mut text, &mut ends);
        let from = if ends.len() > 1 { ends[ends.len() - 2] } else { 0 };
        let field = &text[from..];
        sum += std::str::from_utf8(field).unwrap().parse::<i64>().unwrap();
        answer.clear();
        writeln!(answer, "{sum}")?;
        output.write_all(&answer)?;
        line.clear();
    }
    output.flush()
}
