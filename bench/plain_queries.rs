//! The queries of `bench/queries.py`, as one would write them by hand with std alone. `plain_queries QUERY` writes
//! each answer before it reads on, and `plain_queries QUERY blocks` writes blocks of 64 KiB.
use std::collections::HashMap;
use std::env;
use std::fs::File;
use std::io::{self, BufRead, BufWriter, Write};
use std::os::fd::AsFd;

fn number(field: &[u8]) -> i64 {
    std::str::from_utf8(field).unwrap().parse().unwrap()
}

/// A price of two digits after the point, in hundredths.
fn hundredths(price: &[u8]) -> i64 {
    let (whole, digits) = price.split_at(price.len() - 3);
    100 * number(whole) + number(&digits[1..])
}

/// The fields of a line without quotes.
fn fields<const COUNT: usize>(line: &[u8]) -> [&[u8]; COUNT] {
    let mut fields = line.split(|&byte| byte == b',');
    std::array::from_fn(|_| fields.next().unwrap())
}

fn running_sum() -> impl FnMut(&[u8]) -> Option<i64> {
    let mut sum = 0;
    move |line| {
        sum += number(line);
        Some(sum)
    }
}

/// The quotient is cut towards zero.
fn average() -> impl FnMut(&[u8]) -> Option<i64> {
    let (mut sum, mut count) = (0, 0);
    move |line| {
        sum += number(line);
        count += 1;
        Some(sum / count)
    }
}

fn peak() -> impl FnMut(&[u8]) -> Option<i64> {
    let (mut sum, mut peak) = (0, 0);
    move |line| {
        sum += number(line);
        peak = peak.max(sum);
        Some(peak)
    }
}

/// The greatest sum of a key, at a mark.
fn sums_by_key() -> impl FnMut(&[u8]) -> Option<i64> {
    let mut sums: HashMap<Vec<u8>, i64> = HashMap::new();
    move |line| {
        let [key, amount] = fields(line);
        if key == b"mark" {
            return Some(sums.values().fold(0, |greatest, &sum| greatest.max(sum)));
        }
        match sums.get_mut(key) {
            Some(sum) => *sum += number(amount),
            None => {
                sums.insert(key.to_vec(), number(amount));
            }
        }
        None
    }
}

fn sum_since_mark() -> impl FnMut(&[u8]) -> Option<i64> {
    let mut sum = 0;
    move |line| {
        let [word, amount] = fields(line);
        sum = if word == b"mark" { 0 } else { sum + number(amount) };
        Some(sum)
    }
}

fn turnover() -> impl FnMut(&[u8]) -> Option<i64> {
    let mut sum = 0;
    move |line| {
        let [symbol, price, shares] = fields(line);
        if symbol == b"AAPL" {
            sum += hundredths(price) * number(shares);
        }
        Some(sum)
    }
}

fn answer_lines(mut output: impl Write, mut query: impl FnMut(&[u8]) -> Option<i64>) -> io::Result<()> {
    let mut input = io::stdin().lock();
    let (mut line, mut text) = (Vec::new(), Vec::new());
    while input.read_until(b'\n', &mut line)? > 0 {
        let body = line.strip_suffix(b"\n").unwrap_or(&line);
        text.clear();
        match query(body.strip_suffix(b"\r").unwrap_or(body)) {
            Some(answer) => writeln!(text, "{answer}")?,
            None => text.extend_from_slice(b"undefined\n"),
        }
        output.write_all(&text)?;
        line.clear();
    }
    output.flush()
}

fn main() -> io::Result<()> {
    let words: Vec<String> = env::args().skip(1).collect();
    // Without std's buffer, so that each answer is one write.
    let direct = File::from(io::stdout().as_fd().try_clone_to_owned()?);
    let output: Box<dyn Write> = match words.get(1).map(String::as_str) {
        Some("blocks") => Box::new(BufWriter::with_capacity(65_536, direct)),
        _ => Box::new(direct),
    };
    match words[0].as_str() {
        "running_sum" => answer_lines(output, running_sum()),
        "average" => answer_lines(output, average()),
        "peak" => answer_lines(output, peak()),
        "sums_by_key" => answer_lines(output, sums_by_key()),
        "sum_since_mark" => answer_lines(output, sum_since_mark()),
        "turnover" => answer_lines(output, turnover()),
        query => panic!("no query is {query}"),
    }
}
