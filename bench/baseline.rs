//! The twin: a plain Rust program that reads a value change dump and writes it again, by the rules of
//! docs/FORMATS.md and with no crate. It is what irig_ed is measured against, and proves nothing.
//!
//! `baseline [--wire NAME] TRACK OUT`: reads TRACK and writes the canonical dump of its pulses to OUT, durably.
//! If OUT is `-`, it only reads.
//!
//! `baseline [--wire NAME] --list A|B|E|G TRACK`: reads TRACK and prints its pulses with their classes in that format.
//!
//! `baseline [--wire NAME] --edit A|B|E|G --expression N TRACK`: reads TRACK, finds its frames and obeys the script on
//! standard input (editor.rs).
//!
//! `baseline [--wire NAME] --diff BEFORE AFTER`: prints what differs between two tracks (difference.rs).

mod difference;
mod editor;

use std::env;
use std::fs;
use std::io::{self, BufWriter, Write};
use std::process::exit;

const LONGEST: u64 = 1 << 40;
const MOST_EDGES: u64 = 1 << 23;

#[derive(Clone, Copy)]
struct Token<'a> {
    text: &'a [u8],
    offset: usize,
}

struct Tokens<'a> {
    source: &'a [u8],
    at: usize,
}

fn is_space(b: u8) -> bool {
    (9..=13).contains(&b) || b == 32
}

impl<'a> Iterator for Tokens<'a> {
    type Item = Token<'a>;

    #[inline]
    fn next(&mut self) -> Option<Token<'a>> {
        let mut from = self.at;
        while from < self.source.len() && is_space(self.source[from]) {
            from += 1;
        }
        if from == self.source.len() {
            self.at = from;
            return None;
        }
        let mut to = from + 1;
        while to < self.source.len() && !is_space(self.source[to]) {
            to += 1;
        }
        self.at = to;
        Some(Token { text: &self.source[from..to], offset: from })
    }
}

#[derive(Debug)]
enum Fault {
    Unclosed,
    NoTimescale,
    BadTimescale,
    BadVar,
    NoSuchWire,
    ManyWires,
    NotOneBit,
    NoEndDefinitions,
    BadToken(usize),
    Backward(usize),
    TimeTooLarge(usize),
    TooManyPulses,
}

struct Variable<'a> {
    one_bit: bool,
    code: &'a [u8],
    reference: &'a [u8],
}

fn words<'a>(tokens: &mut Tokens<'a>) -> Result<Vec<&'a [u8]>, Fault> {
    let mut words = Vec::new();
    for token in tokens {
        if token.text == b"$end" {
            return Ok(words);
        }
        words.push(token.text);
    }
    Err(Fault::Unclosed)
}

/// The unit as a power of ten of femtoseconds.
fn timescale(words: &[&[u8]]) -> Result<u32, Fault> {
    let text = words.concat();
    let digits = text.iter().take_while(|b| b.is_ascii_digit()).count();
    let zeros = match &text[..digits] {
        b"1" => 0,
        b"10" => 1,
        b"100" => 2,
        _ => return Err(Fault::BadTimescale),
    };
    let unit = match &text[digits..] {
        b"s" => 15,
        b"ms" => 12,
        b"us" => 9,
        b"ns" => 6,
        b"ps" => 3,
        b"fs" => 0,
        _ => return Err(Fault::BadTimescale),
    };
    Ok(zeros + unit)
}

fn variable<'a>(words: &[&'a [u8]]) -> Result<Variable<'a>, Fault> {
    if words.len() < 4 || !words[1].iter().all(u8::is_ascii_digit) {
        return Err(Fault::BadVar);
    }
    if !words[2].iter().all(|b| (b'!'..=b'~').contains(b)) {
        return Err(Fault::BadVar);
    }
    let zeros = words[1].iter().take_while(|b| **b == b'0').count();
    let single = &words[1][zeros..] == b"1";
    let kinds: [&[u8]; 5] = [b"real", b"realtime", b"event", b"parameter", b"string"];
    Ok(Variable {
        one_bit: single && !kinds.contains(&words[0]),
        code: words[2],
        reference: words[3],
    })
}

fn header<'a>(tokens: &mut Tokens<'a>, wire: Option<&[u8]>) -> Result<(u32, &'a [u8]), Fault> {
    let mut scale = None;
    let mut variables = Vec::new();
    loop {
        let Some(head) = tokens.next() else {
            return Err(Fault::NoEndDefinitions);
        };
        match head.text {
            b"$end" | b"$dumpvars" | b"$dumpall" | b"$dumpon" | b"$dumpoff" => {
                return Err(Fault::BadToken(head.offset));
            }
            b"$timescale" => scale = Some(timescale(&words(tokens)?)?),
            b"$var" => variables.push(variable(&words(tokens)?)?),
            b"$enddefinitions" => {
                words(tokens)?;
                break;
            }
            [b'$', ..] => {
                words(tokens)?;
            }
            _ => return Err(Fault::BadToken(head.offset)),
        }
    }
    let scale = scale.ok_or(Fault::NoTimescale)?;
    let chosen: Vec<&Variable> = match wire {
        None => variables.iter().filter(|v| v.one_bit).collect(),
        Some(name) => {
            let named: Vec<_> = variables.iter().filter(|v| v.reference == name).collect();
            if named.is_empty() {
                variables.iter().filter(|v| v.code == name).collect()
            } else {
                named
            }
        }
    };
    let first = chosen.first().ok_or(Fault::NoSuchWire)?;
    if chosen.iter().any(|v| v.code != first.code) {
        return Err(Fault::ManyWires);
    }
    if chosen.iter().any(|v| !v.one_bit) {
        return Err(Fault::NotOneBit);
    }
    Ok((scale, first.code))
}

/// The level of the wire, and the edges that it made so far.
struct Levels {
    time: u64,
    before: bool,
    now: bool,
    edges: Vec<u64>,
    count: u64,
}

impl Levels {
    #[inline]
    fn put(&mut self, time: u64) {
        self.count += 1;
        if self.count <= MOST_EDGES {
            self.edges.push(time);
        }
    }

    #[inline]
    fn advance(&mut self, time: u64) {
        if time > self.time {
            if self.now != self.before {
                self.put(self.time);
            }
            self.before = self.now;
            self.time = time;
        }
    }
}

/// A number in the dump's unit, and its floor in microseconds.
#[derive(Clone, Copy)]
struct Clock {
    units: u128,
    micros: u64,
}

#[inline]
fn clock(exponent: u32, last: Clock, token: Token) -> Result<Clock, Fault> {
    let digits = &token.text[1..];
    if digits.is_empty() {
        return Err(Fault::BadToken(token.offset));
    }
    let mut units: u128 = 0;
    if digits.len() <= 18 {
        let mut small: u64 = 0;
        for b in digits {
            if !b.is_ascii_digit() {
                return Err(Fault::BadToken(token.offset));
            }
            small = small * 10 + u64::from(b - b'0');
        }
        units = u128::from(small);
    } else {
        for b in digits {
            if !b.is_ascii_digit() {
                return Err(Fault::BadToken(token.offset));
            }
            units = (units * 10 + u128::from(b - b'0')).min(1 << 100);
        }
    }
    if units < last.units {
        return Err(Fault::Backward(token.offset));
    }
    let micros = if exponent == 9 {
        units
    } else if exponent < 9 {
        units / 10u128.pow(9 - exponent)
    } else {
        units * 10u128.pow(exponent - 9)
    };
    if micros > u128::from(LONGEST) {
        return Err(Fault::TimeTooLarge(token.offset));
    }
    Ok(Clock { units, micros: micros as u64 })
}

fn read(source: &[u8], wire: Option<&[u8]>) -> Result<(u64, Vec<u64>), Fault> {
    let mut tokens = Tokens { source, at: 0 };
    let (exponent, code) = header(&mut tokens, wire)?;
    let mut levels = Levels { time: 0, before: false, now: false, edges: Vec::new(), count: 0 };
    let mut last = Clock { units: 0, micros: 0 };
    while let Some(token) = tokens.next() {
        match token.text[0] {
            b'#' => last = clock(exponent, last, token)?,
            value @ (b'0' | b'1' | b'x' | b'X' | b'z' | b'Z') => {
                if token.text.len() == 1 {
                    return Err(Fault::BadToken(token.offset));
                }
                if &token.text[1..] == code {
                    levels.advance(last.micros);
                    levels.now = value == b'1';
                }
            }
            b'b' | b'B' => {
                let behind = tokens.next().ok_or(Fault::BadToken(token.offset))?;
                if behind.text == code {
                    let value = token.text[token.text.len() - 1];
                    if token.text.len() < 2 || !b"01xXzZ".contains(&value) {
                        return Err(Fault::BadToken(token.offset));
                    }
                    levels.advance(last.micros);
                    levels.now = value == b'1';
                }
            }
            b'r' | b'R' | b's' | b'S' => {
                tokens.next().ok_or(Fault::BadToken(token.offset))?;
            }
            _ => match token.text {
                b"$dumpvars" | b"$dumpall" | b"$dumpon" | b"$dumpoff" | b"$end" => {}
                b"$comment" => {
                    words(&mut tokens)?;
                }
                _ => return Err(Fault::BadToken(token.offset)),
            },
        }
    }
    let end = last.micros;
    levels.advance(end);
    if levels.before {
        levels.put(end);
    }
    if levels.count > MOST_EDGES {
        return Err(Fault::TooManyPulses);
    }
    Ok((end, levels.edges))
}

fn put_decimal(out: &mut Vec<u8>, mut number: u64) {
    let mut digits = [0u8; 20];
    let mut at = 20;
    loop {
        at -= 1;
        digits[at] = b'0' + (number % 10) as u8;
        number /= 10;
        if number == 0 {
            break;
        }
    }
    out.extend_from_slice(&digits[at..]);
}

fn text(length: u64, edges: &[u64]) -> Vec<u8> {
    let mut out = Vec::new();
    out.extend_from_slice(
        b"$timescale 1 us $end\n$scope module irig $end\n$var wire 1 ! code $end\n$upscope $end\n$enddefinitions $end\n#0\n$dumpvars\n",
    );
    let starts_high = edges.first() == Some(&0);
    out.extend_from_slice(if starts_high { b"1!\n$end\n" } else { b"0!\n$end\n" });
    let mut high = starts_high;
    for edge in &edges[usize::from(starts_high)..] {
        high = !high;
        out.push(b'#');
        put_decimal(&mut out, *edge);
        out.extend_from_slice(if high { b"\n1!\n" } else { b"\n0!\n" });
    }
    if length > 0 && edges.last() != Some(&length) {
        out.push(b'#');
        put_decimal(&mut out, length);
        out.push(b'\n');
    }
    out
}

/// The index count interval of a format in microseconds.
fn interval(format: &str) -> u64 {
    match format {
        "A" => 1_000,
        "B" => 10_000,
        "E" => 100_000,
        _ => 100,
    }
}

/// What a pulse of this width means, both in microseconds.
fn class(interval: u64, width: u64) -> &'static [u8] {
    let twentieths = 20 * width;
    if twentieths < interval {
        b"bad"
    } else if twentieths < 7 * interval {
        b"zero"
    } else if twentieths < 13 * interval {
        b"one"
    } else if twentieths < 19 * interval {
        b"position"
    } else {
        b"bad"
    }
}

/// A line for each pulse: its number from 1, rise, fall and class.
fn list(interval: u64, edges: &[u64], out: &mut impl Write) -> io::Result<()> {
    let mut line = Vec::with_capacity(80);
    for (index, pulse) in edges.chunks_exact(2).enumerate() {
        line.clear();
        put_decimal(&mut line, index as u64 + 1);
        line.push(b' ');
        put_decimal(&mut line, pulse[0]);
        line.push(b' ');
        put_decimal(&mut line, pulse[1]);
        line.push(b' ');
        line.extend_from_slice(class(interval, pulse[1] - pulse[0]));
        line.push(b'\n');
        out.write_all(&line)?;
    }
    out.flush()
}

/// Writes the bytes to a path: to a new file next to it, which is synced and then renamed over it.
fn put(path: &str, bytes: &[u8]) -> io::Result<()> {
    let new = format!("{path}.new");
    let mut file = fs::File::create(&new)?;
    file.write_all(bytes)?;
    file.sync_all()?;
    fs::rename(&new, path)
}

/// The value of an option, if the arguments begin with it.
fn option(arguments: &mut Vec<String>, name: &str) -> Option<String> {
    if arguments.first().is_some_and(|word| word == name) {
        arguments.remove(0);
        return Some(arguments.remove(0));
    }
    None
}

fn main() {
    let mut arguments: Vec<String> = env::args().skip(1).collect();
    let wire = option(&mut arguments, "--wire").map(String::into_bytes);
    let listed = option(&mut arguments, "--list");
    let edited = option(&mut arguments, "--edit");
    let expression = option(&mut arguments, "--expression").map_or(2, |number| number.parse().unwrap());
    if let Some(before) = option(&mut arguments, "--diff") {
        let [before, after] = [&before, &arguments[0]].map(|path| read(&fs::read(path).unwrap(), wire.as_deref()).unwrap());
        let mut out = BufWriter::with_capacity(65536, io::stdout().lock());
        exit(if difference::print(&before, &after, &mut out).unwrap() { 0 } else { 1 });
    }
    let source = fs::read(&arguments[0]).unwrap();
    match read(&source, wire.as_deref()) {
        Err(fault) => {
            eprintln!("{fault:?}");
            exit(3);
        }
        Ok((length, edges)) => {
            if let Some(format) = listed {
                let mut out = BufWriter::with_capacity(8192, io::stdout().lock());
                list(interval(&format), &edges, &mut out).unwrap();
                return;
            }
            if let Some(format) = edited {
                let mut editor = editor::Editor::open(interval(&format), &format, expression, &edges);
                drop(edges);
                let mut out = BufWriter::with_capacity(8192, io::stdout().lock());
                editor.obey(&mut io::stdin().lock(), &mut out).unwrap();
                return;
            }
            if arguments[1] == "-" {
                return;
            }
            let bytes = text(length, &edges);
            put(&arguments[1], &bytes).unwrap();
            println!("{}", bytes.len());
        }
    }
}
