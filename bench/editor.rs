//! The twin as an editor: a track in a gap buffer, its frames in another, repaired after each edit in the window that the
//! edit can reach, and a journal of what edits took away. It obeys `K force CLASS`, `K delete`, `insert A B`,
//! `invert A B`, `undo`, `redo`, `frames` and `quit`, by the rules of docs/SCRIPT.md, for sound scripts alone.

use std::io::{self, BufRead, Write};

use crate::put_decimal;

#[derive(Clone, Copy, Default)]
struct Pulse {
    rise: u64,
    fall: u64,
}

/// A list that is edited at one place: the items up to `gap`, and those from `after` on.
struct Gap<T> {
    items: Vec<T>,
    gap: usize,
    after: usize,
}

impl<T: Copy + Default> Gap<T> {
    fn from(items: Vec<T>) -> Self {
        let gap = items.len();
        Gap { after: gap, items, gap }
    }

    fn len(&self) -> usize {
        self.gap + self.items.len() - self.after
    }

    #[inline]
    fn get(&self, index: usize) -> T {
        let at = if index < self.gap { index } else { index + self.after - self.gap };
        self.items[at]
    }

    fn move_to(&mut self, at: usize) {
        if at < self.gap {
            self.items.copy_within(at..self.gap, self.after - (self.gap - at));
            self.after -= self.gap - at;
        } else {
            let end = self.after + (at - self.gap);
            self.items.copy_within(self.after..end, self.gap);
            self.after = end;
        }
        self.gap = at;
    }

    fn put(&mut self, item: T) {
        if self.gap == self.after {
            let free = self.items.len() / 2 + 16;
            let right = self.items.len() - self.after;
            self.items.resize(self.items.len() + free, T::default());
            self.items.copy_within(self.after..self.after + right, self.after + free);
            self.after += free;
        }
        self.items[self.gap] = item;
        self.gap += 1;
    }
}

/// For each element the digit or number that it adds to, and its weight; no digit if no field uses it.
type Layout = [(u8, u32); 100];

/// The digits: hundredths, seconds, minutes, hours and days, each from its units up; the year, seconds of the day, control.
const DIGITS: usize = 15;
const SBS: usize = 13;
const CONTROL: usize = 14;
const UNUSED: u8 = 255;

fn layout(format: &str, expression: u32) -> Layout {
    let mut layout = [(UNUSED, 0); 100];
    let mut row = |first: usize, count: usize, digit: usize| {
        for k in 0..count {
            layout[first + k] = (digit as u8, 1 << k);
        }
    };
    let year = expression >= 4;
    let binary = matches!(expression, 0 | 3 | 4 | 7) && matches!(format, "A" | "B");
    let control = matches!(expression, 0 | 1 | 4 | 5);
    if format == "G" {
        row(50, 4, 0);
    }
    if matches!(format, "A" | "G") {
        row(45, 4, 1);
    }
    if format != "E" {
        row(1, 4, 2);
    }
    row(6, 3, 3);
    row(10, 4, 4);
    row(15, 3, 5);
    row(20, 4, 6);
    row(25, 2, 7);
    row(30, 4, 8);
    row(35, 4, 9);
    row(40, 2, 10);
    if year {
        let first = if format == "G" { 60 } else { 50 };
        row(first, 4, 11);
        row(first + 5, 4, 12);
    }
    if binary {
        row(80, 9, SBS);
        for k in 0..8 {
            layout[90 + k] = (SBS as u8, 1 << (9 + k));
        }
    }
    if control {
        let first = if format == "G" { 60 } else { 50 } + if year { 10 } else { 0 };
        let end = if matches!(format, "A" | "B") { 80 } else { 100 };
        for element in (first..end).filter(|e| e % 10 != 9) {
            layout[element] = (CONTROL as u8, (element - first) as u32 / 10 * 9 + element as u32 % 10);
        }
    }
    layout
}

#[derive(Clone, Copy, Default, PartialEq)]
enum Cause {
    #[default]
    Ended,
    Step,
    Class,
}

#[derive(Clone, Copy, Default)]
enum Note {
    #[default]
    Fine,
    Field(u8),
    Sbs,
    Stray(u8),
}

#[derive(Clone, Copy)]
enum Verdict {
    Broken(u8, Cause),
    Read { digits: [u32; DIGITS - 1], control: u64, note: Note },
}

impl Default for Verdict {
    fn default() -> Self {
        Verdict::Broken(0, Cause::Ended)
    }
}

/// A marker and what its frame says. Left of the gap the marker counts from the front, right of it from the back.
#[derive(Clone, Copy, Default)]
struct Record {
    marker: usize,
    verdict: Verdict,
}

/// What an edit took away: from pulse `at` on, `put` replaces `count` pulses.
struct Splice {
    at: usize,
    count: usize,
    put: Vec<Pulse>,
}

pub struct Editor {
    interval: u64,
    kind: String,
    expression: u32,
    layout: Layout,
    pulses: Gap<Pulse>,
    records: Gap<Record>,
    past: Vec<Splice>,
    future: Vec<Splice>,
}

impl Editor {
    pub fn open(interval: u64, kind: &str, expression: u32, edges: &[u64]) -> Self {
        let pulses = edges.chunks_exact(2).map(|p| Pulse { rise: p[0], fall: p[1] }).collect();
        let mut editor = Editor {
            interval,
            kind: kind.to_string(),
            expression,
            layout: layout(kind, expression),
            pulses: Gap::from(pulses),
            records: Gap::from(Vec::new()),
            past: Vec::new(),
            future: Vec::new(),
        };
        editor.fill(0, editor.pulses.len());
        editor
    }

    #[inline]
    fn is_position(&self, pulse: Pulse) -> bool {
        let width = 20 * (pulse.fall - pulse.rise);
        13 * self.interval <= width && width < 19 * self.interval
    }

    #[inline]
    fn in_step(&self, distance: u64) -> bool {
        10 * distance.abs_diff(self.interval) <= self.interval
    }

    /// Inserts a record for each marker from `from` up to, and not with, `to`.
    fn fill(&mut self, from: usize, to: usize) {
        let mut marker = from.max(1);
        while marker < to {
            let pulse = self.pulses.get(marker);
            if !self.is_position(pulse) {
                marker += 2;
                continue;
            }
            let before = self.pulses.get(marker - 1);
            if self.is_position(before) && self.in_step(pulse.rise - before.rise) {
                let verdict = self.verdict(marker);
                self.records.put(Record { marker, verdict });
            }
            marker += 1;
        }
    }

    fn verdict(&self, marker: usize) -> Verdict {
        let mut before = self.pulses.get(marker);
        let mut ones: u128 = 0;
        for k in 1..100 {
            if marker + k >= self.pulses.len() {
                return Verdict::Broken(k as u8, Cause::Ended);
            }
            let pulse = self.pulses.get(marker + k);
            if !self.in_step(pulse.rise - before.rise) {
                return Verdict::Broken(k as u8, Cause::Step);
            }
            let width = 20 * (pulse.fall - pulse.rise);
            let fits = if k % 10 == 9 {
                self.is_position(pulse)
            } else {
                self.interval <= width && width < 13 * self.interval
            };
            if !fits {
                return Verdict::Broken(k as u8, Cause::Class);
            }
            if k % 10 != 9 && width >= 7 * self.interval {
                ones |= 1 << k;
            }
            before = pulse;
        }
        self.decode(ones)
    }

    fn decode(&self, mut ones: u128) -> Verdict {
        let mut digits = [0u32; DIGITS - 1];
        let mut control = 0u64;
        let mut stray = None;
        while ones != 0 {
            let element = ones.trailing_zeros();
            ones &= ones - 1;
            let (digit, weight) = self.layout[element as usize];
            if digit == UNUSED {
                stray = stray.or(Some(element as u8));
            } else if digit as usize == CONTROL {
                control |= 1 << weight;
            } else {
                digits[digit as usize] += weight;
            }
        }
        let note = self.note(&digits, stray);
        Verdict::Read { digits, control, note }
    }

    fn note(&self, d: &[u32], stray: Option<u8>) -> Note {
        let pair = |k: usize, most: u32| d[k] > 9 || d[k + 1] > 9 || d[k] + 10 * d[k + 1] > most;
        let day = d[8] + 10 * d[9] + 100 * d[10];
        if pair(0, 99) {
            return Note::Field(0);
        }
        if pair(2, 60) {
            return Note::Field(1);
        }
        if pair(4, 59) {
            return Note::Field(2);
        }
        if pair(6, 23) {
            return Note::Field(3);
        }
        if d[8] > 9 || d[9] > 9 || !(1..=366).contains(&day) {
            return Note::Field(4);
        }
        if pair(11, 99) {
            return Note::Field(5);
        }
        let told = 3600 * (d[6] + 10 * d[7]) + 60 * (d[4] + 10 * d[5]) + d[2] + 10 * d[3];
        if matches!(self.expression, 0 | 3 | 4 | 7) && matches!(self.kind.as_str(), "A" | "B") && d[SBS] != told {
            return Note::Sbs;
        }
        stray.map_or(Note::Fine, Note::Stray)
    }

    /// Decides again the markers that an edit can reach: `old` pulses from `at` on became `new`.
    fn repair(&mut self, at: usize, old: usize, new: usize) {
        let former = self.pulses.len() + old - new;
        let first = at.saturating_sub(99);
        let place = |r: Record, k: usize, gap: usize| if k < gap { r.marker } else { former - r.marker };
        let records = &mut self.records;
        while records.gap > 0 && place(records.get(records.gap - 1), records.gap - 1, records.gap) >= first {
            let record = records.get(records.gap - 1);
            records.gap -= 1;
            records.after -= 1;
            records.items[records.after] = Record { marker: former - record.marker, ..record };
        }
        while records.after < records.items.len() {
            let record = records.items[records.after];
            let marker = former - record.marker;
            if marker >= first {
                break;
            }
            records.items[records.gap] = Record { marker, ..record };
            records.gap += 1;
            records.after += 1;
        }
        while records.after < records.items.len() && former - records.items[records.after].marker <= at + old {
            records.after += 1;
        }
        let end = self.pulses.len().min(at + new + 1);
        self.fill(first, end);
    }

    /// Turns a splice in place into its inverse.
    fn turn(&mut self, splice: &mut Splice) {
        let mut taken = Vec::with_capacity(splice.count);
        self.pulses.move_to(splice.at);
        for k in 0..splice.count {
            taken.push(self.pulses.get(splice.at + k));
        }
        self.pulses.after += splice.count;
        for pulse in &splice.put {
            self.pulses.put(*pulse);
        }
        let (old, new) = (splice.count, splice.put.len());
        splice.put = taken;
        splice.count = new;
        self.repair(splice.at, old, new);
    }

    fn edit(&mut self, at: usize, count: usize, put: Vec<Pulse>) {
        let mut splice = Splice { at, count, put };
        self.turn(&mut splice);
        self.past.push(splice);
        self.future.clear();
    }

    /// Turns the level over from `a` to `b`.
    fn invert(&mut self, a: u64, b: u64) {
        let end = self.find(b);
        let mut at = end;
        while at > 0 && self.pulses.get(at - 1).fall >= a {
            at -= 1;
        }
        let mut edges = Vec::with_capacity(2 * (end - at) + 2);
        for k in at..end {
            let pulse = self.pulses.get(k);
            edges.extend([pulse.rise, pulse.fall]);
        }
        for time in [a, b] {
            match edges.binary_search(&time) {
                Ok(k) => {
                    edges.remove(k);
                }
                Err(k) => edges.insert(k, time),
            }
        }
        let put = edges.chunks_exact(2).map(|p| Pulse { rise: p[0], fall: p[1] }).collect();
        self.edit(at, end - at, put);
    }

    fn frames(&self, out: &mut impl Write) -> io::Result<()> {
        for k in 0..self.records.len() {
            let record = self.records.get(k);
            let marker = if k < self.records.gap { record.marker } else { self.pulses.len() - record.marker };
            let mut line = Vec::new();
            for number in [k as u64 + 1, marker as u64 + 1, self.pulses.get(marker).rise] {
                put_decimal(&mut line, number);
                line.push(b' ');
            }
            out.write_all(&line)?;
            match record.verdict {
                Verdict::Broken(k, cause) => {
                    let cause = ["ended", "step", "class"][cause as usize];
                    writeln!(out, "broken {k} {cause}")?;
                }
                Verdict::Read { digits: d, control, note } => self.read_frame(out, &d, control, note)?,
            }
        }
        out.flush()
    }

    fn read_frame(&self, out: &mut impl Write, d: &[u32], control: u64, note: Note) -> io::Result<()> {
        let pair = |k: usize| d[k] + 10 * d[k + 1];
        write!(out, "{:03} {:02}:{:02}:{:02}", d[8] + 10 * d[9] + 100 * d[10], pair(6), pair(4), pair(2))?;
        if matches!(self.kind.as_str(), "A" | "G") {
            write!(out, ".{:02}", pair(0))?;
        }
        if self.expression >= 4 {
            write!(out, " year {:02}", pair(11))?;
        }
        if matches!(self.expression, 0 | 3 | 4 | 7) && matches!(self.kind.as_str(), "A" | "B") {
            write!(out, " sbs {}", d[SBS])?;
        }
        if matches!(self.expression, 0 | 1 | 4 | 5) {
            write!(out, " control {control:x}")?;
        }
        match note {
            Note::Fine => writeln!(out, " fine"),
            Note::Field(k) => {
                writeln!(out, " field {}", ["hundredths", "seconds", "minutes", "hours", "days", "year"][k as usize])
            }
            Note::Sbs => writeln!(out, " sbs"),
            Note::Stray(element) => writeln!(out, " stray {element}"),
        }
    }

    /// Obeys a script of sound lines.
    pub fn obey(&mut self, script: &mut impl BufRead, out: &mut impl Write) -> io::Result<()> {
        let mut line = String::new();
        loop {
            line.clear();
            if script.read_line(&mut line)? == 0 {
                return Ok(());
            }
            let mut words = line.split_ascii_whitespace();
            let first = words.next().unwrap_or("");
            match first {
                "quit" => return Ok(()),
                "frames" => self.frames(out)?,
                "undo" => {
                    let mut splice = self.past.pop().unwrap();
                    self.turn(&mut splice);
                    self.future.push(splice);
                }
                "redo" => {
                    let mut splice = self.future.pop().unwrap();
                    self.turn(&mut splice);
                    self.past.push(splice);
                }
                "insert" => {
                    let rise: u64 = words.next().unwrap().parse().unwrap();
                    let fall: u64 = words.next().unwrap().parse().unwrap();
                    let at = self.find(rise);
                    self.edit(at, 0, vec![Pulse { rise, fall }]);
                }
                "invert" => {
                    let a: u64 = words.next().unwrap().parse().unwrap();
                    let b: u64 = words.next().unwrap().parse().unwrap();
                    self.invert(a, b);
                }
                number => {
                    let at = number.parse::<usize>().unwrap() - 1;
                    match words.next() {
                        Some("delete") => self.edit(at, 1, Vec::new()),
                        _ => {
                            let tenths = match words.next() {
                                Some("zero") => 2,
                                Some("one") => 5,
                                _ => 8,
                            };
                            let rise = self.pulses.get(at).rise;
                            self.edit(at, 1, vec![Pulse { rise, fall: rise + self.interval / 10 * tenths }]);
                        }
                    }
                }
            }
        }
    }

    /// How many pulses rise at or before `time`.
    fn find(&self, time: u64) -> usize {
        let (mut low, mut high) = (0, self.pulses.len());
        while low < high {
            let half = (low + high) / 2;
            if self.pulses.get(half).rise <= time {
                low = half + 1;
            } else {
                high = half;
            }
        }
        low
    }
}
