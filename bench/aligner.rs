// A plain Rust program that does what irig_time does to a canonical dump of format B, expression 2, and lines with microseconds in their
// first column. It checks less than irig_time: frames follow one another if their pulses do. usage: aligner TRACK < LINES
use std::io::{BufRead, BufWriter, Write};

const INTERVAL: u64 = 10_000;

struct Frame {
    marker: usize,
    days: u32,
    hours: u32,
    minutes: u32,
    micros: u64,
}

fn digit(ones: &[bool], first: usize, count: usize) -> u32 {
    (0..count).map(|k| (ones[first + k] as u32) << k).sum()
}

fn read_pulses(path: &str) -> Vec<(u64, u64)> {
    let text = std::fs::read(path).unwrap();
    let mut pulses = Vec::new();
    let (mut time, mut rise) = (0, 0);
    for line in text.split(|&b| b == b'\n') {
        match line {
            [b'#', digits @ ..] => time = digits.iter().fold(0, |n, &d| 10 * n + (d - b'0') as u64),
            [b'1', _] => rise = time,
            [b'0', _] if time > 0 => pulses.push((rise, time)),
            _ => {}
        }
    }
    pulses
}

fn class(width: u64) -> u8 {
    match 20 * width / INTERVAL {
        1..=6 => 0,
        7..=12 => 1,
        13..=18 => 2,
        _ => 3,
    }
}

fn frames(pulses: &[(u64, u64)]) -> Vec<Frame> {
    let classes: Vec<u8> = pulses.iter().map(|p| class(p.1 - p.0)).collect();
    let mut found = Vec::new();
    for marker in 1..pulses.len() {
        if classes[marker - 1] != 2 || classes[marker] != 2 || marker + 100 > pulses.len() {
            continue;
        }
        let sound = (1..100).all(|k| {
            let step = pulses[marker + k].0 - pulses[marker + k - 1].0;
            let position = k % 10 == 9;
            10 * step.abs_diff(INTERVAL) <= INTERVAL && (classes[marker + k] == 2) == position && classes[marker + k] < 3
        });
        if sound {
            let ones: Vec<bool> = (0..100).map(|k| classes[marker + k] == 1).collect();
            let seconds = digit(&ones, 1, 4) + 10 * digit(&ones, 6, 3);
            found.push(Frame {
                marker,
                days: digit(&ones, 30, 4) + 10 * digit(&ones, 35, 4) + 100 * digit(&ones, 40, 2),
                hours: digit(&ones, 20, 4) + 10 * digit(&ones, 25, 2),
                minutes: digit(&ones, 10, 4) + 10 * digit(&ones, 15, 3),
                micros: 1_000_000 * seconds as u64,
            });
        }
    }
    found
}

fn stamp(pulses: &[(u64, u64)], frames: &[Frame], time: u64) -> Option<String> {
    let number = pulses.partition_point(|p| p.0 <= time).checked_sub(1)?;
    let at = frames.partition_point(|f| f.marker <= number).checked_sub(1)?;
    let frame = &frames[at];
    let element = number - frame.marker;
    if element > 99 {
        return None;
    }
    let from = pulses[number].0;
    let follows = element < 99 || frames.get(at + 1).is_some_and(|next| next.marker == number + 1);
    let to = if follows { pulses[number + 1].0 } else { from + INTERVAL };
    if time >= to {
        return None;
    }
    let micros = frame.micros + element as u64 * INTERVAL + (time - from) * INTERVAL / (to - from);
    let (seconds, rest) = (micros / 1_000_000, micros % 1_000_000);
    Some(format!("{:03}T{:02}:{:02}:{:02}.{:06}", frame.days, frame.hours, frame.minutes, seconds, rest))
}

fn main() {
    let pulses = read_pulses(&std::env::args().nth(1).unwrap());
    let frames = frames(&pulses);
    let mut out = BufWriter::with_capacity(65_536, std::io::stdout().lock());
    for line in std::io::stdin().lock().lines() {
        let line = line.unwrap();
        let time = line.split_ascii_whitespace().next().and_then(|word| word.parse().ok());
        let word = time.and_then(|time| stamp(&pulses, &frames, time)).unwrap_or("-".to_string());
        writeln!(out, "{word}\t{line}").unwrap();
    }
}
