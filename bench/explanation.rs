//! How many nodes the tables of explanations have, in plain Rust: the recursion of irig_explaining, over a simple table of costs in
//! sixteenths of a nat, on a made recording of 10,000 microseconds an element.
//! `rustc -O bench/explanation.rs && ./explanation RISES WINDOW LOST BAD`: LOST percent of the pulses are missing, BAD percent of any width.
use std::time::Instant;

const ELEMENTS: usize = 100;
const INTERVAL: i64 = 10_000;
const SKIP: u64 = 128;
const STEP: u64 = 192;
const JUMP: u64 = 256;
/// More than any explanation costs.
const CANNOT: u64 = 1 << 40;

#[derive(Clone, Copy)]
struct Node {
    cost: u64,
    rise: usize,
    element: usize,
}

/// A rise and how long the pulse is.
struct Pulse {
    at: i64,
    width: i64,
}

/// How wide the pulses of an element can be, and what each width costs.
fn widths(element: usize) -> &'static [(i64, u64)] {
    match element {
        0 => &[(8_000, 0)],
        e if e % 10 == 9 => &[(8_000, 0)],
        e if e < 40 || e >= 80 => &[(2_000, 0), (5_000, 11)],
        _ => &[(2_000, 0)],
    }
}

fn look(pulse: &Pulse, element: usize) -> u64 {
    let off = |width: i64| (8 * ((pulse.width - width).abs() * 64 / INTERVAL).pow(2)).min(96) as u64;
    widths(element).iter().map(|(width, more)| off(*width) + more).min().unwrap()
}

/// What the distance costs if it is of this many elements: off the line, and those without a pulse.
fn distance(off: i64, elements: i64) -> u64 {
    let late = (8 * (off.abs() * 50 / INTERVAL).pow(2)).min(80) as u64;
    late + if elements == 1 { 0 } else { 72 + 13 * u64::from(64 - elements.leading_zeros()) }
}

/// A jump pays the distance too: else it would be the cheapest way over each hole.
fn price(pulses: &[Pulse], from: usize, element: usize, to: usize, next: usize, kind: usize) -> u64 {
    let gone = pulses[to].at - pulses[from].at;
    let near = (gone + INTERVAL / 2) / INTERVAL;
    let base = look(&pulses[from], element) + SKIP * (to - from - 1) as u64;
    let goes_on = (element + near as usize) % ELEMENTS == next;
    match kind {
        0 if goes_on && near > 0 => base + distance(gone - near * INTERVAL, near),
        1 if (element + 1) % ELEMENTS == next => base + STEP + distance(0, near.max(1)),
        2 => base + JUMP + distance(gone - near * INTERVAL, near.max(1)),
        _ => CANNOT,
    }
}

fn table(pulses: &[Pulse], window: usize, turned: bool) -> Vec<Node> {
    let last = pulses.len() - 1;
    let mut nodes: Vec<Node> = Vec::new();
    for rise in 0..pulses.len() {
        let start = nodes.partition_point(|node| node.rise + window < rise);
        let step = |node: &Node, element: usize, kind: usize| {
            if turned {
                price(pulses, last - rise, element, last - node.rise, node.element, kind)
            } else {
                price(pulses, node.rise, node.element, rise, element, kind)
            }
        };
        let cost = |element: usize| {
            let ways = nodes[start..].iter().flat_map(|node| (0..3).map(move |kind| node.cost + step(node, element, kind)));
            ways.min().unwrap_or(CANNOT).min(SKIP * rise as u64)
        };
        let row: Vec<Node> = (0..ELEMENTS).map(|element| Node { cost: cost(element), rise, element }).collect();
        let best = *row.iter().min_by_key(|node| node.cost).unwrap();
        let paid = |element: usize| if turned { 0 } else { look(&pulses[rise], element) };
        let most = |node: &Node| (JUMP + paid(best.element)).saturating_sub(paid(node.element));
        nodes.extend(row.iter().filter(|node| node.element == best.element || node.cost - best.cost < most(node)));
    }
    nodes
}

fn main() {
    let words: Vec<usize> = std::env::args().skip(1).map(|word| word.parse().unwrap()).collect();
    let (count, window, lost, bad) = (words[0], words[1], words[2], words[3]);
    let mut state = 12_345_u64;
    let mut random = move |below: usize| {
        state = state.wrapping_mul(6_364_136_223_846_793_005).wrapping_add(1_442_695_040_888_963_407);
        (state >> 33) as usize % below
    };
    let mut pulses = Vec::new();
    for element in 0.. {
        if pulses.len() == count {
            break;
        }
        if random(100) < lost {
            continue;
        }
        let choices = widths(element % ELEMENTS);
        let width = if random(100) < bad { 1_000 + random(8_000) as i64 } else { choices[random(choices.len())].0 };
        pulses.push(Pulse { at: element as i64 * INTERVAL + random(100) as i64 - 50, width });
    }
    for turned in [false, true] {
        let begin = Instant::now();
        let nodes = table(&pulses, window, turned);
        let (each, micros) = (nodes.len() as f64 / count as f64, begin.elapsed().as_secs_f64() * 1e6 / count as f64);
        println!("{}: {each:.1} nodes a rise, {micros:.0} microseconds a rise", if turned { "after" } else { "before" });
    }
}
