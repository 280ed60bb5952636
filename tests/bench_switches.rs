// The switch list: the proved tool, from the bytes of a file to the bytes of its list, against plain Rust that is handed the
// reserves and makes the same text, on the same files in one run. The proved call plans the file first: what it takes to
// come to the plan is measured by the question who runs, and the list's own time is what is left.
mod random;

use random::Random;
use std::time::Instant;

extern "C" {
    fn rack_plan(tasks: *const u8, tasks_len: usize, out: *mut u8, out_len: usize) -> usize;
    fn rack_who(tasks: *const u8, tasks_len: usize, processor: u64, tick: u64, answer: *mut u64, answer_len: usize) -> u64;
    fn rack_switches(tasks: *const u8, tasks_len: usize, out: *mut u8, out_len: usize, answer: *mut u64, answer_len: usize) -> u64;
}

const MOST: usize = 63345;

fn proved(file: &[u8], out: &mut [u8]) -> usize {
    let mut answer = [0];
    let status = unsafe { rack_switches(file.as_ptr(), file.len(), out.as_mut_ptr(), out.len(), answer.as_mut_ptr(), 1) };
    assert_eq!(status, 0);
    answer[0] as usize
}

fn who(file: &[u8]) -> u64 {
    let mut answer = [0; 2];
    let status = unsafe { rack_who(file.as_ptr(), file.len(), 1, 0, answer.as_mut_ptr(), 2) };
    assert_eq!(status, 0);
    answer[0]
}

fn plan(file: &[u8], out: &mut [u8]) -> usize {
    unsafe { rack_plan(file.as_ptr(), file.len(), out.as_mut_ptr(), out.len()) }
}

// Each processor has the stretch that it is in and the tick until which it stays; the next tick with a switch is the least.
mod plain {
    struct Stretch {
        server: u64,
        length: u64,
    }

    struct Processor {
        stretch: usize,
        until: u64,
    }

    fn put_hex(digits: &mut [u8], mut value: u64) {
        for digit in digits.iter_mut().rev() {
            *digit = b"0123456789ABCDEF"[(value % 16) as usize];
            value /= 16;
        }
    }

    fn put_line(out: &mut [u8], at: usize, tick: u64, processor: usize, server: u64) -> usize {
        let line = &mut out[at..at + 15];
        line[..2].copy_from_slice(b"21");
        put_hex(&mut line[2..10], tick);
        put_hex(&mut line[10..12], processor as u64);
        put_hex(&mut line[12..14], server);
        line[14] = b'\n';
        at + 15
    }

    // The ring's stretches, and how many processors walk through them.
    fn ring(slot: u64, reserves: &[u64]) -> (Vec<Stretch>, u64) {
        let on_ring = reserves.iter().enumerate().filter(|(_, r)| **r < slot);
        let mut stretches: Vec<Stretch> = on_ring.map(|(i, r)| Stretch { server: i as u64 + 1, length: *r }).collect();
        let ticks: u64 = stretches.iter().map(|s| s.length).sum();
        let processors = (ticks + slot - 1) / slot;
        if ticks < processors * slot {
            stretches.push(Stretch { server: 0, length: processors * slot - ticks });
        }
        (stretches, processors)
    }

    // A slot apart, in the order of the ring.
    fn starts(slot: u64, stretches: &[Stretch], count: u64) -> Vec<Processor> {
        let (mut stretch, mut end) = (0, stretches.first().map_or(0, |s| s.length));
        let start = |p: u64| {
            while end <= p * slot {
                stretch += 1;
                end += stretches[stretch].length;
            }
            Processor { stretch, until: end - p * slot }
        };
        (0..count).map(start).collect()
    }

    pub fn switches(slot: u64, reserves: &[u64], out: &mut [u8]) -> usize {
        let (stretches, count) = ring(slot, reserves);
        let mut processors = starts(slot, &stretches, count);
        let turn = count * slot;
        let (mut at, mut tick) = (0, turn);
        for (i, p) in processors.iter().enumerate() {
            at = put_line(out, at, 0, i + 1, stretches[p.stretch].server);
            tick = tick.min(p.until);
        }
        while tick < turn {
            let mut least = turn;
            for (i, p) in processors.iter_mut().enumerate() {
                if p.until == tick {
                    p.stretch = if p.stretch + 1 < stretches.len() { p.stretch + 1 } else { 0 };
                    p.until += stretches[p.stretch].length;
                    at = put_line(out, at, tick, i + 1, stretches[p.stretch].server);
                }
                least = least.min(p.until);
            }
            tick = least;
        }
        at
    }
}

// Tasks of period S that share no server: their costs are the reserves.
fn file(slot: u64, costs: &[u64]) -> Vec<u8> {
    let mut text = format!("0140{:06X}00000000000000000000\n", slot);
    for (i, c) in costs.iter().enumerate() {
        text += &format!("02{:02X}{:06X}{:06X}{:06X}\n", i, c, slot, slot);
    }
    text.into_bytes()
}

fn micros(mut run: impl FnMut()) -> f64 {
    let mut best = f64::MAX;
    for _ in 0..50 {
        let start = Instant::now();
        (0..20).for_each(|_| run());
        best = best.min(start.elapsed().as_secs_f64() * 1e6 / 20.0);
    }
    best
}

fn row(name: &str, slot: u64, costs: &[u64]) {
    let file = file(slot, costs);
    let (mut ours, mut theirs, mut text) = ([0u8; MOST], [0u8; MOST], [0u8; 2647]);
    let length = proved(&file, &mut ours);
    assert_eq!(length, plain::switches(slot, costs, &mut theirs));
    assert!(ours[..length] == theirs[..length], "the lists differ");
    let whole = micros(|| assert_eq!(proved(&file, &mut ours), length));
    let planned = micros(|| assert!(plan(&file, &mut text) > 0));
    let asked = micros(|| assert!(who(&file) > 0));
    let plain = micros(|| assert_eq!(plain::switches(slot, costs, &mut theirs), length));
    let list = whole - asked;
    let ring = ours[..length].chunks(15).filter(|line| line[2..10] == *b"00000000").count();
    println!(
        "{:<44} {:>4} {:>6} {:>9.1} {:>9.1} {:>9.1} {:>9.1} {:>9.1} {:>9.2}",
        name, ring, length / 15, whole, planned, asked, list, plain, list / plain
    );
}

fn main() {
    let mut random = Random(0x2545_F491_4F6C_DD1D);
    let mut about = |n: usize, low: u64, high: u64| -> Vec<u64> { (0..n).map(|_| random.within(low, high)).collect() };
    println!(
        "{:<44} {:>4} {:>6} {:>9} {:>9} {:>9} {:>9} {:>9} {:>9}",
        "servers", "r", "lines", "whole us", "plan us", "who us", "list us", "plain us", "to plain"
    );
    row("64 of S - 1, S 1,000,000", 1_000_000, &[999_999; 64]);
    row("64 of 985,000 to S - 1, S 1,000,000", 1_000_000, &about(64, 985_000, 999_999));
    row("64 of just over a half, S 1,000,000", 1_000_000, &about(64, 500_001, 515_000));
    row("64 of S - 1, S 1,000", 1_000, &[999; 64]);
    row("10 of 740 to 780, S 1,000", 1_000, &about(10, 740, 780));
    row("3 of 6, S 10", 10, &[6; 3]);
}
