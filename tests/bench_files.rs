// What the benchmarks of planning share: task files, and the time that a call takes.
#![allow(dead_code)]

use crate::random::Random;
use std::time::Instant;

// n tasks with periods from the divisors of h, the report's overheads, and a share of a processor from 1 to `most` hundredths.
pub fn file(random: &mut Random, n: u64, h: u64, slot: u64, most: u64) -> Vec<u8> {
    let overheads = if h >= 1_000_000 { [20, 10, 40, 40, 100] } else { [0, 0, 0, 0, 0] };
    let periods: Vec<u64> = (slot.max(400)..=h.min(1_000_000)).filter(|d| h % d == 0).collect();
    let mut text = format!("0140{:06X}", slot);
    for o in overheads {
        text += &format!("{:04X}", o);
    }
    text += "\n";
    for i in 0..n {
        let t = random.one(&periods);
        let d = random.within((t / 2).max(slot), t);
        let c = (t * random.within(1, most) / 100).max(1).min(d - d / 4);
        let c = c.min(d.saturating_sub(230)).max(1);
        text += &format!("02{:02X}{:06X}{:06X}{:06X}\n", i, c, d, t);
    }
    text.into_bytes()
}

// 64 tasks that fill servers to exactly 1: the descent meets every step near the horizon.
pub fn full() -> String {
    let mut text = String::from("01400005A000000000000000000000\n");
    for i in 0..64u64 {
        let t = 64 * [45, 63, 75, 105, 135, 165, 225, 315][i as usize % 8];
        text += &format!("02{:02X}{:06X}{:06X}{:06X}\n", i, t / 64, t, t);
    }
    text
}

// The worst that we know: one server of utilisation just under 1 from short periods, and a horizon of 9,990,000.
pub fn long() -> String {
    let mut text = String::from("014000000A00000000000000000000\n");
    for i in 0..64u64 {
        let t = [10, 100, 1_000, 10_000, 99_900, 999_000, 999_000, 999_000][i as usize / 9];
        text += &format!("02{:02X}{:06X}{:06X}{:06X}\n", i, 1, t, t);
    }
    text
}

// A file with a 05 line behind its header.
pub fn with_line(file: &[u8], b: u64) -> Vec<u8> {
    [&file[..31], format!("05{:04X}\n", b).as_bytes(), &file[31..]].concat()
}

// A file without a 05 line, with a 06 line behind its header.
pub fn with_rule(file: &[u8], rule: u64) -> Vec<u8> {
    [&file[..31], format!("06{:02X}\n", rule).as_bytes(), &file[31..]].concat()
}

// n tasks with implicit deadlines and loads from a few thousandths to twice `mean` hundredths of a processor, and what they sum to.
pub fn shared(random: &mut Random, n: u64, mean: u64) -> (Vec<u8>, f64) {
    let periods: Vec<u64> = (14_400..=1_000_000).filter(|d| 9_979_200 % d == 0).collect();
    let mut text = String::from("01400005A00014000A002800280064\n");
    let mut sum = 0.0;
    for i in 0..n {
        let t = random.one(&periods);
        let c = t * random.within(mean / 2, 20 * mean - mean / 2) / 1000;
        sum += c as f64 / t as f64;
        text += &format!("02{:02X}{:06X}{:06X}{:06X}\n", i, c, t, t);
    }
    (text.into_bytes(), sum)
}

// A good file without 07 lines, its 02 lines as 03 lines, with the costs that are given.
pub fn with_costs(file: &[u8], mut cost: impl FnMut() -> u64) -> Vec<u8> {
    let text = std::str::from_utf8(file).unwrap();
    let line = |line: &str| match line.strip_prefix("02") {
        Some(figures) => format!("03{}{:04X}\n", figures, cost()),
        None => format!("{}\n", line),
    };
    text.lines().map(line).collect::<String>().into_bytes()
}

// Many servers that each nearly take the next task: every task is tried against every server.
pub fn halves() -> String {
    let mut text = String::from("01400005A000000000000000000000\n");
    for i in 0..64u64 {
        let t = [14400, 15840, 20160, 25200, 27720, 30240, 33264, 43200][i as usize % 8];
        text += &format!("02{:02X}{:06X}{:06X}{:06X}\n", i, t / 2 + 1, t, t);
    }
    text
}

pub fn micros(times: u32, mut run: impl FnMut()) -> f64 {
    let mut best = f64::MAX;
    for _ in 0..5 {
        let start = Instant::now();
        for _ in 0..times {
            run();
        }
        best = best.min(start.elapsed().as_secs_f64() * 1e6 / times as f64);
    }
    best
}
