// The same files, without 03, 06 and 07 lines, planned and asked about by this build and by another one, in one run, turn by turn.
mod bench_files;
mod random;

use bench_files::{file, full, halves, long, with_line};
use random::Random;
use std::time::Instant;

extern "C" {
    fn rack_plan(tasks: *const u8, tasks_len: usize, out: *mut u8, out_len: usize) -> usize;
    fn rack_pass(tasks: *const u8, tasks_len: usize, server: u64, reserve: u64, answer: *mut u64, answer_len: usize) -> u64;
    fn before_plan(tasks: *const u8, tasks_len: usize, out: *mut u8, out_len: usize) -> usize;
    fn before_pass(tasks: *const u8, tasks_len: usize, server: u64, reserve: u64, answer: *mut u64, answer_len: usize) -> u64;
}

type Plan = unsafe extern "C" fn(*const u8, usize, *mut u8, usize) -> usize;
type Pass = unsafe extern "C" fn(*const u8, usize, u64, u64, *mut u64, usize) -> u64;

fn text(plan: Plan, file: &[u8]) -> String {
    let mut out = vec![0u8; 2647];
    let n = unsafe { plan(file.as_ptr(), file.len(), out.as_mut_ptr(), out.len()) };
    out.truncate(n);
    String::from_utf8(out).unwrap()
}

fn answer(pass: Pass, file: &[u8], reserve: u64) -> (u64, [u64; 4]) {
    let mut answer = [0; 4];
    let status = unsafe { pass(file.as_ptr(), file.len(), 1, reserve, answer.as_mut_ptr(), 4) };
    (status, answer)
}

// The best time of each, in microseconds.
fn both(rounds: u32, mut before: impl FnMut(), mut now: impl FnMut()) -> (f64, f64) {
    let time = |run: &mut dyn FnMut()| {
        let start = Instant::now();
        run();
        start.elapsed().as_secs_f64() * 1e6
    };
    let mut best = (f64::MAX, f64::MAX);
    for _ in 0..rounds {
        best = (best.0.min(time(&mut before)), best.1.min(time(&mut now)));
    }
    best
}

fn row(name: &str, file: &[u8], rounds: u32) {
    let plan = text(rack_plan, file);
    assert_eq!(plan, text(before_plan, file));
    let reserve = u64::from_str_radix(&plan.lines().nth(1).unwrap()[4..10], 16).unwrap();
    assert_eq!(answer(rack_pass, file, reserve), answer(before_pass, file, reserve));
    let (before, now) = both(rounds, || assert!(text(before_plan, file).len() > 7), || assert!(text(rack_plan, file).len() > 7));
    let (asked, asks) = both(rounds, || assert_eq!(answer(before_pass, file, reserve).0, 0), || assert_eq!(answer(rack_pass, file, reserve).0, 0));
    println!("{:<48} {:>11.1} {:>11.1} {:>6.2} {:>11.1} {:>11.1} {:>6.2}", name, before, now, now / before, asked, asks, asks / asked);
}

fn main() {
    let mut random = Random(0x2545_F491_4F6C_DD1D);
    println!("{:<48} {:>11} {:>11} {:>6} {:>11} {:>11} {:>6}", "file", "before us", "now us", "ratio", "asked us", "now us", "ratio");
    for n in [1, 2, 4, 8, 16, 32, 64] {
        row(&format!("{} tasks, H 9,979,200", n), &file(&mut random, n, 9_979_200, 1440, 30), 300);
    }
    for (h, slot) in [(10_080, 14), (100_800, 144), (997_920, 144), (9_979_200, 1440)] {
        row(&format!("64 tasks, H {}", h), &file(&mut random, 64, h, slot, 30), 300);
    }
    row("64 tasks, H 9,979,200, B 100", &with_line(&file(&mut random, 64, 9_979_200, 1440, 30), 100), 300);
    row("64 tasks in one server, utilisation 1", full().as_bytes(), 300);
    row("64 tasks of just over a half", halves().as_bytes(), 300);
    row("64 tasks, short periods, a long horizon", long().as_bytes(), 3);
}
