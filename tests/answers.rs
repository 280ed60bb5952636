// What an archive of the tool answers to some 74,000 task files, with 03, 05 and 07 lines and without, none with a 06 line: one line a
// file, a fingerprint of its plan's bytes and of what the questions say. Two builds that answer alike print alike; tests/same
// compares them.
mod files;
#[allow(dead_code)]
mod oracle;
mod random;

use files::{cached, caches_anywhere, damaged, good, interrupted, interrupts_anywhere, masked, masked_anywhere};
use oracle::{Set, Task};
use random::Random;

extern "C" {
    fn rack_plan(tasks: *const u8, tasks_len: usize, out: *mut u8, out_len: usize) -> usize;
    fn rack_who(tasks: *const u8, tasks_len: usize, processor: u64, tick: u64, answer: *mut u64, answer_len: usize) -> u64;
    fn rack_pass(tasks: *const u8, tasks_len: usize, server: u64, reserve: u64, answer: *mut u64, answer_len: usize) -> u64;
}

struct Print(u64);

impl Print {
    fn byte(&mut self, b: u8) {
        self.0 = (self.0 ^ b as u64).wrapping_mul(0x100_0000_01b3);
    }

    fn number(&mut self, n: u64) {
        n.to_le_bytes().iter().for_each(|b| self.byte(*b));
    }
}

fn tell(file: &[u8], random: &mut Random) {
    let ruled = |line: &[u8]| line.len() == 4 && line.starts_with(b"06");
    if file.split(|b| *b == b'\n').any(ruled) {
        return;
    }
    let mut print = Print(0xcbf2_9ce4_8422_2325);
    let mut out = vec![0xA5; 3000];
    let n = unsafe { rack_plan(file.as_ptr(), file.len(), out.as_mut_ptr(), out.len()) };
    print.number(n as u64);
    out.iter().for_each(|b| print.byte(*b));
    for _ in 0..8 {
        let (processor, tick) = (random.within(0, 8), random.next());
        let mut answer = [0xA5; 2];
        print.number(unsafe { rack_who(file.as_ptr(), file.len(), processor, tick, answer.as_mut_ptr(), 2) });
        answer.iter().for_each(|a| print.number(*a));
        let (server, reserve) = (random.within(0, 6), random.within(0, 12));
        let mut answer = [0xA5; 4];
        print.number(unsafe { rack_pass(file.as_ptr(), file.len(), server, reserve, answer.as_mut_ptr(), 4) });
        answer.iter().for_each(|a| print.number(*a));
    }
    println!("{:016x} {}", print.0, String::from_utf8_lossy(&out[..n.min(6)]).trim_end());
}

// Any number of tasks, with figures of any size that a line can carry, mostly within the ranges.
fn wild(random: &mut Random) -> Set {
    let any = |random: &mut Random, most: u64| match random.next() % 12 {
        0 => 0,
        1 => most,
        _ => random.within(1, most),
    };
    let mut set = Set {
        m: random.one(&[0, 1, 2, 4, 16, 63, 64, 65, 255]),
        s: random.one(&[0, 1, 2, 3, 4, 5, 8, 10, 20, 100, 128, 1000]),
        relj: random.one(&[0, 0, 0, 1, 9, 65535]),
        relo: random.one(&[0, 0, 0, 1, 9, 65535]),
        ctswo: random.one(&[0, 0, 0, 1, 9]),
        resd: random.one(&[0, 0, 0, 1, 9, 65535]),
        cpmdo: random.one(&[0, 0, 0, 1, 9]),
        ..Set::default()
    };
    for i in 0..random.one(&[0, 1, 2, 3, 8, 24, 63, 64, 65, 70]) {
        let t = random.one(&[10, 20, 100, 1000, 10_000, 78_125, 100_000, 1_000_000, 1_000_001]);
        let d = if random.next() % 8 == 0 { any(random, 0xFF_FFFF) } else { random.within(t / 2, t) };
        let c = if random.next() % 8 == 0 { any(random, 0xFF_FFFF) } else { random.within(1, t / 10) };
        let id = if random.next() % 64 == 0 { random.within(0, 255) } else { i };
        set.tasks.push(Task { id, c, d, t, cache: None });
    }
    set
}

fn main() {
    let mut random = Random(11);
    (0..4000).for_each(|_| tell(oracle::file(&good(&mut random)).as_bytes(), &mut random));
    let mut random = Random(12);
    for _ in 0..30000 {
        let mut file = oracle::file(&good(&mut random)).into_bytes();
        damaged(&mut random, &mut file);
        tell(&file, &mut random);
    }
    let mut random = Random(31);
    (0..4000).for_each(|_| tell(oracle::file(&masked(&mut random)).as_bytes(), &mut random));
    let mut random = Random(32);
    for i in 0..10000 {
        let mut file = oracle::file(&masked(&mut random)).into_bytes();
        masked_anywhere(&mut random, &mut file);
        if i % 3 == 0 {
            damaged(&mut random, &mut file);
        }
        tell(&file, &mut random);
    }
    let mut random = Random(33);
    for i in 0..8000 {
        let (one, anywhere): (Set, fn(&mut Random, &mut Vec<u8>)) = match i % 2 {
            0 => (cached(&mut random), caches_anywhere),
            _ => (interrupted(&mut random), interrupts_anywhere),
        };
        let mut file = oracle::file(&one).into_bytes();
        tell(&file, &mut random);
        anywhere(&mut random, &mut file);
        tell(&file, &mut random);
    }
    let mut random = Random(17);
    for i in 0..10000 {
        let mut file = oracle::file(&wild(&mut random)).into_bytes();
        if i % 4 == 0 {
            damaged(&mut random, &mut file);
        }
        tell(&file, &mut random);
    }
}
