// Task files for the tests: sets that mostly have a plan, and files damaged in a few places.
#![allow(dead_code)]

use crate::oracle::{lcm, Interrupt, Set, Task};
use crate::random::Random;

// A set that mostly has a plan: periods over a small horizon, a slot that divides it.
pub fn good(random: &mut Random) -> Set {
    let horizon = random.one(&[240, 360, 720, 2520]);
    let divisors: Vec<u64> = (2..=horizon).filter(|d| horizon % d == 0).collect();
    let periods: Vec<u64> = divisors.iter().copied().filter(|d| *d >= 10).collect();
    let s = random.one(&divisors[..divisors.len().min(8)]);
    let overhead = |random: &mut Random, most: u64| if random.next() % 3 == 0 { random.within(0, most) } else { 0 };
    let mut set = Set {
        m: random.within(1, 64),
        s,
        relj: overhead(random, 2),
        relo: overhead(random, 1),
        ctswo: overhead(random, 1),
        resd: overhead(random, 2),
        cpmdo: overhead(random, 1),
        ..Set::default()
    };
    let mut ids: Vec<u64> = (0..=255).collect();
    for _ in 0..random.within(1, 24) {
        let t = random.one(&periods);
        let d = random.within(s.min(t).max(1), t);
        let share = random.within(1, 8);
        let c = random.within(1, (d / share).max(1));
        let id = ids.swap_remove(random.within(0, ids.len() as u64 - 1) as usize);
        set.tasks.push(Task { id, c, d, t, cache: None });
    }
    set
}

// The same with a 05 line: mostly a few ticks, none among them, now and then many.
pub fn masked(random: &mut Random) -> Set {
    let mut set = good(random);
    set.masked = Some(match random.next() % 8 {
        0 => 0,
        1 => random.within(0, 200),
        2 => random.within(0, 65_535),
        _ => random.within(1, 12),
    });
    set
}

// Up to `most` interrupts with periods that divide the horizon: mostly light ones, on a few processors.
pub fn interrupts(random: &mut Random, set: &mut Set, most: u64) {
    let horizon = lcm(set.s, set.tasks.iter().map(|t| t.t)) as u64;
    let periods: Vec<u64> = (2..=horizon).filter(|d| horizon % d == 0).collect();
    for _ in 0..random.within(0, most) {
        let t = random.one(&periods);
        let d = random.within(t / 4 + 1, t);
        let (late, heavy) = (random.one(&[0, 0, d / 4, d - 1]), random.next() % 16 == 0);
        let j = random.within(0, late);
        let c = random.within(1, if heavy { d } else { (d / 16).max(1) });
        let p = if random.next() % 4 == 0 { random.within(1, set.m) } else { random.within(1, set.m.min(3)) };
        set.interrupts.push(Interrupt { p, c, d, t, j });
    }
}

// A set with up to 6 interrupts, with a 05 line or without.
pub fn interrupted(random: &mut Random) -> Set {
    let mut set = if random.next() % 3 == 0 { masked(random) } else { good(random) };
    interrupts(random, &mut set, 6);
    set
}

// A slot of another length over the same horizon: a long one leaves room for reserves whose entry losses differ.
pub fn other_slot(random: &mut Random, set: &mut Set) {
    let horizon = lcm(set.s, set.tasks.iter().map(|t| t.t)) as u64;
    let least = set.tasks.iter().map(|t| t.d).min().unwrap();
    let slots: Vec<u64> = (2..=least).filter(|s| horizon % s == 0).collect();
    if !slots.is_empty() {
        set.s = random.one(&slots);
    }
}

// 03 lines for none, some or all of a set's tasks, and a cost in the header for the others. A task has room for so much cost as
// makes its c its d: costs are none, a few ticks, a few with a large one among them, or about what some task has room for; now and
// then one is a tick too much. Where each task has its own, the header's may be any.
pub fn caches(random: &mut Random, set: &mut Set) {
    let overheads = set.relj + set.relo + 2 * set.ctswo;
    let rooms: Vec<u64> = set.tasks.iter().map(|t| t.d.saturating_sub(t.c + overheads)).collect();
    set.cpmdo = random.within(0, 6).min(*rooms.iter().min().unwrap());
    let (lines, costs, large) = (random.one(&[0, 1, 2, 3, 4, 4, 4, 4]), random.next() % 5, random.within(0, rooms.len() as u64 - 1) as usize);
    for i in 0..rooms.len() {
        let (few, any) = (random.within(0, 4).min(rooms[i]), random.one(&rooms));
        let cost = match costs {
            0 => random.one(&[0, 0, few]),
            1 if i == large => random.within(few, rooms[i]),
            2 => random.one(&[few, any.saturating_sub(1), any, any + 1]).min(rooms[i]),
            3 if random.next() % 4 == 0 => random.within(few, rooms[i]),
            _ => few,
        };
        set.tasks[i].cache = if random.next() % 4 < lines { Some(cost) } else { None };
    }
    if random.next() % 16 == 0 {
        set.tasks[large].cache = Some(rooms[large] + 1);
    }
    if set.tasks.iter().all(|t| t.cache.is_some()) {
        set.cpmdo = random.one(&[set.cpmdo, 0, 9, 300, 65_535]);
    }
}

// A set with 03 lines, with a 05 line or without, with interrupts or without.
pub fn cached(random: &mut Random) -> Set {
    let mut set = if random.next() % 4 == 0 { interrupted(random) } else { good(random) };
    if random.next() % 4 == 0 {
        set.masked = Some(random.within(0, 4));
    }
    if random.next() % 2 == 0 {
        set.tasks.iter_mut().for_each(|t| t.c = (t.c / 2).max(1));
    }
    other_slot(random, &mut set);
    caches(random, &mut set);
    set
}

// A set of few loads: many tasks have the same, in figures that differ, as 1/2 and 2/4, and servers fill up alike. Half of the sets
// have overheads, by which a short period weighs more than its load says; half of them costs by task, mostly of a few ticks.
pub fn even(random: &mut Random) -> Set {
    let s = random.one(&[4, 5, 10, 20]);
    let mut set = Set { m: random.one(&[64, 64, 64, 3]), s, ..Set::default() };
    let loads: Vec<u64> = (0..random.within(1, 4)).map(|_| random.within(1, 12)).collect();
    let late = random.next() % 2 == 0;
    for id in 0..random.within(2, 18) {
        let t = 20 * random.one(&[1, 1, 2, 3, 6]);
        let c = t / 20 * random.one(&loads);
        let d = if late && random.next() % 2 == 0 { random.within(s.max(c), t) } else { t };
        set.tasks.push(Task { id, c, d, t, cache: None });
    }
    if random.next() % 2 == 0 {
        set.relo = random.within(0, 2);
        set.cpmdo = random.within(0, 2);
    }
    match random.next() % 6 {
        0 => caches(random, &mut set),
        1 | 2 => set.tasks.iter_mut().for_each(|t| t.cache = random.one(&[0, 1, 1, 2, 3, 5]).checked_sub(1)),
        _ => (),
    }
    set
}

// A set of any kind with a 06 line of any rule, with a 05 line or without, with 03 lines or without, with interrupts or without.
pub fn packed(random: &mut Random) -> Set {
    let mut set = match random.next() % 8 {
        0 => good(random),
        1 => masked(random),
        2 => interrupted(random),
        3 => cached(random),
        4 => Set { masked: Some(random.within(0, 3)), ..even(random) },
        5 => {
            let mut set = even(random);
            interrupts(random, &mut set, 3);
            set
        }
        _ => even(random),
    };
    set.rule = Some(random.within(0, 8));
    set
}

// Where a file's lines start, and its end where a line ends there.
fn line_starts(file: &[u8]) -> Vec<usize> {
    (0..=file.len()).filter(|at| *at == 0 || file[*at - 1] == b'\n').collect()
}

// 05 lines put in at any of the first lines, some of them a digit short or long.
pub fn masked_anywhere(random: &mut Random, file: &mut Vec<u8>) {
    for _ in 0..random.within(1, 3) {
        let lines = line_starts(file);
        let at = lines[random.within(0, lines.len().min(6) as u64 - 1) as usize];
        let line = format!("05{:0width$X}\n", random.within(0, 255), width = [4, 4, 4, 4, 3, 5][random.within(0, 5) as usize]);
        file.splice(at..at, line.into_bytes());
    }
}

// 06 lines put in at any of the first lines, mostly where one may stand, some of them a digit short or long, in lower case, without
// their LF, or with a number that no rule has.
pub fn rules_anywhere(random: &mut Random, file: &mut Vec<u8>) {
    for _ in 0..random.within(1, 2) {
        let lines = line_starts(file);
        let most = random.one(&[2, 3, 6]).min(lines.len() as u64);
        let at = lines[random.within(most / 2, most - 1) as usize];
        let rule = if random.next() % 8 == 0 { random.one(&[9, 10, 0xFF]) } else { random.within(0, 8) };
        let width = if random.next() % 8 == 0 { random.one(&[1, 3]) as usize } else { 2 };
        let mut line = format!("06{:0width$X}\n", rule, width = width);
        match random.next() % 16 {
            0 => line = line.to_lowercase(),
            1 => drop(line.pop()),
            _ => (),
        }
        file.splice(at..at, line.into_bytes());
    }
}

// 03 lines put in at any line, some of them a digit short or long, in lower case, or with a figure out of its range; and lines that
// become 02 or 03 lines, with four digits more, four less, or as many.
pub fn caches_anywhere(random: &mut Random, file: &mut Vec<u8>) {
    for _ in 0..random.within(1, 3) {
        let lines = line_starts(file);
        let at = lines[random.within(0, lines.len() as u64 - 1) as usize];
        let end = file[at..].iter().position(|b| *b == b'\n').map_or(file.len(), |n| at + n);
        if random.next() % 4 == 0 && at + 6 < end {
            file[at + 1] = random.one(&[b'2' as u64, b'3' as u64]) as u8;
            match random.next() % 3 {
                0 => drop(file.splice(end..end, *b"0001")),
                1 => drop(file.drain(end - 4..end)),
                _ => (),
            }
            continue;
        }
        let id = random.within(0, 255);
        let (t, least) = (random.one(&[240, 720]), random.one(&[0, 1, 1, 1, 1, 1, 1, 1]));
        let most = random.one(&[t, t, t, t, t, 2 * t]);
        let d = random.within(t / 2, most);
        let c = random.within(least, d / 8 + 1);
        let width = if random.next() % 16 == 0 { random.one(&[3, 5]) as usize } else { 4 };
        let cost = random.one(&[0, 1, random.0 % 12, d - c, d - c + 1]);
        let mut line = format!("03{:02X}{:06X}{:06X}{:06X}{:0width$X}\n", id, c, d, t, cost, width = width);
        if random.next() % 16 == 0 {
            line = line.to_lowercase();
        }
        file.splice(at..at, line.into_bytes());
    }
}

// 07 lines put in at any line, some of them a digit short or long, or with a figure out of its range.
pub fn interrupts_anywhere(random: &mut Random, file: &mut Vec<u8>) {
    for _ in 0..random.within(1, 3) {
        let lines = line_starts(file);
        let last = lines.len() - 1;
        let at = lines[if random.next() % 2 == 0 { last } else { random.within(0, last as u64) as usize }];
        let p = if random.next() % 8 == 0 { random.within(0, 65) } else { 1 };
        let (t, least) = (random.one(&[240, 720]), random.one(&[0, 1, 1, 1, 1, 1, 1, 1]));
        let most = random.one(&[t, t, t, t, t, 2 * t]);
        let d = random.within(1, most);
        let c = random.within(least, d / 8 + 1);
        let width = if random.next() % 16 == 0 { random.one(&[3, 5]) as usize } else { 4 };
        let line = format!("07{:02X}{:06X}{:06X}{:06X}{:0width$X}\n", p, c, d, t, random.within(0, d / 4), width = width);
        file.splice(at..at, line.into_bytes());
    }
}

pub fn damaged(random: &mut Random, file: &mut Vec<u8>) {
    for _ in 0..random.within(1, 3) {
        if file.is_empty() {
            return;
        }
        let at = random.within(0, file.len() as u64 - 1) as usize;
        match random.next() % 6 {
            0 => file[at] = random.next() as u8,
            1 => file[at] = b"0123456789ABCDEFabcdef\n\r\0"[random.within(0, 24) as usize],
            2 => drop(file.remove(at)),
            3 => file.insert(at, b"0123456789ABCDEF\n"[random.within(0, 16) as usize]),
            4 => file.truncate(at),
            _ => {
                let line = file[at..].iter().position(|b| *b == b'\n').map_or(file.len(), |n| at + n + 1);
                let copy: Vec<u8> = file[at..line].to_vec();
                file.extend(copy);
            }
        }
    }
}
