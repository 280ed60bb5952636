// The entry points that take a set and a plan, called with sets and plans that are built here, held to the independent account.
// Each test prints its name and how many answers it compared; the last line counts the tests.
mod files;
mod oracle;
mod random;

use files::{cached, good, interrupted, masked, packed};
use oracle::{Interrupt, Plan, Refusal, Set, Task};
use random::Random;
use std::sync::atomic::{AtomicUsize, Ordering};

extern "C" {
    fn handed_plan(set: *const u64, set_len: usize, answer: *mut u64, answer_len: usize) -> u64;
    fn handed_makes(set: *const u64, set_len: usize, plan: *const u64, plan_len: usize) -> bool;
    fn handed_who(set: *const u64, set_len: usize, plan: *const u64, plan_len: usize, processor: u64, tick: u64, answer: *mut u64, answer_len: usize) -> u64;
    fn handed_pass(set: *const u64, set_len: usize, plan: *const u64, plan_len: usize, server: u64, reserve: u64, answer: *mut u64, answer_len: usize) -> u64;
    fn handed_write(set: *const u64, set_len: usize, out: *mut u8, out_len: usize, length: *mut usize) -> u64;
    fn handed_write_plan(set: *const u64, set_len: usize, plan: *const u64, plan_len: usize, out: *mut u8, out_len: usize, length: *mut usize) -> u64;
    fn handed_write_switches(set: *const u64, set_len: usize, plan: *const u64, plan_len: usize, out: *mut u8, out_len: usize, length: *mut usize) -> u64;
}

// where a set's tasks start among its numbers, where the number of its interrupts stands, how many these numbers are, and a plan's
const FIRST: usize = 12;
const INTERRUPTS: usize = FIRST + 6 * 64;
const SET: usize = INTERRUPTS + 1 + 5 * 32;
const PLAN: usize = 5 + 68 * 64 + 64 + 2 * 64;
const JUNK: u64 = 0xA5A5_A5A5_A5A5_A5A5;

static COMPARED: AtomicUsize = AtomicUsize::new(0);

fn same<T: PartialEq + std::fmt::Debug>(got: T, expected: T, what: &str) {
    COMPARED.fetch_add(1, Ordering::Relaxed);
    assert!(got == expected, "{}: got {:?}, expected {:?}", what, got, expected);
}

fn status(refusal: Refusal) -> u64 {
    refusal.0 as u64 * 256 + refusal.1 as u64
}

// A call that answers in lent numbers: its status, and what they then hold.
fn in_numbers(room: usize, call: impl Fn(*mut u64, usize) -> u64) -> (u64, Vec<u64>) {
    let mut answer = vec![JUNK; room];
    (call(answer.as_mut_ptr(), room), answer)
}

// What it should be: the numbers at the start and junk behind them, or the refusal and junk.
fn told(answer: Result<&[u64], Refusal>, room: usize) -> (u64, Vec<u64>) {
    let mut left = vec![JUNK; room];
    match answer {
        Ok(numbers) if numbers.len() <= room => {
            left[..numbers.len()].copy_from_slice(numbers);
            (0, left)
        }
        Ok(_) => (status((12, 0)), left),
        Err(refusal) => (status(refusal), left),
    }
}

// The same for a call that writes a text, whose length comes in a lent number; also in rooms that are one byte short, exact, and longer.
fn same_text(text: Result<&str, Refusal>, call: impl Fn(*mut u8, usize, *mut usize) -> u64, what: &str) {
    let exact = text.map_or(100, |text| text.len());
    for room in [0, exact.saturating_sub(1), exact, exact + 9] {
        let (mut out, mut length) = (vec![0xA5; room], 77);
        let got = call(out.as_mut_ptr(), room, &mut length);
        let mut left = vec![0xA5; room];
        let expected = match text {
            Ok(text) if text.len() <= room => {
                left[..text.len()].copy_from_slice(text.as_bytes());
                (0, text.len())
            }
            Ok(_) => (status((12, 0)), 77),
            Err(refusal) => (status(refusal), 77),
        };
        same((got, length), expected, what);
        same(out, left, what);
    }
}

// A set that is handed in, with what the independent account says of it.
struct Case {
    numbers: Vec<u64>,
    set: Result<Set, Refusal>,
    plan: Result<Plan, Refusal>,
    figures: Vec<Option<u64>>,
}

// The bits of the type that holds number i of a set.
fn bits(i: usize) -> u32 {
    match i {
        0 => 64,
        1 => 8,
        2 => 32,
        3..=7 | 9 | 11 => 16,
        8 | 10 | INTERRUPTS => 64,
        _ if i < INTERRUPTS => [8, 32, 32, 32, 64, 16][(i - FIRST) % 6],
        _ => [8, 32, 32, 32, 16][(i - INTERRUPTS - 1) % 5],
    }
}

// A number that is missing is 0, and of a number that is wider than its field's type the last bits count.
fn taken(numbers: &[u64]) -> Vec<u64> {
    (0..SET).map(|i| *numbers.get(i).unwrap_or(&0) & (u64::MAX >> (64 - bits(i)))).collect()
}

impl Case {
    fn of(numbers: Vec<u64>) -> Case {
        let set = oracle::handed(&taken(&numbers));
        let plan = set.clone().and_then(|set| oracle::plan(&set));
        let figures = plan.as_ref().map_or(vec![], |plan| oracle::numbers(set.as_ref().unwrap(), plan));
        Case { numbers, set, plan, figures }
    }

    // The plan's numbers, unused room at zero.
    fn made(&self) -> Vec<u64> {
        self.figures.iter().map(|n| n.unwrap_or(0)).collect()
    }

    fn makes(&self, plan: &[u64]) -> bool {
        let missing = std::iter::repeat(&0);
        self.plan.is_ok() && self.figures.iter().zip(plan.iter().chain(missing)).all(|(own, other)| own.map_or(true, |own| own == *other))
    }

    // The planner and the writer of sets.
    fn alone(&self) {
        let (p, n) = (self.numbers.as_ptr(), self.numbers.len());
        let made = self.made();
        for room in [0, PLAN - 1, PLAN, PLAN + 3] {
            let got = in_numbers(room, |answer, room| unsafe { handed_plan(p, n, answer, room) });
            same(got, told(self.plan.as_ref().map(|_| &made[..]).map_err(|r| *r), room), "the planner");
        }
        let text = self.set.as_ref().map_err(|r| *r).and_then(oracle::written);
        same_text(text.as_deref().map_err(|r| *r), |out, room, length| unsafe { handed_write(p, n, out, room, length) }, "the writer of sets");
    }

    fn checked(&self, plan: &[u64]) {
        let (numbers, n) = (self.numbers.as_ptr(), self.numbers.len());
        same(unsafe { handed_makes(numbers, n, plan.as_ptr(), plan.len()) }, self.makes(plan), "the check");
    }

    // The check, the questions and the writers of plans and of switch lists, with a plan that is handed in.
    fn with(&self, plan: &[u64], random: &mut Random) {
        let (sp, sn, pp, pn) = (self.numbers.as_ptr(), self.numbers.len(), plan.as_ptr(), plan.len());
        let own = if self.makes(plan) { Some((self.set.as_ref().unwrap(), self.plan.as_ref().unwrap())) } else { None };
        self.checked(plan);
        let most = own.map_or(3, |(_, plan)| (plan.r + plan.whole) as u64);
        for p in [0, 1, random.within(1, most), most, most + 1, u64::MAX] {
            let x = random.one(&[0, 1, random.0 % 5000, random.0, u64::MAX]);
            let answer = own.and_then(|(set, plan)| oracle::who(set, plan, p.min(1000) as usize, x)).map(|(server, left)| [server as u64, left]);
            for room in [1, 2, 3] {
                let got = in_numbers(room, |answer, room| unsafe { handed_who(sp, sn, pp, pn, p, x, answer, room) });
                same(got, told(answer.as_ref().map(|a| &a[..]).ok_or((11, 0)), room), "who runs");
            }
        }
        let (servers, s) = own.map_or((3, 10), |(set, plan)| (plan.reserves.len() as u64, set.s));
        for q in [0, 1, servers, servers + 1, u64::MAX] {
            let loss = own.and_then(|(_, plan)| plan.servers.get(q.wrapping_sub(1) as usize)).map_or(0, |server| server.loss);
            let r = random.one(&[0, loss, loss + 1, random.0 % s, s - 1, s, s + 1, u64::MAX]);
            let answer = own.and_then(|(_, plan)| plan.pass(q, r));
            for room in [3, 4, 6] {
                let got = in_numbers(room, |answer, room| unsafe { handed_pass(sp, sn, pp, pn, q, r, answer, room) });
                same(got, told(answer.as_ref().map(|a| &a[..]).ok_or((11, 0)), room), "does it pass");
            }
        }
        let text = own.map(|(set, plan)| oracle::text(set, plan)).ok_or((11, 0));
        same_text(text.as_deref().map_err(|r| *r), |out, room, length| unsafe { handed_write_plan(sp, sn, pp, pn, out, room, length) }, "the writer of plans");
        let list = own.map(|(set, plan)| oracle::switches(set, plan)).ok_or((11, 0));
        same_text(list.as_deref().map_err(|r| *r), |out, room, length| unsafe { handed_write_switches(sp, sn, pp, pn, out, room, length) }, "the writer of switch lists");
    }

    fn all(&self, random: &mut Random) {
        self.alone();
        self.with(&if self.plan.is_ok() { self.made() } else { vec![0; PLAN] }, random);
    }
}

// A set as numbers, its unused room at zero.
fn numbers_of(set: &Set) -> Vec<u64> {
    let mut numbers = vec![set.tasks.len() as u64, set.m, set.s, set.relj, set.relo, set.ctswo, set.resd, set.cpmdo];
    numbers.extend([set.masked.is_some() as u64, set.b(), set.rule.is_some() as u64, set.packing()]);
    set.tasks.iter().for_each(|t| numbers.extend([t.id, t.c, t.d, t.t, t.cache.is_some() as u64, t.cache.unwrap_or(0)]));
    numbers.resize(INTERRUPTS, 0);
    numbers.push(set.interrupts.len() as u64);
    set.interrupts.iter().for_each(|i| numbers.extend([i.p, i.c, i.d, i.t, i.j]));
    numbers.resize(SET, 0);
    numbers
}

// Numbers of every size, that fit a set's types.
fn junk(random: &mut Random, at: usize) -> u64 {
    let most = u64::MAX >> (64 - bits(at));
    random.one(&[1, most, random.0 & most, random.0 % 100])
}

// A set with a 05 line or without, with a 06 line or without, with 03 lines or without, with interrupts or without.
fn any(random: &mut Random) -> Set {
    match random.next() % 9 {
        0 => good(random),
        1 => masked(random),
        2 | 3 => cached(random),
        4 | 5 | 6 => packed(random),
        _ => interrupted(random),
    }
}

// A set with a plan, of at least so many tasks.
fn planned(random: &mut Random, tasks: usize) -> (Set, Case) {
    for _ in 0..1000 {
        let set = any(random);
        let case = Case::of(numbers_of(&set));
        if set.tasks.len() >= tasks && case.plan.is_ok() {
            return (set, case);
        }
    }
    panic!("no set with a plan was found");
}

// 64 tasks with a plan by best fit, half of them with a cache cost of their own.
fn full(random: &mut Random) -> Set {
    let caches = [None, Some(0), None, Some(2)];
    let tasks = (0..64).map(|i| Task { id: 255 - i * 3, c: random.within(1, 20), d: 100, t: 100, cache: caches[i as usize % 4] }).collect();
    Set { m: 64, s: 10, cpmdo: 1, rule: Some(3), tasks, ..Set::default() }
}

// The first of them, with 32 interrupts.
fn crowded(random: &mut Random, tasks: usize) -> Set {
    let mut set = full(random);
    set.tasks.truncate(tasks);
    set.interrupts = (0..32).map(|i| Interrupt { p: 1 + i % 8, c: random.within(1, 4), d: 60 + i, t: 100, j: random.within(0, 9) }).collect();
    set
}

fn examples() {
    let mut random = Random(21);
    for name in ["a", "b", "c", "d", "e", "f", "g", "h1", "h2", "i", "j", "k", "m", "n1", "n2", "o", "p1", "p2", "q", "r0", "r1", "r3", "r6", "s", "t1", "t2"] {
        let set = oracle::read(&std::fs::read(format!("examples/{}.tasks", name)).unwrap()).unwrap();
        Case::of(numbers_of(&set)).all(&mut random);
    }
}

fn good_sets() {
    let mut random = Random(22);
    let mut accepted = 0;
    for _ in 0..500 {
        let case = Case::of(numbers_of(&any(&mut random)));
        case.all(&mut random);
        accepted += case.plan.is_ok() as u32;
    }
    assert!(accepted > 150, "only {} sets had a plan", accepted);
}

fn counts() {
    let mut random = Random(23);
    let whole = numbers_of(&crowded(&mut random, 64));
    assert!(Case::of(whole.clone()).plan.is_ok());
    for (at, counts) in [(0, 1..=64), (INTERRUPTS, 0..=32)] {
        for count in [0, 1, 2, 31, 32, 33, 34, 63, 64, 65, 66, 128, 255, 256, 65_536, 1 << 32, u64::MAX] {
            let mut numbers = whole.clone();
            numbers[at] = count;
            let case = Case::of(numbers);
            assert_eq!(case.set.is_ok(), counts.contains(&count));
            case.all(&mut random);
            case.with(&Case::of(whole.clone()).made(), &mut random);
        }
    }
}

// At every place of a set of 64 tasks, of one of 3, and of one of 3 with 32 interrupts: the most that the field can hold, one more,
// and the most that the type can.
fn too_large() {
    let mut random = Random(24);
    let three = planned(&mut random, 3).0;
    let mut refused = 0;
    for set in [full(&mut random), Set { tasks: three.tasks[..3].to_vec(), ..three }, crowded(&mut random, 3)] {
        let whole = numbers_of(&set);
        for at in 1..SET {
            for value in [0xFF, 0xFFFF, 0xFF_FFFF, 0x100_0000, 0xFFFF_FFFF] {
                // 65,535 as a period among 32 interrupts: a horizon that is long to walk.
                if value == 0xFFFF && set.interrupts.len() == 32 && whole[at] == 100 {
                    continue;
                }
                let mut numbers = whole.clone();
                numbers[at] = value;
                numbers[at] = taken(&numbers)[at];
                let case = Case::of(numbers);
                refused += case.set.is_err() as u32;
                case.alone();
            }
        }
    }
    assert!(refused > 500, "only {} sets had a figure too large", refused);
}

fn repeated_ids() {
    let mut random = Random(25);
    let whole = numbers_of(&full(&mut random));
    for count in [1, 7, 64] {
        for i in 0..64 {
            for j in 0..i {
                let mut numbers = whole.clone();
                numbers[0] = count as u64;
                numbers[FIRST + 6 * i] = numbers[FIRST + 6 * j];
                let case = Case::of(numbers);
                assert_eq!(case.set.is_err(), i < count);
                if i < 8 || j == 0 || i == j + 1 || random.next() % 16 == 0 {
                    case.alone();
                }
            }
        }
    }
}

// Rows 5 to 10 and 13, and row 11 of a set, broken alone and together, at any task or interrupt.
fn broken_rows() {
    let mut random = Random(26);
    let mut seen = [0u32; 14];
    for round in 0..4 {
        for which in 0..512u32 {
            let (mut set, _) = planned(&mut random, 5);
            let breaks = |row: u32| which >> (row - 5) & 1 == 1;
            let mut task = || random.next() as usize % 5;
            if which >= 128 {
                set.interrupts.resize(4, Interrupt { p: 1, c: 1, d: set.s, t: set.s, j: 0 });
            }
            if breaks(12) {
                let i = &mut set.interrupts[task() % 4];
                match round {
                    0 => i.p = set.m + 1,
                    1 => i.c = i.d + 1,
                    2 => i.j = i.d,
                    _ => i.t = 1_000_001,
                }
            }
            if breaks(13) {
                set.interrupts[task() % 4].c = set.s / 2 + 1;
                let t = &mut set.tasks[task()];
                t.c = t.d;
            }
            if breaks(6) {
                let t = &mut set.tasks[task()];
                match round {
                    0 => t.c = 0,
                    1 => t.c = t.d + 1,
                    2 => t.d = t.t + 1,
                    _ => t.t = 1_000_001,
                }
            }
            if breaks(7) {
                let t = &mut set.tasks[task()];
                (t.c, t.d) = (1, set.s - 1);
            }
            if breaks(8) {
                match round {
                    0 | 2 => set.relj = 65_535,
                    1 => set.relo = 65_535,
                    _ => set.tasks[task()].cache = Some(65_535),
                }
            }
            if breaks(9) {
                let t = &mut set.tasks[task()];
                t.t = 999_983;
            }
            if breaks(10) {
                // Three tasks that each fill all time up to their deadline.
                set.m = 1;
                let (overheads, cpmdo) = (set.relj + set.relo + 2 * set.ctswo, set.cpmdo);
                set.tasks.iter_mut().take(3).for_each(|t| t.c = t.d.saturating_sub(overheads + t.cache.unwrap_or(cpmdo)).max(1));
            }
            if breaks(5) {
                match round {
                    0 => set.m = if breaks(6) { 0 } else { 65 },
                    1 => set.rule = Some(if breaks(6) { 9 } else { 255 }),
                    2 => set.s = 0,
                    _ => (set.m, set.s) = (255, 0),
                }
            }
            if breaks(11) {
                match round {
                    0 => set.tasks[task()].t = 0x100_0000,
                    1 if which >= 128 => set.interrupts[task() % 4].d = 0x100_0000,
                    1 => set.s = 0x100_0000,
                    2 => set.tasks[4].id = set.tasks[0].id,
                    _ if breaks(7) => set.rule = Some(256),
                    _ => set.tasks.clear(),
                }
            }
            let case = Case::of(numbers_of(&set));
            seen[case.plan.as_ref().map_or_else(|r| r.0 as usize, |_| 0)] += 1;
            case.all(&mut random);
        }
    }
    for row in [0, 5, 6, 7, 8, 9, 10, 11, 13] {
        assert!(seen[row] > 0, "no set met row {}: {:?}", row, seen);
    }
}

// Junk in unused room changes no answer and shows in none; nor does it matter where that room is left out.
fn unused_room() {
    let mut random = Random(27);
    for _ in 0..300 {
        let (set, clean) = planned(&mut random, 1);
        let mut numbers = clean.numbers.clone();
        let used = INTERRUPTS + 1 + 5 * set.interrupts.len();
        for at in (FIRST + 6 * set.tasks.len()..INTERRUPTS).chain(used..SET) {
            numbers[at] = junk(&mut random, at);
        }
        if set.rule.is_none() {
            numbers[11] = junk(&mut random, 11);
        }
        let case = Case::of(numbers);
        assert_eq!(case.figures, clean.figures);
        case.all(&mut random);
        let plan: Vec<u64> = case.figures.iter().map(|n| n.unwrap_or(random.next())).collect();
        case.with(&plan, &mut random);
        clean.with(&plan, &mut random);
        let left_out = if set.interrupts.is_empty() { FIRST + 6 * set.tasks.len() } else { used };
        Case::of(clean.numbers[..left_out].to_vec()).all(&mut random);
    }
}

// Each figure of a plan, altered in turn: a used one is refused, unused room is not.
fn altered_plans() {
    let mut random = Random(28);
    let (small, many) = (planned(&mut random, 8).1, Case::of(numbers_of(&full(&mut random))));
    let a = Case::of(numbers_of(&oracle::read(&std::fs::read("examples/a.tasks").unwrap()).unwrap()));
    for case in [a, small, many] {
        let made = case.made();
        for at in 0..PLAN {
            let place = (5..5 + 68 * 64).contains(&at) && (1..65).contains(&((at - 5) % 68));
            let wide = if place { 0xFF } else { u64::MAX };
            for value in [made[at] + 1, made[at].wrapping_sub(1) & wide, random.next() & wide, 0, wide] {
                if value == made[at] {
                    continue;
                }
                let mut plan = made.clone();
                plan[at] = value;
                assert_eq!(case.makes(&plan), case.figures[at].is_none());
                if case.figures[at].is_some() || (value == made[at] + 1 && at % 7 == 0) {
                    case.with(&plan, &mut random);
                } else {
                    case.checked(&plan);
                }
            }
        }
    }
}

// The plan of another set, of the same set with one figure changed, and of tasks in another order.
fn other_plans() {
    let mut random = Random(29);
    let (mut kept, mut refused) = (0, 0);
    let mut last = planned(&mut random, 2).1;
    for _ in 0..200 {
        let (mut set, case) = planned(&mut random, 2);
        case.with(&last.made(), &mut random);
        match random.next() % 11 {
            0 => set.m = random.within(1, 64),
            1 => set.tasks[1].c += 1,
            2 => set.cpmdo += 1,
            3 => set.masked = Some(set.b() + random.within(0, 2)),
            4 => set.interrupts.reverse(),
            5 => set.interrupts.truncate(1),
            6 => set.tasks[1].cache = Some(set.cache(&set.tasks[1])),
            7 => set.tasks[1].cache = [None, Some(0), Some(set.cpmdo + 1)][random.next() as usize % 3],
            8 => set.rule = if set.packing() == 0 { set.rule.map_or(Some(0), |_| None) } else { Some(0) },
            9 => set.rule = Some(random.within(0, 9)),
            _ => set.tasks.reverse(),
        }
        let other = Case::of(numbers_of(&set));
        other.with(&case.made(), &mut random);
        if other.makes(&case.made()) {
            kept += 1;
        } else {
            refused += 1;
        }
        last = case;
    }
    assert!(kept > 10 && refused > 10, "{} plans kept, {} refused", kept, refused);
}

// Every number of a rule of interest behind every mark of a 06 line. Without the mark the number does not count; 9 to 255 is a line
// that no plan comes from, and what is above fits no line.
fn rules() {
    let mut random = Random(31);
    let mut unlike = 0;
    for i in 0..6 {
        let set = if i == 0 { full(&mut random) } else { planned(&mut random, 6).0 };
        let none = Case::of(numbers_of(&Set { rule: None, ..set.clone() }));
        for (mark, rule) in [0, 1, 2, u64::MAX].iter().flat_map(|mark| {
            let rules = (0..=10).chain([15, 16, 127, 128, 254, 255, 256, 257, 264, 4096, 65_535, 65_536, 65_540, u64::MAX]);
            rules.map(move |rule| (*mark, rule))
        }) {
            let mut numbers = none.numbers.clone();
            (numbers[10], numbers[11]) = (mark, rule);
            let case = Case::of(numbers);
            match rule & 0xFFFF {
                _ if mark == 0 => assert_eq!((&case.set, &case.figures), (&none.set, &none.figures)),
                0 => assert_eq!(case.figures, none.figures),
                1..=8 => unlike += (case.figures != none.figures) as u32,
                9..=255 => assert_eq!(case.plan.as_ref().err(), Some(&(5, 0))),
                _ => assert_eq!(case.set.as_ref().err(), Some(&(11, 0))),
            }
            if mark < 2 || rule % 4 == 0 {
                case.all(&mut random);
                case.with(&none.made(), &mut random);
            }
        }
    }
    assert!(unlike > 40, "only {} plans were others than without a 06 line", unlike);
}

// Texts with 06 lines, read and written again: they keep their bytes, and rule 00 with its line is another text than without.
fn texts() {
    let mut random = Random(32);
    for _ in 0..200 {
        let set = packed(&mut random);
        for rule in [None, Some(0), Some(8), set.rule] {
            let text = oracle::file(&Set { rule, ..set.clone() });
            let read = oracle::read(text.as_bytes()).unwrap();
            assert_eq!(read.rule, rule);
            let (case, numbers) = (Case::of(numbers_of(&read)), numbers_of(&read));
            let (p, n) = (numbers.as_ptr(), numbers.len());
            same_text(Ok(&text), |out, room, length| unsafe { handed_write(p, n, out, room, length) }, "a text written again");
            case.alone();
        }
    }
}

// Slices that end early, and numbers wider than their field's type.
fn short_and_wide() {
    let mut random = Random(30);
    let (_, case) = planned(&mut random, 4);
    for length in (0..60).chain(INTERRUPTS - 2..SET) {
        Case::of(case.numbers[..length].to_vec()).all(&mut random);
    }
    let made = case.made();
    for length in (0..200).chain(PLAN - 200..PLAN) {
        case.checked(&made[..length]);
    }
    for at in (1..SET).filter(|at| bits(*at) < 64) {
        for high in [1, random.next(), u64::MAX] {
            let mut numbers = case.numbers.clone();
            numbers[at] += high << bits(at);
            let wide = Case::of(numbers);
            assert_eq!(wide.figures, case.figures);
            wide.alone();
        }
    }
}

fn main() {
    let tests: [(&str, fn()); 12] = [
        ("examples handed in", examples),
        ("good sets", good_sets),
        ("counts of tasks and interrupts", counts),
        ("figures too large for their field", too_large),
        ("repeated ids", repeated_ids),
        ("rows 5 to 11 and 13 broken", broken_rows),
        ("unused room", unused_room),
        ("altered plans", altered_plans),
        ("plans of other sets", other_plans),
        ("rules", rules),
        ("texts with a 06 line", texts),
        ("short slices and wide numbers", short_and_wide),
    ];
    let mut failed = 0;
    for (name, test) in tests.iter() {
        let before = COMPARED.load(Ordering::Relaxed);
        let ok = std::panic::catch_unwind(test).is_ok();
        failed += !ok as u32;
        println!("{}: {}, {} answers compared", name, if ok { "ok" } else { "FAILED" }, COMPARED.load(Ordering::Relaxed) - before);
    }
    println!("{} passed, {} failed", tests.len() as u32 - failed, failed);
    std::process::exit((failed > 0) as i32);
}
