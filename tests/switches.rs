// The switch list, through the C interface, held to the independent account: on the files that the other tests have, good and
// damaged, and on plans whose reserves are chosen. Every call is held to all that it leaves: its answer, the lent bytes, the
// lent number, and what lies past them. Each test prints its name; the last line counts them.
mod counted;
mod files;
mod oracle;
mod random;

use files::{cached, caches_anywhere, damaged, good, interrupted, packed, rules_anywhere};
use oracle::{Plan, Refusal, Set, Task};
use random::Random;
use std::collections::BTreeMap;
use std::ptr::{null, null_mut};

extern "C" {
    fn rack_who(tasks: *const u8, tasks_len: usize, processor: u64, tick: u64, answer: *mut u64, answer_len: usize) -> u64;
    fn rack_switches(tasks: *const u8, tasks_len: usize, out: *mut u8, out_len: usize, answer: *mut u64, answer_len: usize) -> u64;
}

// RACK_SWITCHES_BYTES of include/rack.h.
const MOST: usize = 63345;

// Bytes and numbers that are there but not lent.
const PAST: usize = 16;

// What a call leaves.
#[derive(PartialEq)]
struct Left {
    status: u64,
    out: Vec<u8>,
    answer: Vec<u64>,
}

impl Left {
    fn untouched(status: u64, room: usize, numbers: usize) -> Left {
        Left { status, out: vec![0xA5; room + PAST], answer: vec![0xA5; numbers + PAST] }
    }
}

fn call(file: &[u8], room: usize, numbers: usize) -> Left {
    let mut left = Left::untouched(0, room, numbers);
    let (out, answer) = (left.out.as_mut_ptr(), left.answer.as_mut_ptr());
    left.status = unsafe { rack_switches(file.as_ptr(), file.len(), out, room, answer, numbers) };
    left
}

// What a call should leave where the list, or the refusal, is this.
fn due(list: &Result<String, Refusal>, room: usize, numbers: usize) -> Left {
    match list {
        Err((number, place)) => Left::untouched(*number as u64 * 256 + *place as u64, room, numbers),
        Ok(text) if room < text.len() || numbers == 0 => Left::untouched(12 * 256, room, numbers),
        Ok(text) => {
            let mut left = Left::untouched(0, room, numbers);
            left.out[..text.len()].copy_from_slice(text.as_bytes());
            left.answer[0] = text.len() as u64;
            left
        }
    }
}

fn same_left(file: &[u8], list: &Result<String, Refusal>, room: usize, numbers: usize) {
    let (got, wanted) = (call(file, room, numbers), due(list, room, numbers));
    if got == wanted {
        return;
    }
    println!("for the file\n{}and room for {} bytes and {} numbers", String::from_utf8_lossy(file), room, numbers);
    for (whose, left) in [("got", &got), ("expected", &wanted)] {
        let shown = |b: &u8| if *b == b'\n' || b.is_ascii_graphic() { *b as char } else { '?' };
        let text: String = left.out.iter().take(600).map(shown).collect();
        println!("{}: status {}, {:?}\n{}", whose, left.status, &left.answer[..=numbers], text);
    }
    panic!("another answer, or other bytes");
}

// A buffer of the exact size, one byte longer, one byte shorter, and no number lent.
fn same_lefts(file: &[u8], list: &Result<String, Refusal>) {
    let length = list.as_ref().map_or(0, |text| text.len());
    for (room, numbers) in [(length, 1), (length + 1, 2), (length.saturating_sub(1), 1), (length, 0)] {
        same_left(file, list, room, numbers);
    }
}

fn same_list(file: &[u8]) -> Result<String, Refusal> {
    let list = oracle::switch_list(file);
    same_lefts(file, &list);
    list
}

fn examples() {
    for name in ["a", "b", "c", "d", "e", "f", "g", "h1", "h2", "i", "j", "k", "m", "n1", "n2", "o", "p1", "p2", "q", "r0", "r1", "r3", "r6", "s", "t1", "t2"] {
        same_list(&std::fs::read(format!("examples/{}.tasks", name)).unwrap()).ok();
    }
    let list = |name: &str| oracle::switch_list(&std::fs::read(format!("examples/{}.tasks", name)).unwrap());
    assert_eq!(list("a").unwrap(), std::fs::read_to_string("examples/a.switches").unwrap());
    assert_eq!(list("b").unwrap_err(), (10, 2));
    assert_eq!(list("c").unwrap(), "");
}

fn good_files() {
    let mut random = Random(11);
    let lists = (0..4000).filter(|_| same_list(oracle::file(&good(&mut random)).as_bytes()).is_ok()).count();
    assert!(lists > 1000, "only {} files had a list", lists);
}

fn interrupt_files() {
    let mut random = Random(25);
    let mut seen = [0u32; 14];
    for _ in 0..2000 {
        let list = same_list(oracle::file(&interrupted(&mut random)).as_bytes());
        seen[list.map_or_else(|refusal| refusal.0 as usize, |_| 0)] += 1;
    }
    assert!(seen[0] > 400 && seen[13] > 50, "refusals: {:?}", seen);
}

// 03 lines, every third time in lines that are put in anywhere and damaged.
fn cached_files() {
    let mut random = Random(26);
    let mut seen = [0u32; 14];
    for i in 0..3000 {
        let mut file = oracle::file(&cached(&mut random)).into_bytes();
        if i % 3 == 0 {
            caches_anywhere(&mut random, &mut file);
            damaged(&mut random, &mut file);
        }
        seen[same_list(&file).map_or_else(|refusal| refusal.0 as usize, |_| 0)] += 1;
    }
    assert!(seen[0] > 700 && seen[1] > 200 && seen[8] > 50, "refusals: {:?}", seen);
}

// 06 lines of every rule, every third time put in anywhere and damaged.
fn ruled_files() {
    let mut random = Random(27);
    let mut seen = [0u32; 14];
    for i in 0..2000 {
        let mut file = oracle::file(&packed(&mut random)).into_bytes();
        if i % 3 == 0 {
            rules_anywhere(&mut random, &mut file);
            damaged(&mut random, &mut file);
        }
        seen[same_list(&file).map_or_else(|refusal| refusal.0 as usize, |_| 0)] += 1;
    }
    assert!(seen[0] > 500 && seen[1] > 100 && seen[2] > 100, "refusals: {:?}", seen);
}

fn damaged_files() {
    let mut random = Random(12);
    let mut seen = [0u32; 14];
    for _ in 0..30000 {
        let mut file = oracle::file(&good(&mut random)).into_bytes();
        damaged(&mut random, &mut file);
        if let Err((number, _)) = same_list(&file) {
            seen[number as usize] += 1;
        }
    }
    for number in [1, 2, 4, 6, 7, 8, 10] {
        assert!(seen[number] > 0, "no file met refusal {}: {:?}", number, seen);
    }
}

// From no task to more than a set holds; then the slot, a horizon, an empty file.
fn refused_files() {
    let set = |s: u64, t: u64, count: u64| {
        let tasks = (0..count).map(|i| Task { id: i % 256, c: 1, d: t, t, cache: None }).collect();
        oracle::file(&Set { m: 64, s, tasks, ..Set::default() }).into_bytes()
    };
    let refusal = |file: &[u8]| same_list(file).err();
    for (count, expected) in [(0, Some((3, 2))), (1, None), (63, None), (64, None), (65, Some((3, 66))), (100, Some((3, 66)))] {
        assert_eq!(refusal(&set(10, 100, count)), expected);
    }
    assert_eq!(refusal(&set(0, 100, 1)), Some((5, 0)));
    assert_eq!(refusal(&set(11, 1_000_000, 1)), Some((9, 0)));
    assert_eq!(refusal(b""), Some((2, 1)));
}

// Every buffer of A up to one byte more than the list, by 0 to 2 numbers; where nothing is lent a pointer may be null.
fn buffers() {
    let file = std::fs::read("examples/a.tasks").unwrap();
    let list = oracle::switch_list(&file);
    for room in 0..=list.as_ref().unwrap().len() + 1 {
        (0..3).for_each(|numbers| same_left(&file, &list, room, numbers));
    }
    let nothing = |file: &[u8]| unsafe { rack_switches(file.as_ptr(), file.len(), null_mut(), 0, null_mut(), 0) };
    assert_eq!(nothing(&file), 12 * 256);
    assert_eq!(nothing(b"\n"), 256 + 1);
    assert_eq!(unsafe { rack_switches(null(), 0, null_mut(), 0, null_mut(), 0) }, 2 * 256 + 1);
    let ringless = std::fs::read("examples/c.tasks").unwrap();
    let mut answer = [0xA5];
    let status = unsafe { rack_switches(ringless.as_ptr(), ringless.len(), null_mut(), 0, answer.as_mut_ptr(), 1) };
    assert_eq!((status, answer), (0, [0]));
}

// A file of tasks of period S, without overheads: one of more than half a slot has its own server, and its cost is the reserve.
fn of_costs(s: u64, costs: &[u64]) -> Set {
    let tasks = costs.iter().enumerate().map(|(i, c)| Task { id: i as u64, c: *c, d: s, t: s, cache: None }).collect();
    Set { m: 64, s, tasks, ..Set::default() }
}

// Some servers of a whole slot among ring servers, whose reserves end now and then on a slot's end, or a tick before or after it.
fn laid(random: &mut Random) -> Set {
    let s = random.within(3, 40);
    let (mut costs, mut ticks) = (vec![], 0);
    for _ in 0..random.within(1, 17) {
        if random.next() % 5 == 0 {
            costs.push(s);
            continue;
        }
        let ends = random.one(&[s, s + 1, 2 * s - 1]) - ticks % s;
        let cost = if random.next() % 2 == 0 && s / 2 < ends && ends < s { ends } else { random.within(s / 2 + 1, s - 1) };
        costs.push(cost);
        ticks += cost;
    }
    let mut set = of_costs(s, &costs);
    set.resd = (random.next() % 4 == 0) as u64;
    set.m = random.one(&[64, 64, 64, 8]);
    set
}

// What the plans of a test were like, so that none of them is missing.
#[derive(Default)]
struct Seen {
    rings: [u32; 13],
    refused: u32,
    alone: u32,
    between: u32,
    on: u32,
    before: u32,
    after: u32,
}

impl Seen {
    fn plan(&mut self, s: u64, plan: &Plan) {
        if let Some(seen) = self.rings.get_mut(plan.r) {
            *seen += 1;
        }
        let ring: Vec<usize> = (0..plan.reserves.len()).filter(|i| plan.reserves[*i] < s).collect();
        self.alone += (ring.len() == 1) as u32;
        self.between += ring.windows(2).any(|w| w[0] + 1 < w[1]) as u32;
        for i in ring {
            let end = (plan.starts[i] + plan.reserves[i]) % s;
            self.on += (end == 0) as u32;
            self.before += (end == s - 1) as u32;
            self.after += (end == 1) as u32;
        }
    }
}

fn chosen_reserves() {
    let mut random = Random(21);
    let mut seen = Seen::default();
    for _ in 0..6000 {
        let set = laid(&mut random);
        same_list(oracle::file(&set).as_bytes()).ok();
        match oracle::plan(&set) {
            Ok(plan) => seen.plan(set.s, &plan),
            Err(_) => seen.refused += 1,
        }
    }
    assert!(seen.rings.iter().all(|n| *n > 20), "plans by ring processors: {:?}", seen.rings);
    for n in [seen.refused, seen.alone, seen.between, seen.on, seen.before, seen.after] {
        assert!(n > 100, "a kind of plan is rare");
    }
}

// One ring server: it runs for its reserve and is idle for the rest of the slot, whatever whole processors stand before it.
fn one_ring_server() {
    for s in 2..=24 {
        for reserve in 1..s {
            for wholes in 0..3 {
                let mut costs = vec![s; wholes];
                costs.push(reserve);
                let list = same_list(oracle::file(&of_costs(s, &costs)).as_bytes());
                assert_eq!(list.unwrap(), format!("210000000001{:02X}\n21{:08X}0100\n", wholes + 1, reserve));
            }
        }
    }
}

// 64 ring processors and as many ring servers: no list is longer where each has a tick less than the slot.
fn longest_lists() {
    let mut random = Random(22);
    for s in [65, 100, 1_000, 5_000] {
        let file = oracle::file(&of_costs(s, &[s - 1; 64])).into_bytes();
        let list = same_list(&file);
        assert_eq!(list.as_ref().unwrap().len(), MOST, "slot {}", s);
        same_left(&file, &list, MOST, 1);
    }
    for _ in 0..5 {
        let s = random.within(70, 2_000);
        let costs: Vec<u64> = (0..64).map(|_| s - random.within(1, s / 30)).collect();
        assert!(same_list(oracle::file(&of_costs(s, &costs)).as_bytes()).unwrap().len() > 55_000);
    }
}

// The list by where stretches begin: processor p comes to position b at tick b - (p - 1)·S, round the ring. Ring servers only.
fn by_beginnings(s: u64, reserves: &[u64]) -> String {
    let mut begins = vec![];
    let mut end = 0;
    for (i, reserve) in reserves.iter().enumerate() {
        begins.push((end, i + 1));
        end += reserve;
    }
    let turn = (end + s - 1) / s * s;
    if end < turn {
        begins.push((end, 0));
    }
    let mut lines = BTreeMap::new();
    for phase in (0..turn).step_by(s as usize) {
        let first = begins.iter().rev().find(|(at, _)| *at <= phase).unwrap();
        lines.insert((0, phase / s + 1), first.1);
        lines.extend(begins.iter().map(|(at, q)| (((at + turn - phase) % turn, phase / s + 1), *q)));
    }
    lines.iter().map(|((x, p), q)| format!("21{:08X}{:02X}{:02X}\n", x, p, q)).collect()
}

// Slots up to the largest. A turn of 64,000,000 ticks is too long to walk, so there the list by beginnings stands for it.
fn large_slots() {
    for (s, costs) in [(1_000_000, &[999_999, 500_001, 500_000][..]), (200_000, &[100_001; 20]), (400, &[399; 64])] {
        let walked = same_list(oracle::file(&of_costs(s, costs)).as_bytes());
        assert_eq!(walked.unwrap(), by_beginnings(s, costs));
    }
    let mut random = Random(23);
    for most in [1, 1_000, 15_000] {
        let costs: Vec<u64> = (0..64).map(|_| 1_000_000 - random.within(1, most)).collect();
        let file = oracle::file(&of_costs(1_000_000, &costs)).into_bytes();
        same_lefts(&file, &Ok(by_beginnings(1_000_000, &costs)));
    }
}

// As boot code uses it: the list is loaded once, and the last line of a processor at or before x mod (r·S) names who runs at x.
fn loaded_and_repeated() {
    let mut random = Random(24);
    let mut loaded = 0;
    while loaded < 200 {
        let set = laid(&mut random);
        let file = oracle::file(&set).into_bytes();
        if oracle::plan(&set).map_or(0, |plan| plan.r) == 0 {
            continue;
        }
        loaded += 1;
        let left = call(&file, MOST, 1);
        let text = String::from_utf8(left.out[..left.answer[0] as usize].to_vec()).unwrap();
        let field = |line: &str, at: usize, width: usize| u64::from_str_radix(&line[at..at + width], 16).unwrap();
        let lines: Vec<(u64, u64, u64)> = text.lines().map(|l| (field(l, 2, 8), field(l, 10, 2), field(l, 12, 2))).collect();
        let ring = lines.iter().filter(|line| line.0 == 0).count() as u64;
        for p in 1..=ring {
            for x in [0, ring * set.s - 1, ring * set.s, random.within(0, 3 * ring * set.s), random.next(), u64::MAX] {
                let at = x % (ring * set.s);
                let last = lines.iter().filter(|line| line.1 == p && line.0 <= at).last().unwrap();
                let mut answer = [0; 2];
                assert_eq!(unsafe { rack_who(file.as_ptr(), file.len(), p, x, answer.as_mut_ptr(), 2) }, 0);
                assert_eq!(last.2, answer[0], "processor {} tick {}\n{}", p, x, oracle::file(&set));
            }
        }
    }
}

fn main() {
    counted::run(&[
        ("examples' switches", examples),
        ("good files' switches", good_files),
        ("switches of files with 07 lines", interrupt_files),
        ("switches of files with 03 lines", cached_files),
        ("switches of files with a 06 line", ruled_files),
        ("damaged files' switches", damaged_files),
        ("refused files' switches", refused_files),
        ("buffers for switches", buffers),
        ("switches of chosen reserves", chosen_reserves),
        ("switches of one ring server", one_ring_server),
        ("longest switch lists", longest_lists),
        ("switches of large slots", large_slots),
        ("a switch list loaded and repeated", loaded_and_repeated),
    ]);
}
