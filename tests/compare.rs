// The proved tool, through its C interface, held to the independent account on many files, good and damaged.
// Each test prints its name; the last line counts them.
mod counted;
mod files;
mod oracle;
mod random;

use files::{cached, caches, caches_anywhere, damaged, even, good, interrupted, interrupts, interrupts_anywhere, masked, masked_anywhere, other_slot, packed, rules_anywhere};
use oracle::{Interrupt, Plan, Set, Task};
use random::Random;
use std::collections::HashSet;

extern "C" {
    fn rack_plan(tasks: *const u8, tasks_len: usize, out: *mut u8, out_len: usize) -> usize;
    fn rack_who(tasks: *const u8, tasks_len: usize, processor: u64, tick: u64, answer: *mut u64, answer_len: usize) -> u64;
    fn rack_pass(tasks: *const u8, tasks_len: usize, server: u64, reserve: u64, answer: *mut u64, answer_len: usize) -> u64;
}

fn plan_text(file: &[u8]) -> Vec<u8> {
    let mut out = vec![0xA5; 2647];
    let n = unsafe { rack_plan(file.as_ptr(), file.len(), out.as_mut_ptr(), out.len()) };
    assert!(out[n..].iter().all(|b| *b == 0xA5), "bytes past the text were changed");
    out.truncate(n);
    out
}

fn who(file: &[u8], processor: u64, tick: u64) -> (u64, [u64; 2]) {
    let mut answer = [0xA5; 2];
    let refusal = unsafe { rack_who(file.as_ptr(), file.len(), processor, tick, answer.as_mut_ptr(), 2) };
    (refusal, answer)
}

fn pass(file: &[u8], server: u64, reserve: u64) -> (u64, [u64; 4]) {
    let mut answer = [0xA5; 4];
    let refusal = unsafe { rack_pass(file.as_ptr(), file.len(), server, reserve, answer.as_mut_ptr(), 4) };
    (refusal, answer)
}

fn same_plan(file: &[u8]) {
    let expected = oracle::rota(file);
    let got = plan_text(file);
    assert_eq!(String::from_utf8_lossy(&got), expected, "for the file\n{}", String::from_utf8_lossy(file));
}

// The number of a file's refusal, 0 for a plan.
fn refusal(file: &[u8]) -> usize {
    let text = String::from_utf8(plan_text(file)).unwrap();
    if text.starts_with("1F") {
        usize::from_str_radix(&text[2..4], 16).unwrap()
    } else {
        0
    }
}

fn examples() {
    for name in ["a", "b", "c", "d", "e", "f", "g", "h1", "h2", "i", "j", "k", "m", "n1", "n2", "o", "p1", "p2", "q", "r0", "r1", "r3", "r6", "s", "t1", "t2"] {
        let file = std::fs::read(format!("examples/{}.tasks", name)).unwrap();
        let plan = std::fs::read(format!("examples/{}.plan", name)).unwrap();
        assert_eq!(plan_text(&file), plan, "example {}", name);
        same_plan(&file);
    }
}

fn good_files() {
    let mut random = Random(11);
    let mut accepted = 0;
    for _ in 0..4000 {
        let file = oracle::file(&good(&mut random)).into_bytes();
        same_plan(&file);
        accepted += (plan_text(&file)[..2] == *b"11") as u32;
    }
    assert!(accepted > 1000, "only {} files had a plan", accepted);
}

fn masked_files() {
    let mut random = Random(31);
    let (mut accepted, mut moved) = (0, 0);
    for _ in 0..4000 {
        let set = masked(&mut random);
        let file = oracle::file(&set).into_bytes();
        same_plan(&file);
        let plan = plan_text(&file);
        accepted += (plan[..2] == *b"11") as u32;
        moved += (plan != plan_text(oracle::file(&Set { masked: None, ..set }).as_bytes())) as u32;
    }
    assert!(accepted > 1000, "only {} files had a plan", accepted);
    assert!(moved > 500, "only {} files had another plan without their 05 line", moved);
}

fn masked_lines() {
    let mut random = Random(32);
    let mut seen = [0u32; 14];
    for i in 0..20000 {
        let set = if i % 2 == 0 { good(&mut random) } else { masked(&mut random) };
        let mut file = oracle::file(&set).into_bytes();
        masked_anywhere(&mut random, &mut file);
        if i % 3 == 0 {
            damaged(&mut random, &mut file);
        }
        if i % 7 == 0 {
            file.truncate(random.within(0, 60) as usize);
        }
        same_plan(&file);
        seen[refusal(&file)] += 1;
    }
    for number in [0, 1, 2, 3] {
        assert!(seen[number] > 10, "hardly a file met refusal {}: {:?}", number, seen);
    }
}

// A set with a small horizon.
fn small(random: &mut Random) -> Set {
    let horizon = random.one(&[24, 40, 60]);
    let divisors: Vec<u64> = (2..=horizon).filter(|d| horizon % d == 0).collect();
    let s = random.one(&divisors[..3]);
    let mut set = Set { m: 64, s, relj: random.within(0, 1), resd: random.within(0, 1), ..Set::default() };
    for id in 0..random.within(1, 6) {
        let t = random.one(&divisors).max(s);
        let d = random.within(s, t);
        set.tasks.push(Task { id, c: random.within(1, (d / 3).max(1)), d, t, cache: None });
    }
    set
}

// Of a set that has a plan each server with each allowed reserve, by looking at every length up to three horizons. Each answer
// is handed on with its server's smallest and largest deadline. No plan: no answer.
fn every_length(set: &Set, mut answered: impl FnMut(&Plan, [u64; 4], u64, u64)) -> bool {
    let plan = match oracle::plan(set) {
        Ok(plan) => plan,
        Err(_) => return false,
    };
    let file = oracle::file(set).into_bytes();
    same_plan(&file);
    for (q, (server, own)) in plan.servers.iter().zip(&plan.reserves).enumerate() {
        let deadlines = || server.loads.iter().map(|l| l.d);
        for r in (server.loss + 1..set.s).chain([set.s]) {
            let expected = plan.board.verdict_walked(server, r);
            assert_eq!(pass(&file, q as u64 + 1, r), (0, expected), "server {} reserve {}\n{}", q + 1, r, oracle::file(set));
            assert_eq!(expected[0] == 1, r >= *own, "server {} reserve {}\n{}", q + 1, r, oracle::file(set));
            answered(&plan, expected, deadlines().min().unwrap(), deadlines().max().unwrap());
        }
    }
    true
}

fn masked_lengths() {
    let mut random = Random(33);
    let (mut asked, mut inside) = (0, 0);
    while asked < 600 {
        let set = Set { masked: Some(random.within(0, 6)), ..small(&mut random) };
        asked += every_length(&set, |plan, [_, t, _, _], from, until| inside += (plan.board.b > 0 && from <= t && t < until) as u32) as u32;
    }
    assert!(inside > 300, "only {} answers named a length that gains", inside);
}

fn interrupt_files() {
    let mut random = Random(34);
    let (mut seen, mut moved) = ([0u32; 14], 0);
    for _ in 0..4000 {
        let set = interrupted(&mut random);
        let file = oracle::file(&set).into_bytes();
        same_plan(&file);
        seen[refusal(&file)] += 1;
        moved += (plan_text(&file) != plan_text(oracle::file(&Set { interrupts: vec![], ..set }).as_bytes())) as u32;
    }
    assert!(seen[0] > 800 && seen[10] > 50 && seen[13] > 100, "refusals: {:?}", seen);
    assert!(moved > 500, "only {} files had another plan without their 07 lines", moved);
}

// 07 lines anywhere, 05 lines too, whole and damaged: before the tasks, between them, on line 1, with no task.
fn interrupt_lines() {
    let mut random = Random(35);
    let mut seen = [0u32; 14];
    for i in 0..20000 {
        let set = match i % 4 {
            0 => good(&mut random),
            1 => masked(&mut random),
            2 => Set { tasks: vec![], interrupts: vec![Interrupt { p: 1, c: 1, d: 9, t: 10, j: 3 }], ..good(&mut random) },
            _ => interrupted(&mut random),
        };
        let mut file = oracle::file(&set).into_bytes();
        interrupts_anywhere(&mut random, &mut file);
        if i % 5 == 0 {
            masked_anywhere(&mut random, &mut file);
        }
        if i % 3 == 0 {
            damaged(&mut random, &mut file);
        }
        if i % 7 == 0 {
            file.truncate(random.within(0, 90) as usize);
        }
        same_plan(&file);
        seen[refusal(&file)] += 1;
    }
    for number in [0, 1, 2, 3, 6, 10, 13] {
        assert!(seen[number] > 10, "hardly a file met refusal {}: {:?}", number, seen);
    }
}

// The refusal, number and place, that a set's file should meet.
fn refused(set: &Set, number: usize, place: usize) {
    let file = oracle::file(set).into_bytes();
    assert_eq!(String::from_utf8_lossy(&plan_text(&file)), format!("1F{:02X}{:02X}\n", number, place), "{}", String::from_utf8_lossy(&file));
    same_plan(&file);
}

const LIGHT: Interrupt = Interrupt { p: 1, c: 1, d: 50, t: 100, j: 0 };

fn three_tasks(m: u64) -> Set {
    Set { m, s: 10, tasks: (0..3).map(|id| Task { id, c: 1, d: 100, t: 100, cache: None }).collect(), ..Set::default() }
}

// Each bound of an interrupt's figures, reached and passed, at every place; a task's comes before, and the board's before that.
fn interrupt_ranges() {
    for m in [1, 2, 63, 64] {
        for place in 1..=32 {
            for (count, interrupt, good) in [
                (place, Interrupt { p: 0, ..LIGHT }, false),
                (place, Interrupt { p: m, ..LIGHT }, true),
                (32, Interrupt { p: m + 1, ..LIGHT }, false),
                (32, Interrupt { p: 255, ..LIGHT }, false),
                (place, Interrupt { c: 0, ..LIGHT }, false),
                (place, Interrupt { c: 50, ..LIGHT }, true),
                (place, Interrupt { c: 51, ..LIGHT }, false),
                (32, Interrupt { c: 0, d: 0, ..LIGHT }, false),
                (32, Interrupt { d: 100, ..LIGHT }, true),
                (32, Interrupt { d: 101, ..LIGHT }, false),
                (place, Interrupt { t: 1_000_000, ..LIGHT }, true),
                (place, Interrupt { t: 1_000_001, ..LIGHT }, false),
                (place, Interrupt { t: 0xFF_FFFF, ..LIGHT }, false),
                (32, Interrupt { j: 49, ..LIGHT }, true),
                (32, Interrupt { j: 50, ..LIGHT }, false),
                (place, Interrupt { j: 0xFFFF, ..LIGHT }, false),
            ] {
                let mut set = Set { interrupts: vec![LIGHT; count], ..three_tasks(m) };
                set.interrupts[place - 1] = interrupt;
                if good {
                    let file = oracle::file(&set).into_bytes();
                    assert!([0, 10, 13].contains(&refusal(&file)));
                    if place == 1 {
                        same_plan(&file);
                    }
                    continue;
                }
                refused(&set, 6, 64 + place);
                set.interrupts.push(Interrupt { c: 0, ..LIGHT });
                set.interrupts.truncate(32);
                refused(&set, 6, 64 + place);
                set.tasks[2].t = 1_000_001;
                refused(&set, 6, 3);
                set.s = 0;
                refused(&set, 5, 0);
            }
        }
    }
}

// 32 interrupts are read, wherever their processors are; a 33rd is one too many at its line, and what follows is not looked at.
fn many_interrupts() {
    let mut random = Random(36);
    for (count, line, tasks) in (28..=40).flat_map(|count| [(count, None, 3), (count, Some(2), 3), (count, None, 64), (count, Some(0), 64)]) {
        let tasks: Vec<Task> = (0..tasks).map(|id| Task { id, c: 1, d: 700, t: 720, cache: None }).collect();
        let lines = 1 + line.map_or(0, |_| 1) + tasks.len();
        let interrupts = (0..count).map(|_| Interrupt { p: random.within(1, 8), c: 1, d: random.within(100, 240), t: 240, j: random.within(0, 9) }).collect();
        let set = Set { m: 64, s: 10, masked: line, tasks, interrupts, ..Set::default() };
        let file = oracle::file(&set).into_bytes();
        same_plan(&file);
        assert_eq!(plan_text(&file), plan_text(&file[..file.len().min(LOOKED_AT)]));
        if count > 32 {
            refused(&set, 3, lines + 33);
        } else {
            assert_eq!(refusal(&file), 0);
        }
        for more in ["0", "\n", "0240000001000064000064\n", "050001\n", "0700000001000001000001000000\n"] {
            same_plan(&[&file[..], more.as_bytes()].concat());
        }
    }
    for (count, line) in (0..=40).flat_map(|count| [(count, None), (count, Some(2))]) {
        let set = Set { tasks: vec![], masked: line, interrupts: vec![LIGHT; count], ..three_tasks(1) };
        refused(&set, 3, 2 + line.map_or(0, |_| 1) + count.min(32));
    }
}

// A task that fails alone is named, the first in the file, wherever it stands and however full the boards would be.
fn alone() {
    let tasks = |cost: u64, n: u64| (0..n).map(move |id| Task { id, c: cost, d: 10, t: 10, cache: None });
    let interrupts = vec![Interrupt { p: 1, c: 2, d: 10, t: 10, j: 1 }];
    for n in [1, 2, 3, 17, 64] {
        for m in [1, n / 2 + 1, 64] {
            let light = Set { m, s: 10, tasks: tasks(8, n).collect(), interrupts: interrupts.clone(), ..Set::default() };
            if m < n {
                refused(&light, 10, n as usize);
            } else {
                assert_eq!(refusal(oracle::file(&light).as_bytes()), 0);
            }
            for place in 0..n as usize {
                let mut set = light.clone();
                set.tasks[place].c = 9;
                refused(&set, 13, place + 1);
                set.tasks[n as usize - 1].c = 10;
                refused(&set, 13, place + 1);
                set.interrupts.extend([11, 999_983].map(|t| Interrupt { t, ..set.interrupts[0].clone() }));
                refused(&set, 9, 0);
                set.interrupts.clear();
                assert!([0, 10].contains(&refusal(oracle::file(&set).as_bytes())));
            }
        }
    }
    // Among small tasks one that the server before it would have to share with nothing but the interrupts.
    let mut set = Set { m: 2, s: 10, tasks: tasks(1, 5).collect(), interrupts, ..Set::default() };
    set.tasks[3] = Task { id: 3, c: 17, d: 20, t: 20, cache: None };
    refused(&set, 13, 4);
    set.tasks[3].c = 16;
    assert_eq!(refusal(oracle::file(&set).as_bytes()), 0);
}

fn interrupt_lengths() {
    let mut random = Random(37);
    let (mut asked, mut before, mut between, mut hidden) = (0, 0, 0, 0);
    while asked < 600 {
        let mut set = small(&mut random);
        set.masked = random.one(&[0, 0, 1, 4]).checked_sub(1);
        interrupts(&mut random, &mut set, 6);
        let processors: HashSet<u64> = set.interrupts.iter().map(|i| i.p).collect();
        let counted = every_length(&set, |plan, [_, t, w, _], from, until| {
            before += (t < from) as u32;
            between += (plan.board.b > 0 && from <= t && t < until) as u32;
            hidden += (processors.len() > 1 && 0 < plan.board.interrupt_load(t) && plan.board.interrupt_load(t) < w) as u32;
        });
        asked += (counted && !set.interrupts.is_empty()) as u32;
    }
    assert!(before > 300, "only {} answers named a length below every deadline of a task", before);
    assert!(between > 100, "only {} answers named a length that gains", between);
    assert!(hidden > 300, "only {} answers had tasks and interrupts of several processors", hidden);
}

fn cached_files() {
    let mut random = Random(41);
    let (mut seen, mut moved, mut apart, mut mixed, mut parted) = ([0u32; 14], 0, 0, 0, 0);
    for _ in 0..6000 {
        let set = cached(&mut random);
        let file = oracle::file(&set).into_bytes();
        same_plan(&file);
        seen[refusal(&file)] += 1;
        let plain = Set { tasks: set.tasks.iter().map(|t| Task { cache: None, ..t.clone() }).collect(), ..set.clone() };
        moved += (plan_text(&file) != plan_text(oracle::file(&plain).as_bytes())) as u32;
        if let Ok(plan) = oracle::plan(&set) {
            let losses: HashSet<u64> = plan.servers.iter().map(|server| server.loss).filter(|loss| loss + 1 < set.s).collect();
            let costs = |held: &Vec<usize>| held.iter().map(|i| set.cache(&set.tasks[*i])).collect::<HashSet<u64>>();
            let most = plan.servers.iter().map(|server| server.cache).max().unwrap();
            apart += (losses.len() > 1) as u32;
            mixed += plan.members.iter().any(|held| costs(held).len() > 1) as u32;
            parted += plan.servers.iter().any(|server| server.loads.iter().any(|l| l.c - server.cache + most > l.d)) as u32;
        }
    }
    assert!(seen[0] > 1500 && seen[8] > 300 && seen[10] > 100 && seen[13] > 100, "refusals: {:?}", seen);
    assert!(moved > 2000, "only {} files had another plan without their 03 lines", moved);
    assert!(apart > 500, "only {} plans had reserves of several entry losses", apart);
    assert!(mixed > 1000, "only {} plans had a server with tasks of several costs", mixed);
    assert!(parted > 500, "only {} plans had a task with no room for the cost of another server", parted);
}

// 03 lines anywhere, 05 and 07 lines too, whole and damaged: on line 1, between 02 lines, behind 07 lines, with the id of another.
fn cached_lines() {
    let mut random = Random(42);
    let mut seen = [0u32; 14];
    for i in 0..20000 {
        let set = match i % 4 {
            0 => good(&mut random),
            1 => interrupted(&mut random),
            2 => Set { tasks: vec![], ..good(&mut random) },
            _ => cached(&mut random),
        };
        let mut file = oracle::file(&set).into_bytes();
        caches_anywhere(&mut random, &mut file);
        if i % 5 == 0 {
            interrupts_anywhere(&mut random, &mut file);
        }
        if i % 3 == 0 {
            damaged(&mut random, &mut file);
        }
        if i % 7 == 0 {
            file.truncate(random.within(0, 90) as usize);
        }
        same_plan(&file);
        seen[refusal(&file)] += 1;
    }
    for number in [0, 1, 2, 3, 4, 6, 7, 8, 10, 13] {
        assert!(seen[number] > 10, "hardly a file met refusal {}: {:?}", number, seen);
    }
}

// What a task's line may become, and the refusal that the file then meets: a digit or a cost short and long, another kind in its
// length, its own kind with another cost, twice, behind an interrupt or a header.
fn other_lines(header: &str, line: &str, last: bool) -> Vec<(String, usize)> {
    let (tail, figures) = (&line[2..], &line[2..22]);
    vec![
        (format!("{}0\n", line), 1),
        (format!("{}0000\n", line), 1),
        (format!("{}\n", &line[..line.len() - 1]), 1),
        (format!("{}\n", &line[..line.len() - 4]), 1),
        (format!("{} \n", line), 1),
        (format!("{}\r\n", line), 1),
        (line.to_string(), 1),
        (format!("{}\n{}\n", line, line), 4),
        (format!("02{}\n", tail), if tail.len() == 20 { 0 } else { 1 }),
        (format!("03{}\n", tail), if tail.len() == 24 { 0 } else { 1 }),
        (format!("02{}\n", figures), 0),
        (format!("03{}\n", figures), 1),
        (format!("03{}0000\n", figures), 0),
        (format!("03{}FFFF\n", figures), 8),
        (format!("03{}000a\n", figures), 1),
        (format!("03{}00G0\n", figures), 1),
        (format!("30{}0000\n", figures), 1),
        (format!("07{}0000\n", figures), if last { 0 } else { 2 }),
        (format!("07{}0000\n{}\n", figures, line), 2),
        (format!("{}{}\n", header, line), 2),
    ]
}

// Three tasks of any kinds, each line in turn become another.
fn cached_lines_one_by_one() {
    let mut set = three_tasks(2);
    set.cpmdo = 0xB;
    for which in 0..8 {
        set.tasks.iter_mut().enumerate().for_each(|(i, t)| t.cache = Some(0xA + i as u64).filter(|_| which >> i & 1 == 1));
        let lines: Vec<String> = oracle::file(&set).lines().map(|line| format!("{}\n", line)).collect();
        same_plan(lines.concat().as_bytes());
        assert_eq!(refusal(lines.concat().as_bytes()), 0);
        for at in 1..4 {
            for (other, number) in other_lines(&lines[0], lines[at].trim_end(), at == 3) {
                let mut lines = lines.clone();
                lines[at] = other;
                let file = lines.concat();
                same_plan(file.as_bytes());
                assert_eq!(refusal(file.as_bytes()), number, "{}", file);
            }
        }
    }
}

// 64 tasks of any mix are read; a 65th is one too many at its line, and one with an id that was there is named at its own.
fn many_cached() {
    let mut random = Random(43);
    for count in 60..=68 {
        for mix in 0..5 {
            let line = random.one(&[0, 0, 1]).checked_sub(1);
            let mut given = |id: u64| [id < 64, id >= 64, id == 0, true, random.next() % 2 == 0][mix];
            let tasks: Vec<Task> = (0..count).map(|id| Task { id, c: 1, d: 700, t: 720, cache: Some(id % 9).filter(|_| given(id)) }).collect();
            let before = 1 + line.map_or(0, |_| 1);
            let mut set = Set { m: 64, s: 20, cpmdo: 3, masked: line, tasks, ..Set::default() };
            let file = oracle::file(&set).into_bytes();
            same_plan(&file);
            assert_eq!(plan_text(&file), plan_text(&file[..file.len().min(LOOKED_AT)]));
            if count > 64 {
                refused(&set, 3, before + 65);
            } else {
                assert_eq!(refusal(&file), 0);
            }
            for more in ["0", "\n", "0340000001000064000064\n", "03400000010000640000640000\n", "0240000001000064000064\n", "050001\n"] {
                same_plan(&[&file[..], more.as_bytes()].concat());
            }
            let (first, second) = (random.within(0, 61) as usize, random.within(62, 63) as usize);
            if second < set.tasks.len() {
                set.tasks[second].id = set.tasks[first % second].id;
                refused(&set, 4, before + second + 1);
            }
        }
    }
}

// Row 8 by the task's own cost, whatever its neighbours' are: at every place the most that there is room for, and one tick more.
fn cached_tight() {
    for n in [1, 2, 3, 17, 64] {
        for place in 0..n as usize {
            let tasks = (0..n).map(|id| Task { id, c: 3, d: 30, t: 60, cache: Some(id % 3).filter(|c| *c > 0) }).collect();
            let mut set = Set { m: 64, s: 30, relj: 2, relo: 1, ctswo: 2, cpmdo: 4, tasks, ..Set::default() };
            for (cost, tight) in [(0, false), (19, false), (20, false), (21, true), (0xFFFF, true)] {
                set.tasks[place].cache = Some(cost);
                if tight {
                    refused(&set, 8, place + 1);
                    set.tasks[n as usize - 1].cache = Some(0xFFFE);
                    refused(&set, 8, place + 1);
                } else {
                    same_plan(oracle::file(&set).as_bytes());
                    assert_eq!(refusal(oracle::file(&set).as_bytes()), 0);
                }
            }
            // By the header's cost alone a task of an 02 line is too tight, one of a 03 line is not.
            set.tasks.iter_mut().for_each(|t| t.cache = Some(1));
            set.cpmdo = 21;
            assert_eq!(refusal(oracle::file(&set).as_bytes()), 0);
            set.tasks[place].cache = None;
            refused(&set, 8, place + 1);
        }
    }
}

// Rows 6, 7 and 9 of a 03 line as of an 02 line, at every place; the lower row first.
fn cached_rows() {
    for (n, place) in [1, 2, 17, 64].iter().flat_map(|n| (0..*n).map(move |place| (*n as u64, place as usize))) {
        let tasks = (0..n).map(|id| Task { id, c: 1, d: 50, t: 100, cache: Some(1) }).collect();
        let mut set = Set { m: 64, s: 11, tasks, ..Set::default() };
        set.tasks[place].t = 999_983;
        refused(&set, 9, 0);
        set.tasks[place].d = 9;
        refused(&set, 7, place + 1);
        set.tasks[place].cache = Some(9);
        refused(&set, 7, place + 1);
        set.s = 1;
        refused(&set, 8, place + 1);
        set.tasks[place].c = 10;
        refused(&set, 6, place + 1);
        set.s = 0;
        refused(&set, 5, 0);
    }
}

// Two tasks that ask for little share a server up to the cost with which the first still meets its deadline; each costs the other.
fn neighbours() {
    for cost in 0..=40 {
        for (own, header) in [(0, 0), (3, 0), (0, 7), (5, 2)] {
            let short = Task { id: 1, c: 5, d: 20, t: 1000, cache: Some(own) };
            let long = Task { id: 2, c: 1, d: 1000, t: 1000, cache: Some(cost) };
            for tasks in [vec![short.clone(), long.clone()], vec![long.clone(), short.clone()]] {
                let set = Set { m: 2, s: 20, relo: 1, cpmdo: header, tasks, ..Set::default() };
                let file = oracle::file(&set).into_bytes();
                same_plan(&file);
                let servers = if 5 + 1 + cost.max(own) <= 20 { 1 } else { 2 };
                assert_eq!(oracle::plan(&set).unwrap().servers.len(), servers, "cost {}", cost);
                let loss = if servers == 1 { cost.max(own) } else { set.cache(&set.tasks[0]) };
                for r in 1..20 {
                    assert_eq!(pass(&file, 1, r).0 == 0, loss < r, "cost {} reserve {}", cost, r);
                }
            }
        }
    }
}

// A 03 line with the header's cost changes nothing, nor does the header's cost where each task has its own.
fn costs_of_all() {
    let mut random = Random(44);
    for _ in 0..1500 {
        let mut set = if random.next() % 2 == 0 { good(&mut random) } else { interrupted(&mut random) };
        let plan = plan_text(oracle::file(&set).as_bytes());
        let cost = set.cpmdo;
        set.tasks.iter_mut().filter(|_| random.next() % 2 == 0).for_each(|t| t.cache = Some(cost));
        assert_eq!(plan, plan_text(oracle::file(&set).as_bytes()), "{}", oracle::file(&set));
        set.tasks.iter_mut().for_each(|t| t.cache = Some(cost));
        set.cpmdo = random.one(&[0, 1, 2, 65_535]);
        assert_eq!(plan, plan_text(oracle::file(&set).as_bytes()), "{}", oracle::file(&set));
    }
}

fn cached_lengths() {
    let mut random = Random(45);
    let (mut asked, mut apart, mut charged) = (0, 0, 0);
    while asked < 600 {
        let mut set = Set { masked: random.one(&[0, 0, 1, 4]).checked_sub(1), ..small(&mut random) };
        if random.next() % 4 == 0 {
            interrupts(&mut random, &mut set, 3);
        }
        other_slot(&mut random, &mut set);
        caches(&mut random, &mut set);
        let mut several = false;
        let counted = every_length(&set, |plan, _, _, _| several |= plan.servers.iter().any(|server| server.loss != plan.servers[0].loss));
        asked += counted as u32;
        apart += several as u32;
        charged += (counted && set.tasks.iter().any(|t| t.cache.map_or(false, |cache| cache != set.cpmdo))) as u32;
    }
    assert!(apart > 150 && charged > 300, "only {} plans with several losses, {} with costs unlike the header's", apart, charged);
}

// Each server with every reserve, allowed from its own entry loss on: the same R may be allowed for one server and not for another.
fn cached_reserves() {
    let mut random = Random(46);
    let (mut asked, mut unlike) = (0, 0);
    while asked < 1000 {
        let set = cached(&mut random);
        if set.s > 60 {
            continue;
        }
        let plan = match oracle::plan(&set) {
            Ok(plan) => plan,
            Err(_) => continue,
        };
        asked += 1;
        let file = oracle::file(&set).into_bytes();
        for r in 0..=set.s + 1 {
            let mut answers = [0, 0];
            for q in 0..=plan.reserves.len() + 1 {
                let expected = plan.pass(q as u64, r).map_or((11 * 256, [0xA5; 4]), |answer| (0, answer));
                assert_eq!(pass(&file, q as u64, r), expected, "server {} reserve {}\n{}", q, r, oracle::file(&set));
                answers[(expected.0 == 0) as usize] += 1;
            }
            unlike += (answers[0] > 2 && answers[1] > 0) as u32;
        }
    }
    assert!(unlike > 500, "only {} reserves were allowed for one server and not for another", unlike);
}

// The set with another 06 line, or with none.
fn ruled(set: &Set, rule: Option<u64>) -> Set {
    Set { rule, ..set.clone() }
}

// Each set by every rule, and without a 06 line, which gives the plan of rule 00.
fn ruled_files() {
    let mut random = Random(51);
    let (mut seen, mut unlike) = ([0u32; 14], [0u32; 9]);
    for _ in 0..1500 {
        let set = packed(&mut random);
        let none = plan_text(oracle::file(&ruled(&set, None)).as_bytes());
        for rule in 0..9 {
            let file = oracle::file(&ruled(&set, Some(rule))).into_bytes();
            same_plan(&file);
            unlike[rule as usize] += (plan_text(&file) != none) as u32;
        }
        seen[refusal(oracle::file(&set).as_bytes())] += 1;
    }
    assert!(seen[0] > 700 && seen[10] > 100 && seen[13] > 20, "refusals: {:?}", seen);
    assert_eq!(unlike[0], 0);
    assert!(unlike[1..].iter().all(|n| *n > 200), "files with another plan than by rule 00: {:?}", unlike);
}

// Sets of few loads by every rule: tasks of one load in unlike figures, servers with the same room, tasks that weigh more than their
// load says, and costs that a task brings into a server.
fn even_files() {
    let mut random = Random(52);
    let (mut alike, mut level, mut heavier, mut dearer) = (0, 0, 0, 0);
    for i in 0..6000 {
        let set = ruled(&even(&mut random), Some(i % 9));
        same_plan(oracle::file(&set).as_bytes());
        let plan = match oracle::plan(&set) {
            Ok(plan) => plan,
            Err(_) => continue,
        };
        let pairs = || set.tasks.iter().flat_map(|a| set.tasks.iter().map(move |b| (a, b)));
        let charged = |t: &Task| t.c + set.relo + set.cache(t);
        alike += pairs().any(|(a, b)| a.c * b.t == b.c * a.t && a.t != b.t) as u32;
        heavier += pairs().any(|(a, b)| a.c * b.t < b.c * a.t && charged(a) * b.t > charged(b) * a.t) as u32;
        let rooms: Vec<u128> = plan.servers.iter().map(|server| oracle::room(server, 120)).collect();
        level += (rooms.len() > 2 && rooms.iter().collect::<HashSet<_>>().len() < rooms.len()) as u32;
        dearer += (plan.servers.iter().map(|server| server.cache).collect::<HashSet<_>>().len() > 1) as u32;
    }
    assert!(alike > 2000, "only {} sets with tasks of one load in unlike figures", alike);
    assert!(level > 1000, "only {} plans with servers of the same room", level);
    assert!(heavier > 400, "only {} sets with a task that outweighs one of more load", heavier);
    assert!(dearer > 400, "only {} plans with servers of several costs", dearer);
}

// The servers of a set's tasks, as its 13 lines say, which stand in file order.
fn placement(set: &Set) -> Vec<u64> {
    let text = String::from_utf8(plan_text(oracle::file(set).as_bytes())).unwrap();
    let number = |digits: &str| u64::from_str_radix(digits, 16).unwrap();
    let lines: Vec<&str> = text.lines().filter(|l| l.starts_with("13")).collect();
    assert!(lines.iter().map(|l| number(&l[2..4])).eq(set.tasks.iter().map(|t| t.id)), "{}", text);
    lines.iter().map(|l| number(&l[4..6])).collect()
}

// Tasks of the C, T and cache cost given, D = T, ids from 9 down.
fn tasks_of(figures: &[(u64, u64, Option<u64>)]) -> Vec<Task> {
    figures.iter().zip((0..10).rev()).map(|((c, t, cache), id)| Task { id, c: *c, d: *t, t: *t, cache: *cache }).collect()
}

// The servers of some tasks, worked out by hand, by each of the nine rules. Without overheads a server is full where the loads of its
// tasks add up to 1.
fn by_hand() {
    // C and T of each task, then the rules by which they are placed so.
    let cases: [(&[(u64, u64)], &[(&[u64], &[u64])]); 5] = [
        // Tenths: 6, 5, 3, 4, 2.
        (
            &[(36, 60), (30, 60), (18, 60), (24, 60), (12, 60)],
            &[(&[0, 3, 7], &[1, 2, 1, 2, 3]), (&[1, 4, 6], &[1, 2, 2, 1, 2]), (&[2, 5, 8], &[3, 2, 1, 1, 1])],
        ),
        // 5, 7, 3, 5: best fit leaves the room that the last one needs.
        (
            &[(30, 60), (42, 60), (18, 60), (30, 60)],
            &[(&[0, 6], &[1, 2, 1, 3]), (&[3], &[1, 2, 2, 1]), (&[1, 4, 7], &[2, 1, 1, 2]), (&[2, 5, 8], &[1, 3, 1, 2])],
        ),
        // 1/2 three times, as 30/60, 60/120 and 30/60: equal loads in file order, either way.
        (&[(30, 60), (60, 120), (30, 60)], &[(&[0, 1, 2, 3, 4, 5, 6, 7, 8], &[1, 1, 2])]),
        // 6, 6, 2: two servers with the same room, the lower one takes it. By rising load 2 comes first, then a 6 joins it.
        (&[(36, 60), (36, 60), (12, 60)], &[(&[0, 1, 3, 4, 6, 7], &[1, 2, 1]), (&[2, 5, 8], &[1, 2, 1])]),
        // 7, 6, 6 and 1, as 1/10 and 2/20: best fit fills server 1, worst fit goes to servers 2 and 3.
        (
            &[(42, 60), (36, 60), (72, 120), (6, 60), (12, 120)],
            &[(&[0, 1, 3, 4], &[1, 2, 3, 1, 1]), (&[6, 7], &[1, 2, 3, 2, 3]), (&[2, 5, 8], &[3, 1, 2, 1, 1])],
        ),
    ];
    for (tasks, placed) in cases {
        let tasks = tasks_of(&tasks.iter().map(|(c, t)| (*c, *t, None)).collect::<Vec<_>>());
        let set = Set { m: 64, s: 60, tasks, ..Set::default() };
        let mut rules: Vec<u64> = vec![];
        for (those, servers) in placed {
            for rule in those.iter() {
                assert_eq!(placement(&ruled(&set, Some(*rule))), *servers, "rule {}\n{}", rule, oracle::file(&set));
                rules.push(*rule);
            }
        }
        rules.sort();
        assert_eq!(rules, (0..9).collect::<Vec<u64>>());
    }
    // 10/20 is less than 31/60; with RelO 2 it would be 12/20 against 33/60, which is more. Neither has room beside the other.
    let set = Set { m: 64, s: 20, relo: 2, tasks: tasks_of(&[(10, 20, None), (31, 60, None)]), ..Set::default() };
    for rule in 0..9 {
        assert_eq!(placement(&ruled(&set, Some(rule))), if rule % 3 == 1 { [2, 1] } else { [1, 2] }, "rule {}", rule);
    }
    // Servers of 36 and of 26 + 9: rooms of 24 and 25. The last task has a cache cost of 3, which would leave 21 and 19.
    let tasks = tasks_of(&[(36, 60, None), (26, 60, None), (9, 60, None), (4, 60, Some(3))]);
    let set = Set { m: 64, s: 60, rule: Some(6), tasks, ..Set::default() };
    assert_eq!(placement(&set), [1, 2, 2, 2]);
    // Servers of 36 and of 25 + 8, a cost of 2 for the 25: both are charged with it, so the rooms are 24 and 23. By each task's own cost
    // they would be 24 and 25.
    let tasks = tasks_of(&[(36, 60, None), (25, 60, Some(2)), (8, 60, None), (2, 60, None)]);
    assert_eq!(placement(&Set { tasks, ..set }), [1, 2, 2, 1]);
}

// Loads that differ by a millionth or less, and rooms of millions of ticks.
fn near_loads() {
    let mut random = Random(53);
    let periods: Vec<u64> = (100_000..=1_000_000).filter(|d| 10_000_000 % d == 0).collect();
    let mut unlike = [0u32; 9];
    for _ in 0..120 {
        let shares: Vec<u64> = (0..random.within(2, 4)).map(|_| random.within(50_000, 500_000)).collect();
        let tasks = (0..random.within(6, 24)).map(|id| {
            let t = random.one(&periods);
            Task { id, c: t * random.one(&shares) / 1_000_000 + random.within(0, 1), d: t, t, cache: None }
        });
        let set = Set { m: 64, s: 100, tasks: tasks.collect(), ..Set::default() };
        let none = plan_text(oracle::file(&set).as_bytes());
        for rule in 0..9 {
            let file = oracle::file(&ruled(&set, Some(rule))).into_bytes();
            same_plan(&file);
            unlike[rule as usize] += (plan_text(&file) != none) as u32;
        }
    }
    assert!(unlike[0] == 0 && unlike[1..].iter().all(|n| *n > 10), "files with another plan than by rule 00: {:?}", unlike);
}

// 06 lines anywhere, 05, 03 and 07 lines too, whole and damaged: on line 1, before the 05 line, twice, behind a task, with no task.
fn rule_lines() {
    let mut random = Random(54);
    let mut seen = [0u32; 14];
    for i in 0..16000 {
        let set = match i % 5 {
            0 => good(&mut random),
            1 => masked(&mut random),
            2 => Set { tasks: vec![], ..masked(&mut random) },
            3 => ruled(&cached(&mut random), None),
            _ => packed(&mut random),
        };
        let mut file = oracle::file(&set).into_bytes();
        rules_anywhere(&mut random, &mut file);
        if i % 6 == 0 {
            masked_anywhere(&mut random, &mut file);
        }
        if i % 4 == 0 {
            damaged(&mut random, &mut file);
        }
        if i % 7 == 0 {
            file.truncate(random.within(0, 60) as usize);
        }
        same_plan(&file);
        seen[refusal(&file)] += 1;
    }
    for number in [0, 1, 2, 3, 5, 10, 13] {
        assert!(seen[number] > 10, "hardly a file met refusal {}: {:?}", number, seen);
    }
}

// A 06 line put in at every line of a file, with a 05 line and without, with 07 lines and without: whole, twice, with every number of
// interest, and damaged. It may stand at line 2, or at line 3 where line 2 is a 05 line; at line 2 a 05 line behind it is out of order.
fn rule_lines_one_by_one() {
    for (line, interrupts) in [(None, 0), (Some(2), 0), (None, 2), (Some(0), 2)] {
        let set = Set { masked: line, interrupts: vec![LIGHT; interrupts], ..three_tasks(2) };
        let lines: Vec<String> = oracle::file(&set).lines().map(|line| format!("{}\n", line)).collect();
        let own = if line.is_some() { 2 } else { 1 };
        for at in 0..=lines.len() {
            let put = |text: &str| [lines[..at].concat(), text.to_string(), lines[at..].concat()].concat();
            let meets = |text: &str, number: usize, place: usize| {
                let file = put(text);
                same_plan(file.as_bytes());
                let got = String::from_utf8(plan_text(file.as_bytes())).unwrap();
                let expected = format!("1F{:02X}{:02X}\n", number, place);
                assert!(if number == 0 { got.starts_with("11") } else { got == expected }, "{}\n{}", file, got);
            };
            for damaged in ["06\n", "060\n", "06000\n", "0600000\n", "060a\n", "060G\n", "06 0\n", " 0600\n", "0600 \n", "0600\r\n", "0600", "600\n"] {
                meets(damaged, 1, at + 1);
            }
            for (text, rule) in [("0600\n", 0), ("0604\n", 4), ("0608\n", 8), ("0609\n", 9), ("060A\n", 10), ("0610\n", 16), ("06FF\n", 255)] {
                let twice = [text, "0600\n"].concat();
                if at == own {
                    meets(text, if rule > 8 { 5 } else { 0 }, 0);
                    meets(&twice, 2, at + 2);
                } else if at == 1 {
                    meets(text, 2, 3);
                    meets(&twice, 2, 3);
                } else {
                    meets(text, 2, at + 1);
                    meets(&twice, 2, at + 1);
                }
            }
        }
        // With no task the line after the last is named, wherever that is.
        let none = Set { tasks: vec![], ..set };
        for rule in [0, 8, 9, 255] {
            refused(&ruled(&none, Some(rule)), 3, 3 + own - 1 + interrupts);
        }
    }
    refused(&ruled(&Set { tasks: vec![], ..three_tasks(1) }, Some(3)), 3, 3);
    for file in ["0600\n", "0600", "06", "0609\n0609\n", "050001\n0600\n"] {
        same_plan(file.as_bytes());
    }
}

// Every number that a 06 line can carry, among the rows before and after: lines first, then a number above 08 as m and S, then tasks.
fn every_rule() {
    for rule in 0..=255 {
        let set = ruled(&three_tasks(2), Some(rule));
        let file = oracle::file(&set).into_bytes();
        same_plan(&file);
        assert_eq!(refusal(&file), if rule > 8 { 5 } else { 0 });
        for wrong in [Set { m: 0, ..set.clone() }, Set { m: 65, ..set.clone() }, Set { s: 0, ..set.clone() }] {
            refused(&wrong, 5, 0);
        }
        for place in 0..3 {
            let mut wrong = set.clone();
            wrong.tasks[place].c = 0;
            refused(&wrong, if rule > 8 { 5 } else { 6 }, if rule > 8 { 0 } else { place + 1 });
        }
        let mut wrong = set.clone();
        wrong.tasks[2].id = wrong.tasks[0].id;
        refused(&wrong, 4, 5);
        refused(&ruled(&Set { masked: Some(1), ..wrong }, Some(rule)), 4, 6);
        let late = [&file[..], b"0600\n"].concat();
        assert_eq!(plan_text(&late), b"1F0206\n");
        same_plan(&late);
    }
}

// The longest files: 64 tasks of 03 lines and 32 interrupts behind a 05 line and a 06 line, and what is past them.
fn longest_files() {
    for (line, rule) in [(None, Some(5)), (Some(1), Some(7)), (Some(1), Some(9)), (Some(1), None)] {
        for (count, interrupts) in [(64, 32), (64, 33), (65, 32), (63, 32), (64, 31)] {
            let tasks = (0..count).map(|id| Task { id, c: 1, d: 700, t: 720, cache: Some(id % 4) }).collect();
            let interrupts = vec![Interrupt { t: 720, ..LIGHT }; interrupts];
            let set = Set { m: 64, s: 20, masked: line, rule, tasks, interrupts, ..Set::default() };
            let file = oracle::file(&set).into_bytes();
            same_plan(&file);
            assert_eq!(plan_text(&file), plan_text(&file[..file.len().min(LOOKED_AT)]));
            for more in ["0", "0600\n", "0240000001000064000064\n", "070100000100003200006400000"] {
                let file = [&file[..], more.as_bytes()].concat();
                same_plan(&file);
                assert_eq!(plan_text(&file), plan_text(&file[..file.len().min(LOOKED_AT)]));
            }
            if line.is_some() && rule.is_some() && count == 64 && set.interrupts.len() == 32 {
                assert_eq!(file.len() + 31, LOOKED_AT);
            }
        }
    }
}

fn ruled_lengths() {
    let mut random = Random(55);
    let (mut asked, mut several) = (0, 0);
    while asked < 600 {
        let mut set = Set { masked: random.one(&[0, 0, 1, 4]).checked_sub(1), ..small(&mut random) };
        if random.next() % 4 == 0 {
            interrupts(&mut random, &mut set, 3);
        }
        if random.next() % 2 == 0 {
            other_slot(&mut random, &mut set);
            caches(&mut random, &mut set);
        }
        set.rule = Some(random.within(1, 8));
        let mut servers = 0;
        asked += every_length(&set, |plan, _, _, _| servers = plan.servers.len()) as u32;
        several += (servers > 1) as u32;
    }
    assert!(several > 250, "only {} plans with several servers", several);
}

fn damaged_files() {
    let mut random = Random(12);
    let mut seen = [0u32; 14];
    for _ in 0..30000 {
        let mut file = oracle::file(&good(&mut random)).into_bytes();
        damaged(&mut random, &mut file);
        same_plan(&file);
        seen[refusal(&file)] += 1;
    }
    for number in [1, 2, 4, 6, 7] {
        assert!(seen[number] > 0, "no file met refusal {}: {:?}", number, seen);
    }
}

// RACK_TASKS_BYTES of include/rack.h.
const LOOKED_AT: usize = 2666;

// Past the last task that fits, whatever follows, the answer is that of the bytes that are looked at.
fn long_files() {
    let mut random = Random(13);
    for (count, line) in [63, 64, 65, 66, 100].iter().flat_map(|count| [(*count, None), (*count, Some(3))]) {
        let mut set = good(&mut random);
        set.masked = line;
        set.m = 64;
        set.tasks = (0..count).map(|i| Task { id: i % 256, c: 1, d: 100, t: 100, cache: None }).collect();
        set.s = 10;
        let file = oracle::file(&set).into_bytes();
        same_plan(&file);
        assert_eq!(plan_text(&file), plan_text(&file[..file.len().min(LOOKED_AT)]));
    }
}

fn short_buffers() {
    let file = std::fs::read("examples/a.tasks").unwrap();
    let whole = plan_text(&file);
    for room in 0..whole.len() {
        let mut out = vec![0xA5; room];
        let n = unsafe { rack_plan(file.as_ptr(), file.len(), out.as_mut_ptr(), room) };
        assert!(n == 0 && out.iter().all(|b| *b == 0xA5));
    }
}

// 64 servers, the most there can be.
fn most_servers() {
    let mut set = Set { m: 64, s: 1440, ..Set::default() };
    for i in 0..64 {
        let t = [14400, 15840, 20160, 25200, 27720, 30240, 33264, 43200][i as usize % 8];
        set.tasks.push(Task { id: i, c: t / 2 + 1, d: t, t, cache: None });
    }
    let file = oracle::file(&set).into_bytes();
    assert_eq!(plan_text(&file).len(), 23 + 64 * 21 + 64 * 7 + 33 * 13);
    // Server 64 has the last task alone, and is closest at its deadline.
    assert_eq!((who(&file, 33, u64::MAX).0, pass(&file, 64, 1440)), (0, (0, [1, 43200, 21601, 43200])));
}

fn who_runs() {
    let mut random = Random(14);
    let mut asked = 0;
    while asked < 400 {
        let set = [good, interrupted, cached, packed][asked % 4](&mut random);
        let file = oracle::file(&set).into_bytes();
        let plan = match oracle::plan(&set) {
            Ok(plan) => plan,
            Err((number, place)) => {
                assert_eq!(who(&file, 1, 0), (number as u64 * 256 + place as u64, [0xA5; 2]));
                continue;
            }
        };
        asked += 1;
        for p in 0..=(plan.r + plan.whole + 1) {
            for tick in [0, 1, set.s, random.next() % 5000, random.next(), u64::MAX, u64::MAX - random.next() % 100] {
                let expected = match oracle::who(&set, &plan, p, tick) {
                    Some((server, left)) => (0, [server as u64, left]),
                    None => (11 * 256, [0xA5; 2]),
                };
                assert_eq!(who(&file, p as u64, tick), expected, "processor {} tick {}\n{}", p, tick, oracle::file(&set));
            }
        }
    }
}

fn does_pass() {
    let mut random = Random(15);
    let mut asked = 0;
    while asked < 1000 {
        let set = [good, interrupted, packed][asked % 3](&mut random);
        let plan = match oracle::plan(&set) {
            Ok(plan) => plan,
            Err(_) => continue,
        };
        asked += 1;
        let file = oracle::file(&set).into_bytes();
        for q in 0..=plan.reserves.len() + 1 {
            for r in 0..=set.s + 1 {
                let expected = plan.pass(q as u64, r).map_or((11 * 256, [0xA5; 4]), |answer| (0, answer));
                assert_eq!(pass(&file, q as u64, r), expected, "server {} reserve {}\n{}", q, r, oracle::file(&set));
            }
        }
    }
}

// Horizons of some millions of ticks: each server with its reserve, one tick less and more, a whole processor, and some others.
fn long_horizons() {
    let (mut random, mut costs) = (Random(18), Random(47));
    let mut later = 0;
    for i in 0..120 {
        let horizon = [9_979_200, 9_990_000, 10_000_000][i % 3];
        let periods: Vec<u64> = (20_000..=1_000_000).filter(|d| horizon % d == 0).collect();
        let b = random.one(&[0, 100, 10_000]);
        let mut set = Set { m: 64, s: random.one(&[40, 80, 400]), resd: random.within(0, 3), masked: Some(b), ..Set::default() };
        for id in 0..random.within(2, 16) {
            let t = random.one(&periods);
            let d = random.within(t / 2, t);
            set.tasks.push(Task { id, c: random.within(1, d / 8), d, t, cache: None });
        }
        for _ in 0..random.one(&[0, 0, 3, 12]) {
            let t = random.one(&periods);
            let d = random.within(t / 2, t);
            set.interrupts.push(Interrupt { p: random.within(1, 4), c: random.within(1, d / 64), d, t, j: random.within(0, 9_999) });
        }
        if i % 2 == 1 {
            set.cpmdo = costs.within(0, 9);
            set.tasks.iter_mut().for_each(|t| t.cache = costs.one(&[0, 1, 1 + costs.0 % 20, 1 + costs.0 % 300]).checked_sub(1));
        }
        set.rule = (i as u64 % 10).checked_sub(1);
        let (file, plan) = match oracle::plan(&set) {
            Ok(plan) => (oracle::file(&set).into_bytes(), plan),
            Err(_) => continue,
        };
        assert_eq!(plan_text(&file), oracle::text(&set, &plan).into_bytes(), "{}", oracle::file(&set));
        for (q, (server, own)) in plan.servers.iter().zip(&plan.reserves).enumerate() {
            let mut reserves = vec![own - 1, *own, own + 1, set.s];
            reserves.extend((0..8).map(|_| random.within(1, set.s)));
            for r in reserves.into_iter().filter(|r| *r == set.s || (server.loss < *r && *r < set.s)) {
                let expected = plan.board.verdict(server, r);
                assert_eq!(pass(&file, q as u64 + 1, r), (0, expected), "server {} reserve {}\n{}", q + 1, r, oracle::file(&set));
                later += (expected[0] == 1 && expected[1] > server.loads.iter().map(|l| l.d).min().unwrap()) as u32;
            }
        }
    }
    assert!(later > 150, "only {} answers named a length past the first deadline", later);
}

// The note's promise, on the rota as the tool tells it tick by tick: no server on two processors, R ticks in any slot.
fn one_processor_a_server() {
    let mut random = Random(16);
    let mut asked = 0;
    while asked < 60 {
        let set = good(&mut random);
        let plan = match oracle::plan(&set) {
            Ok(plan) if plan.r > 0 && set.s <= 40 => plan,
            _ => continue,
        };
        asked += 1;
        let file = oracle::file(&set).into_bytes();
        let turn = plan.r as u64 * set.s;
        let mut on: Vec<Vec<u64>> = Vec::new();
        for x in 0..(turn + set.s).min(120) {
            let mut servers: Vec<u64> = (1..=plan.r + plan.whole).map(|p| who(&file, p as u64, x).1[0]).filter(|q| *q > 0).collect();
            let all = servers.len();
            servers.sort();
            servers.dedup();
            assert_eq!(servers.len(), all, "a server on two processors at tick {}\n{}", x, oracle::file(&set));
            on.push(servers);
        }
        for window in on.windows(set.s as usize) {
            for (i, reserve) in plan.reserves.iter().enumerate() {
                let held = window.iter().filter(|servers| servers.contains(&(i as u64 + 1))).count();
                assert_eq!(held as u64, *reserve);
            }
        }
    }
}

fn main() {
    counted::run(&[
        ("examples", examples),
        ("good files", good_files),
        ("files with a 05 line", masked_files),
        ("05 lines everywhere", masked_lines),
        ("does it pass with a 05 line, at every length", masked_lengths),
        ("files with 07 lines", interrupt_files),
        ("07 lines everywhere", interrupt_lines),
        ("the ranges of a 07 line", interrupt_ranges),
        ("32 interrupts and more", many_interrupts),
        ("tasks that fail alone", alone),
        ("does it pass with 07 lines, at every length", interrupt_lengths),
        ("files with 03 lines", cached_files),
        ("03 lines everywhere", cached_lines),
        ("03 lines one by one", cached_lines_one_by_one),
        ("64 tasks and more with 03 lines", many_cached),
        ("03 lines that are too tight", cached_tight),
        ("rows 5 to 9 of 03 lines", cached_rows),
        ("neighbours' costs", neighbours),
        ("one cost for all in 03 lines", costs_of_all),
        ("does it pass with 03 lines, at every length", cached_lengths),
        ("does it pass with 03 lines, every reserve", cached_reserves),
        ("files by every rule", ruled_files),
        ("few loads by every rule", even_files),
        ("by every rule, by hand", by_hand),
        ("loads close to each other", near_loads),
        ("06 lines everywhere", rule_lines),
        ("06 lines one by one", rule_lines_one_by_one),
        ("every number of a rule", every_rule),
        ("the longest files", longest_files),
        ("does it pass by every rule, at every length", ruled_lengths),
        ("damaged files", damaged_files),
        ("long files", long_files),
        ("short buffers", short_buffers),
        ("64 servers", most_servers),
        ("who runs", who_runs),
        ("does it pass", does_pass),
        ("does it pass, long horizons", long_horizons),
        ("one processor a server", one_processor_a_server),
    ]);
}
