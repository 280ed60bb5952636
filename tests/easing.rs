// A theorem tried on random files: a server that loses a task, but not its last, or in which a figure eases, has no larger reserve
// than before. C, ResD, RelO, CtswO, a cache cost and B ease as they fall, T as it rises, and D where B is 0. Both plans are the proved
// tool's, as their lines say. Each test prints its name and what it counted; the last line counts the tests.
mod counted;
mod files;
mod oracle;
mod random;

use files::{cached, even, good, interrupted, masked, packed};
use oracle::{lcm, Interrupt, Set, Task};
use random::Random;

extern "C" {
    fn rack_plan(tasks: *const u8, tasks_len: usize, out: *mut u8, out_len: usize) -> usize;
}

const FILES: u32 = 10_000;

struct Server {
    reserve: u64,
    ids: Vec<u64>,
}

#[derive(Default)]
struct Plan {
    processors: u64,
    servers: Vec<Server>,
}

fn plan_text(set: &Set) -> String {
    let file = oracle::file(set);
    let mut out = vec![0; 2647];
    let n = unsafe { rack_plan(file.as_ptr(), file.len(), out.as_mut_ptr(), out.len()) };
    out.truncate(n);
    String::from_utf8(out).unwrap()
}

// The plan that the lines say, or the number of the refusal. 13 lines stand in file order, and so do the ids of a server.
fn plan(set: &Set) -> Result<Plan, u64> {
    let mut plan = Plan::default();
    for line in plan_text(set).lines() {
        let field = |at: usize, width: usize| u64::from_str_radix(&line[at..at + width], 16).unwrap();
        match &line[..2] {
            "11" => plan.processors = field(2, 2) + field(4, 2),
            "12" => plan.servers.push(Server { reserve: field(4, 6), ids: vec![] }),
            "13" => plan.servers[field(4, 2) as usize - 1].ids.push(field(2, 2)),
            "1F" => return Err(field(2, 2)),
            _ => (),
        }
    }
    Ok(plan)
}

// A set and its plan, and the same eased. On a board of 64 processors the eased set has a plan too.
struct Eased<'a> {
    before: &'a Set,
    first: &'a Plan,
    after: Set,
    second: Plan,
}

impl<'a> Eased<'a> {
    fn to(before: &'a Set, first: &'a Plan, after: Set) -> Eased<'a> {
        let second = plan(&after).unwrap_or_else(|number| panic!("refused, row {}\n{}", number, oracle::file(&after)));
        Eased { before, first, after, second }
    }

    // The ids of a server's tasks that have not gone.
    fn staying(&self, server: &Server) -> Vec<u64> {
        server.ids.iter().copied().filter(|id| self.after.tasks.iter().any(|t| t.id == *id)).collect()
    }

    // Each server of the first plan whose tasks, less those that went, are a server of the second: both.
    fn kept(&self) -> Vec<(&Server, &Server)> {
        let kept = |server| (self.second.servers.iter().find(|kept| kept.ids == self.staying(server))).map(|kept| (server, kept));
        self.first.servers.iter().filter_map(kept).collect()
    }

    // Whether each server of the second plan has the tasks of the server of its number in the first, less those that went, and no server
    // of the first has gone.
    fn alike(&self) -> bool {
        let servers = || self.first.servers.iter().zip(&self.second.servers);
        self.first.servers.len() == self.second.servers.len() && servers().all(|(server, kept)| self.staying(server) == kept.ids)
    }

    fn files(&self) -> String {
        format!("{}eased\n{}", oracle::file(self.before), oracle::file(&self.after))
    }
}

// What the reserve of a server goes by: its tasks and the board, B only where deadlines differ, CpmdO only where a task has no 03 line.
fn own(set: &Set, server: &Server) -> Set {
    let tasks: Vec<Task> = set.tasks.iter().filter(|t| server.ids.contains(&t.id)).cloned().collect();
    let masked = Some(set.b()).filter(|_| tasks.iter().any(|t| t.d != tasks[0].d));
    let cpmdo = if tasks.iter().any(|t| t.cache.is_none()) { set.cpmdo } else { 0 };
    Set { masked, cpmdo, tasks, ..set.clone() }
}

// Whether a server of all tasks of the set has so much entry loss that no reserve on the ring is allowed.
fn no_ring(set: &Set) -> bool {
    oracle::Server::of(set, &set.tasks.iter().collect::<Vec<_>>()).loss + 1 >= set.s
}

// Which of the eight mixes of a 05 line with B above 0, 07 lines and 03 lines a file has.
fn mix(set: &Set) -> usize {
    (set.b() > 0) as usize + 2 * !set.interrupts.is_empty() as usize + 4 * set.tasks.iter().any(|t| t.cache.is_some()) as usize
}

// Servers compared, by the mix of their file, and those whose reserve fell; how many left a whole processor, and how many of these
// because their entry loss allows a reserve on the ring now.
#[derive(Default)]
struct Compared {
    servers: [u32; 8],
    fell: [u32; 8],
    left: u32,
    freed: u32,
}

impl Compared {
    // Each server that is in both plans. One in which nothing eased has the same reserve, and does not count.
    fn add(&mut self, eased: &Eased) {
        for (server, kept) in eased.kept() {
            let told = || format!("reserve {} is {}, tasks {:?}\n{}", server.reserve, kept.reserve, server.ids, eased.files());
            assert!(kept.reserve <= server.reserve, "{}", told());
            let (before, after) = (own(eased.before, server), own(&eased.after, kept));
            if before == after {
                assert_eq!(kept.reserve, server.reserve, "{}", told());
                continue;
            }
            let left = server.reserve == before.s && kept.reserve < before.s;
            self.servers[mix(eased.before)] += 1;
            self.fell[mix(eased.before)] += (kept.reserve < server.reserve) as u32;
            self.left += left as u32;
            self.freed += (left && no_ring(&before) && !no_ring(&after)) as u32;
        }
    }

    // In each of so many mixes enough was compared, and enough fell. `freed`: the entry loss can fall.
    fn say(&self, name: &str, mixes: usize, freed: bool) {
        let (servers, fell): (u32, u32) = (self.servers.iter().sum(), self.fell.iter().sum());
        println!("{}: {} servers compared, {} reserves fell, {} from a whole processor, {} of these by the entry loss", name, servers, fell, self.left, self.freed);
        let enough = (0..8).filter(|i| self.servers[*i] > 800 && self.fell[*i] > 100).count();
        assert_eq!(enough, mixes, "servers by the mix of lines: {:?}, of them fell {:?}", self.servers, self.fell);
        assert!(fell * 10 > servers && self.left > 200 && (self.freed > 100) == freed);
    }
}

// One to eight light tasks: deadlines of `least`, of the period, of half of it and more, or any. Half of the sets have 03 lines.
fn light_tasks(random: &mut Random, set: &mut Set, periods: &[u64], least: u64) {
    let (count, share, dues, own) = (random.one(&[1, 2, 3, 4, 5, 6, 8]), random.within(1, 2), random.next() % 4, random.next() % 2 == 0);
    for id in 0..count {
        let t = random.one(periods);
        let d = [least, t, random.within(t / 2, t), random.within(set.s, t)][dues as usize];
        let c = random.within(1, t / count / share + 1).min(d);
        let cache = Some(cost(random, set.s)).filter(|_| own && random.next() % 3 > 0);
        set.tasks.push(Task { id, c, d, t, cache });
    }
}

fn light_interrupts(random: &mut Random, set: &mut Set, periods: &[u64]) {
    for _ in 0..random.within(1, 3) {
        let t = random.one(periods);
        let d = random.within(t / 2, t);
        set.interrupts.push(Interrupt { p: random.within(1, 3), c: random.within(1, t / 20 + 1), d, t, j: random.within(0, d / 4) });
    }
}

fn few(random: &mut Random, most: u64) -> u64 {
    if random.next() % 2 == 0 { random.within(0, most) } else { 0 }
}

// A ResD or a cache cost: none, or up to more than the slot.
fn cost(random: &mut Random, s: u64) -> u64 {
    let most = random.one(&[0, 0, 2, 4, s / 2, s + 2]);
    random.within(0, most)
}

// A set mostly of one server or two, with and without 03, 05, 06 and 07 lines.
fn light(random: &mut Random) -> Set {
    let horizon = random.one(&[720, 2520, 5040]);
    let divisors: Vec<u64> = (2..=horizon).filter(|d| horizon % d == 0).collect();
    let (from, slots) = (random.one(&[0, 10]) as usize, random.one(&[2, 4, 8]));
    let s = random.one(&divisors[from..divisors.len() / 2]);
    let periods: Vec<u64> = divisors.iter().copied().filter(|d| *d >= slots * s).collect();
    let mut set = Set { m: 64, s, relj: few(random, 2), relo: few(random, 3), ctswo: few(random, 2), ..Set::default() };
    (set.resd, set.cpmdo) = (cost(random, s), cost(random, s));
    light_tasks(random, &mut set, &periods, slots * s);
    if random.next() % 2 == 0 {
        let most = random.one(&[2, s, slots * s]);
        set.masked = Some(random.within(0, most));
    }
    if random.next() % 2 == 0 {
        light_interrupts(random, &mut set, &periods);
    }
    set.rule = Some(random.within(0, 17)).filter(|rule| *rule < 9);
    set
}

// A set of any kind, mostly of several servers; half of them have any ResD up to the slot.
fn any(random: &mut Random) -> Set {
    let kind = random.within(0, 5) as usize;
    let set = [good, masked, interrupted, cached, packed, even][kind](random);
    let resd = if random.next() % 2 == 0 { random.within(0, set.s) } else { set.resd };
    Set { m: 64, resd, ..set }
}

// A set with its plan, so many in 16 of them light.
fn accepted(random: &mut Random, lights: u64) -> (Set, Plan) {
    loop {
        let set = if random.next() % 16 < lights { light(random) } else { any(random) };
        if let Ok(plan) = plan(&set) {
            return (set, plan);
        }
    }
}

// Makes a set easier. False where that can't be, and the set is then as it was.
type Easing = fn(&mut Random, &mut Set) -> bool;

fn falls(random: &mut Random, figure: &mut u64, least: u64) -> bool {
    let can = *figure > least;
    if can {
        *figure = random.within(least, *figure - 1);
    }
    can
}

fn task<'a>(random: &mut Random, set: &'a mut Set) -> &'a mut Task {
    let at = random.within(0, set.tasks.len() as u64 - 1);
    &mut set.tasks[at as usize]
}

fn task_goes(random: &mut Random, set: &mut Set) -> bool {
    let can = set.tasks.len() > 1;
    if can {
        set.tasks.remove(random.within(0, set.tasks.len() as u64 - 1) as usize);
    }
    can
}

fn c_falls(random: &mut Random, set: &mut Set) -> bool {
    let task = task(random, set);
    falls(random, &mut task.c, 1)
}

fn horizon(set: &Set) -> u128 {
    lcm(set.s, set.tasks.iter().map(|t| t.t).chain(set.interrupts.iter().map(|i| i.t)))
}

// To another divisor of the horizon, to a multiple, or to any number near it; that of any task, or the shortest.
fn t_rises(random: &mut Random, set: &mut Set) -> bool {
    let (h, mut eased) = (horizon(set) as u64, set.clone());
    let task = if random.next() % 2 == 0 { task(random, &mut eased) } else { eased.tasks.iter_mut().min_by_key(|t| t.t).unwrap() };
    let part = random.within(1, h / task.t);
    let divisor = h / (1..=part).rev().find(|k| h % k == 0).unwrap();
    let (multiple, near) = (task.t * random.within(2, 6), task.t + random.within(1, 40));
    let t = random.one(&[divisor, multiple, near]);
    let rises = task.t < t && t <= 1_000_000;
    task.t = t;
    let can = rises && horizon(&eased) <= 10_000_000;
    if can {
        *set = eased;
    }
    can
}

fn resd_falls(random: &mut Random, set: &mut Set) -> bool {
    falls(random, &mut set.resd, 0)
}

fn relo_falls(random: &mut Random, set: &mut Set) -> bool {
    falls(random, &mut set.relo, 0)
}

fn ctswo_falls(random: &mut Random, set: &mut Set) -> bool {
    falls(random, &mut set.ctswo, 0)
}

fn cpmdo_falls(random: &mut Random, set: &mut Set) -> bool {
    falls(random, &mut set.cpmdo, 0)
}

fn cost_falls(random: &mut Random, set: &mut Set) -> bool {
    let mut costs: Vec<&mut u64> = set.tasks.iter_mut().filter_map(|t| t.cache.as_mut()).filter(|cost| **cost > 0).collect();
    let at = random.next() as usize % costs.len().max(1);
    costs.get_mut(at).map_or(false, |cost| falls(random, cost, 0))
}

// Where B comes to 0, half of the time by leaving the 05 line out.
fn b_falls(random: &mut Random, set: &mut Set) -> bool {
    let can = set.masked.as_mut().map_or(false, |b| falls(random, b, 0));
    if can && set.b() == 0 && random.next() % 2 == 0 {
        set.masked = None;
    }
    can
}

fn d_rises(random: &mut Random, set: &mut Set) -> bool {
    let task = task(random, set);
    let can = task.d < task.t;
    if can {
        task.d = random.within(task.d + 1, task.t);
    }
    can
}

fn d_rises_unmasked(random: &mut Random, set: &mut Set) -> bool {
    set.b() == 0 && d_rises(random, set)
}

// Up to six of these, one after the other.
fn several(random: &mut Random, set: &mut Set) -> bool {
    let easings: [Easing; 10] = [task_goes, c_falls, t_rises, resd_falls, relo_falls, ctswo_falls, cpmdo_falls, cost_falls, b_falls, d_rises_unmasked];
    (0..random.within(1, 6)).filter(|_| easings[random.within(0, 9) as usize](random, set)).count() > 0
}

// The set without each of its tasks in turn, where others are left.
fn without_each(set: &Set) -> Vec<Set> {
    let without = |i: usize| Set { tasks: [&set.tasks[..i], &set.tasks[i + 1..]].concat(), ..set.clone() };
    (0..set.tasks.len()).filter(|_| set.tasks.len() > 1).map(without).collect()
}

// Files that get another plan without their 05 line, without their 07 lines, and with 02 lines for their 03 lines.
fn lines_count() {
    let mut random = Random(60);
    let mut moved = [0; 3];
    for _ in 0..FILES / 2 {
        let (set, _) = accepted(&mut random, 12);
        let headers = set.tasks.iter().map(|t| Task { cache: None, ..t.clone() }).collect();
        let plain = [Set { masked: None, ..set.clone() }, Set { interrupts: vec![], ..set.clone() }, Set { tasks: headers, ..set.clone() }];
        moved.iter_mut().zip(&plain).for_each(|(moved, plain)| *moved += (plan_text(plain) != plan_text(&set)) as u32);
    }
    println!("05, 07 and 03 lines count: in {}, {} and {} of {} files", moved[0], moved[1], moved[2], FILES / 2);
    assert!(moved.iter().all(|n| *n > 400));
}

fn tasks_go() {
    let mut random = Random(61);
    let mut compared = Compared::default();
    for _ in 0..FILES {
        let (before, first) = accepted(&mut random, 12);
        without_each(&before).into_iter().for_each(|after| compared.add(&Eased::to(&before, &first, after)));
    }
    compared.say("a task goes", 8, true);
}

// Each set eased four times, from what it was.
fn each_eased(seed: u64, lights: u64, easing: Easing, mut eased: impl FnMut(&Eased)) {
    let mut random = Random(seed);
    for _ in 0..FILES {
        let (before, first) = accepted(&mut random, lights);
        for _ in 0..4 {
            let mut after = before.clone();
            if easing(&mut random, &mut after) {
                eased(&Eased::to(&before, &first, after));
            }
        }
    }
}

fn eases(name: &str, seed: u64, easing: Easing, mixes: usize, freed: bool) {
    let mut compared = Compared::default();
    each_eased(seed, 12, easing, |eased| compared.add(eased));
    compared.say(name, mixes, freed);
}

fn no_more_processors() {
    let (mut compared, mut many, mut fell) = (0, 0, 0);
    each_eased(72, 2, several, |eased| {
        if eased.alike() {
            let (needed, needs) = (eased.first.processors, eased.second.processors);
            assert!(needs <= needed, "{} processors are {}\n{}", needed, needs, eased.files());
            compared += 1;
            many += (eased.first.servers.len() > 2) as u32;
            fell += (needs < needed) as u32;
        }
    });
    println!("the same servers, no more processors: {} plans compared, {} of more than two servers, {} with fewer processors", compared, many, fell);
    assert!(compared > 10_000 && many > 3000 && fell > 300);
}

fn tasks_of(figures: &[(u64, u64, u64)]) -> Vec<Task> {
    figures.iter().zip(1..).map(|((c, d, t), id)| Task { id, c: *c, d: *d, t: *t, cache: None }).collect()
}

// So many tasks of high load and small figures.
fn small(random: &mut Random, count: u64) -> Set {
    let s = random.within(2, 4);
    let mut figures = || {
        let slots = random.within(1, 4);
        let d = s * random.within(1, slots);
        (random.within(1, d), d, s * slots)
    };
    Set { m: 64, s, tasks: tasks_of(&(0..count).map(|_| figures()).collect::<Vec<_>>()), ..Set::default() }
}

// Examples of what the theorem can't say: how many, and the one of the fewest tasks and the smallest figures.
#[derive(Default)]
struct Edges {
    found: u32,
    smallest: Option<(usize, u64, String)>,
}

impl Edges {
    fn add(&mut self, set: &Set, what: String) {
        let figures = set.s + set.b() + set.tasks.iter().map(|t| t.c + t.d + t.t).sum::<u64>();
        let tasks: Vec<String> = set.tasks.iter().map(|t| format!("{}/{}/{}", t.c, t.d, t.t)).collect();
        let one = (tasks.len(), figures, format!("S {}, B {}, tasks {}: {}", set.s, set.b(), tasks.join(", "), what));
        self.smallest = self.smallest.take().into_iter().chain([one]).min();
        self.found += 1;
    }

    fn say(&self, name: &str) {
        println!("{}: {} found, the smallest: {}", name, self.found, self.smallest.as_ref().map_or("", |one| &one.2));
        assert!(self.found > 10);
    }
}

// Where the D that rises is the largest of its server, or comes to be it, more lengths gain B.
fn masked_rises() {
    let mut random = Random(73);
    let mut edges = Edges::default();
    for _ in 0..FILES {
        let count = random.within(2, 3);
        let before = Set { masked: Some(random.within(1, 4)), ..small(&mut random, count) };
        let (first, mut after) = (plan(&before).unwrap(), before.clone());
        d_rises(&mut random, &mut after);
        let eased = Eased::to(&before, &first, after);
        for (server, kept) in eased.kept().iter().filter(|(server, kept)| kept.reserve > server.reserve) {
            let risen = eased.after.tasks.iter().find(|t| !before.tasks.contains(t)).unwrap();
            edges.add(&before, format!("with D {} for task {} reserve {} is {}", risen.d, risen.id, server.reserve, kept.reserve));
        }
    }
    edges.say("with B a D rises, and a reserve");
}

// Without the task first fit makes other servers of those that are left.
fn more_processors() {
    let known = Set { m: 64, s: 2, tasks: tasks_of(&[(1, 2, 2), (2, 2, 4), (1, 4, 4), (2, 4, 4), (1, 2, 4)]), ..Set::default() };
    let needs = |set: &Set| plan(set).unwrap().processors;
    assert_eq!((needs(&known), needs(&without_each(&known)[2])), (2, 3));
    let mut random = Random(74);
    let mut edges = Edges::default();
    for _ in 0..2 * FILES {
        let count = random.within(5, 7);
        let before = small(&mut random, count);
        let first = plan(&before).unwrap();
        for (after, gone) in without_each(&before).into_iter().zip(1..) {
            let eased = Eased::to(&before, &first, after);
            if eased.second.processors > first.processors {
                assert!(!eased.alike(), "{}", eased.files());
                edges.add(&before, format!("{} processors, without task {} {}", first.processors, gone, eased.second.processors));
            }
        }
    }
    edges.say("a task goes, and more processors are needed");
}

fn main() {
    counted::run(&[
        ("05, 07 and 03 lines count", lines_count),
        ("a task goes", tasks_go),
        ("a C falls", || eases("a C falls", 62, c_falls, 8, false)),
        ("a T rises", || eases("a T rises", 63, t_rises, 8, false)),
        ("ResD falls", || eases("ResD falls", 64, resd_falls, 8, true)),
        ("RelO falls", || eases("RelO falls", 65, relo_falls, 8, false)),
        ("CtswO falls", || eases("CtswO falls", 66, ctswo_falls, 8, false)),
        ("CpmdO falls", || eases("CpmdO falls", 67, cpmdo_falls, 8, true)),
        ("the cost of a 03 line falls", || eases("the cost of a 03 line falls", 68, cost_falls, 4, true)),
        ("B falls", || eases("B falls", 69, b_falls, 4, false)),
        ("a D rises where B is 0", || eases("a D rises where B is 0", 70, d_rises_unmasked, 4, false)),
        ("several at once", || eases("several at once", 71, several, 8, true)),
        ("the same servers, no more processors", no_more_processors),
        ("with B a D rises, and a reserve", masked_rises),
        ("a task goes, and more processors are needed", more_processors),
    ]);
}
