// The search for a short length, and for the length with the least to spare: each proved descent against a plain walk over all
// steps, on the same servers in one run. The lengths that a descent looks at are counted in a Rust copy of it, whose answers are
// held to the proved one's.
mod random;

use random::Random;
use std::collections::BTreeSet;
use std::time::Instant;

extern "C" {
    fn probe_last_short(loads: *const u64, loads_len: usize, n: usize, slot: u64, gap: u64, hi: u64) -> u64;
    fn probe_closest(loads: *const u64, loads_len: usize, n: usize, masked: u64, slot: u64, gap: u64, hi: u64) -> u64;
}

// The loads stand in one row of numbers, as the search takes them: cost, deadline, period. Behind these n stand the interrupts by
// processor: processor, cost, deadline, period.
#[derive(Clone)]
struct Server {
    name: &'static str,
    loads: Vec<u64>,
    n: usize,
    slot: u64,
    gap: u64,
    horizon: u64,
}

impl Server {
    fn new(name: &'static str, slot: u64, gap: u64, horizon: u64) -> Server {
        Server { name, loads: vec![], n: 0, slot, gap, horizon }
    }

    fn add(&mut self, cost: u64, deadline: u64, period: u64) {
        self.loads.extend([cost, deadline, period]);
        self.n += 1;
    }

    // The loads' own numbers, and the interrupts'.
    fn own(&self) -> std::slice::ChunksExact<'_, u64> {
        self.loads[..3 * self.n].chunks_exact(3)
    }

    fn interrupts(&self) -> std::slice::ChunksExact<'_, u64> {
        self.loads[3 * self.n..].chunks_exact(4)
    }

    // For each processor with interrupts what they ask for, and the last of their deadlines.
    fn processors(&self, t: u64) -> Vec<(u64, u64)> {
        let (mut each, mut processor): (Vec<(u64, u64)>, u64) = (vec![], 0);
        for i in self.interrupts() {
            if i[0] != processor {
                each.push((0, 0));
                processor = i[0];
            }
            if i[2] <= t {
                let at = each.last_mut().unwrap();
                *at = (at.0 + i[1] * ((t - i[2]) / i[3] + 1), at.1.max(t - (t - i[2]) % i[3]));
            }
        }
        each
    }

    fn demand(&self, t: u64) -> u64 {
        let own: u64 = self.own().filter(|load| load[1] <= t).map(|load| load[0] * ((t - load[1]) / load[2] + 1)).sum();
        own + self.processors(t).iter().map(|p| p.0).max().unwrap_or(0)
    }

    fn supply(&self, t: u64) -> u64 {
        t / self.slot * (self.slot - self.gap) + (t % self.slot).saturating_sub(self.gap)
    }

    // The first deadline and the period of each load and of each interrupt.
    fn deadlines(&self) -> impl Iterator<Item = (u64, u64)> + '_ {
        self.own().map(|load| (load[1], load[2])).chain(self.interrupts().map(|i| (i[2], i[3])))
    }

    fn steps(&self) -> BTreeSet<u64> {
        let mut steps = BTreeSet::new();
        for (deadline, period) in self.deadlines() {
            steps.extend((deadline..=self.horizon).step_by(period as usize));
        }
        if self.interrupts().len() > 0 {
            steps.retain(|t| self.demand(*t) > self.demand(*t - 1));
        }
        steps
    }

    // The largest short step, looking at every step from the horizon down.
    fn walk(&self, steps: &[u64]) -> (u64, u64) {
        let mut evaluations = 0;
        for t in steps.iter().rev() {
            evaluations += 1;
            if self.demand(*t) > self.supply(*t) {
                return (*t, evaluations);
            }
        }
        (0, evaluations)
    }

    fn descent(&self) -> (u64, u64) {
        let usable = self.slot - self.gap;
        let (mut t, mut supply, mut evaluations) = (self.horizon, self.supply(self.horizon), 0);
        while t > 0 {
            evaluations += 1;
            let w = self.demand(t);
            if supply < w {
                return (t, evaluations);
            }
            if w == 0 {
                return (0, evaluations);
            }
            supply = w - 1;
            t = supply / usable * self.slot + self.gap + supply % usable;
        }
        (0, evaluations)
    }

    fn proved(&self) -> u64 {
        // The contract's conditions hold of every server made below: sound and small loads and interrupts, at most 256 together,
        // these by processor, gap below the slot, short lengths.
        unsafe {
            probe_last_short(
                self.loads.as_ptr(), self.loads.len(), self.n, self.slot, self.gap, self.horizon,
            )
        }
    }

    fn spare(&self, t: u64) -> u64 {
        self.supply(t) - self.demand(t)
    }

    // A greatest steps last where the first of those that are the greatest now came to what it is.
    fn last_step(&self, hi: u64) -> u64 {
        let own = self.own().filter(|load| load[1] <= hi).map(|load| hi - (hi - load[1]) % load[2]).max();
        let each = self.processors(hi);
        let most = each.iter().map(|p| p.0).max().unwrap_or(0);
        let interrupts = each.iter().filter(|p| 0 < p.0 && p.0 == most).map(|p| p.1).min();
        own.max(interrupts).unwrap()
    }

    fn first_step(&self) -> u64 {
        self.deadlines().map(|(deadline, _)| deadline).min().unwrap()
    }

    // The smallest step with the least to spare, and how many lengths were looked at; what a first step has to spare is known.
    fn close_descent(&self, first: u64) -> (u64, u64) {
        let usable = self.slot - self.gap;
        let mut best = first;
        let (mut least, mut t, mut supply) = (self.spare(best), self.horizon, self.supply(self.horizon));
        let (mut w, mut looked) = (self.demand(t), 2);
        while w > 0 {
            if supply > w + least {
                supply = w + least;
            } else {
                best = self.last_step(t);
                looked += 1;
                least = self.supply(best) - w;
                supply = self.supply(best) - 1;
            }
            t = supply / usable * self.slot + self.gap + supply % usable;
            w = self.demand(t);
            looked += 1;
        }
        (best, looked)
    }

    // As for `proved`; and every server that is asked this passes.
    fn proved_close(&self) -> u64 {
        unsafe {
            probe_closest(
                self.loads.as_ptr(), self.loads.len(), self.n, 0, self.slot, self.gap, self.horizon,
            )
        }
    }

    // With the largest gap with which it passes: the smallest reserve.
    fn tight(mut self, name: &'static str) -> Server {
        let (mut passes, mut fails) = (0, self.slot);
        while passes + 1 < fails {
            self.gap = (passes + fails) / 2;
            if self.descent().0 == 0 {
                passes = self.gap;
            } else {
                fails = self.gap;
            }
        }
        Server { name, gap: passes, ..self }
    }
}

fn divisors(h: u64, low: u64, high: u64) -> Vec<u64> {
    (low..=high).filter(|d| h % d == 0).collect()
}

const H: u64 = 9_979_200;

// 64 loads with periods from the divisors of H, that use about `share` thousandths of the processor, and deadlines from `due`
// hundredths of the period on.
fn loaded(random: &mut Random, name: &'static str, periods_of: &[u64], due: u64, share: u64, slot: u64, gap: u64) -> Server {
    let n = 64;
    let mut s = Server::new(name, slot, gap, H);
    for _ in 0..n {
        let period = random.one(periods_of);
        let cost = (period * share / 1000 / n).max(1);
        s.add(cost, random.within(cost.max(period * due / 100), period), period);
    }
    s
}

fn server(random: &mut Random, name: &'static str, share: u64, slot: u64, gap: u64) -> Server {
    loaded(random, name, &divisors(H, 2_000, 1_000_000), 50, share, slot, gap)
}

fn servers() -> Vec<Server> {
    let mut random = Random(0x9E37_79B9_7F4A_7C15);
    let mut all = Vec::new();
    for _ in 0..5 {
        all.push(server(&mut random, "random, 55 % of a reserve of 75 %", 550, 1440, 360));
    }
    for _ in 0..3 {
        all.push(server(&mut random, "random, 90 % of a whole processor", 900, 1440, 0));
    }
    for _ in 0..3 {
        all.push(server(&mut random, "just under the reserve's share, 749 of 750", 749, 1440, 360));
    }
    // Utilisation exactly 1: 64 loads of T/64, deadlines at the period.
    let mut full = Server::new("utilisation exactly 1", 1440, 0, H);
    for i in 0..64u64 {
        let period = 64 * [45, 63, 75, 105, 135, 165, 225, 315][i as usize % 8];
        assert!(H % period == 0);
        full.add(period / 64, period, period);
    }
    all.push(full);
    // 63 loads of short periods, and one of 78,125, which shares no factor with them.
    let mut long = Server::new("one long coprime period", 128, 32, 10_000_000);
    for i in 0..63u64 {
        let period = 128 << (i % 3);
        long.add(1, period, period);
    }
    long.add(20_000, 78_125, 78_125);
    all.push(long);
    for (name, m, share, gap) in [
        ("55 % of a reserve of 75 %, 32 interrupts on 1", 1, 550, 360),
        ("80 % of a processor, 32 interrupts on 1", 1, 800, 0),
        ("55 % of a reserve of 75 %, 32 interrupts on 8", 8, 550, 360),
        ("80 % of a processor, 32 interrupts on 8", 8, 800, 0),
        ("55 % of a reserve of 75 %, 32 interrupts on 32", 32, 550, 360),
        ("80 % of a processor, 32 interrupts on 32", 32, 800, 0),
    ] {
        let loads = server(&mut random, name, share, 1440, gap);
        all.push(interrupted(&mut random, loads, m));
    }
    all
}

// The same with 32 interrupts on m processors, which ask for about a tenth of each.
fn interrupted(random: &mut Random, mut s: Server, m: u64) -> Server {
    let periods = divisors(H, 2_000, 1_000_000);
    for i in 0..32 {
        let period = random.one(&periods);
        s.loads.extend([1 + i * m / 32, (period * m / 320).max(1), random.within(period / 2, period), period]);
    }
    s
}

// Where the least to spare is dear to find: a reserve that is just enough, and periods close to each other, so that many lengths
// are about as close.
fn close_servers() -> Vec<Server> {
    let mut random = Random(0x2545_F491_4F6C_DD1D);
    let near = divisors(H, 5_000, 10_000);
    let mut all = servers();
    for share in [300, 550, 900] {
        all.push(server(&mut random, "random, the smallest reserve", share, 1440, 0).tight("random, the smallest reserve"));
    }
    for share in [300, 550, 750, 900] {
        let s = loaded(&mut random, "periods 5,000 to 10,000", &near, 90, share, 4752, 475);
        all.push(s.clone());
        all.push(s.tight("the same, the smallest reserve"));
    }
    all
}

fn micros(mut run: impl FnMut()) -> f64 {
    let mut best = f64::MAX;
    for _ in 0..7 {
        let start = Instant::now();
        run();
        best = best.min(start.elapsed().as_secs_f64() * 1e6);
    }
    best
}

fn short_lengths() {
    println!("{:<48} {:>8} {:>8} {:>8} {:>11} {:>11} {:>9}", "server (64 loads)", "steps", "walked", "descent", "walk us", "proved us", "answer");
    for s in servers() {
        let steps: Vec<u64> = s.steps().into_iter().collect();
        let (walked, walk_evaluations) = s.walk(&steps);
        let (descended, evaluations) = s.descent();
        let answer = s.proved();
        assert_eq!(descended, answer, "the copy counts another search");
        // Between steps demand stays and supply does not fall, so the last short length lies at or after the last short step.
        assert_eq!(walked == 0, answer == 0);
        assert!(evaluations <= steps.len() as u64 + 1);
        let walk_time = micros(|| assert_eq!(s.walk(&steps).0, walked));
        let proved_time = micros(|| assert_eq!(s.proved(), answer));
        println!(
            "{:<48} {:>8} {:>8} {:>8} {:>11.1} {:>11.1} {:>9}",
            s.name, steps.len(), walk_evaluations, evaluations, walk_time, proved_time, answer
        );
    }
}

fn close_lengths() {
    println!(
        "{:<48} {:>8} {:>8} {:>8} {:>8} {:>9} {:>9} {:>9} {:>6}",
        "server (64 loads)", "steps", "test", "closest", "from H", "walk us", "test us", "close us", "ratio"
    );
    for s in close_servers() {
        let steps: Vec<u64> = s.steps().into_iter().collect();
        let walk = || steps.iter().map(|t| (s.spare(*t), *t)).min().unwrap().1;
        let (answer, (descended, looked), (short, tested)) = (s.proved_close(), s.close_descent(s.first_step()), s.descent());
        let (from_horizon, looked_from_horizon) = s.close_descent(s.last_step(s.horizon));
        assert_eq!((short, walk(), descended, from_horizon), (0, answer, answer, answer));
        assert!(looked <= 3 * steps.len() as u64 + 2);
        let walk_time = micros(|| assert_eq!(walk(), answer));
        let test_time = micros(|| assert_eq!(s.proved(), 0));
        let close_time = micros(|| assert_eq!(s.proved_close(), answer));
        println!(
            "{:<48} {:>8} {:>8} {:>8} {:>8} {:>9.1} {:>9.1} {:>9.1} {:>6.1}",
            s.name, steps.len(), tested, looked, looked_from_horizon, walk_time, test_time, close_time, (test_time + close_time) / test_time
        );
    }
}

// The most that the question looks at, by chance, to what the test does: many periods, deadlines, shares and reserves.
fn most_lengths() {
    let mut random = Random(7);
    let slots = divisors(H, 2, 5_000);
    let (mut tried, mut most) = (0, 0.0f64);
    for _ in 0..4000 {
        let low = random.one(&[10, 100, 1_000, 2_000, 5_000]);
        let periods = divisors(H, low, random.one(&[2 * low, 10 * low, 100 * low]));
        let (due, share, slot) = (random.one(&[20, 50, 90, 99]), random.within(50, 1000), random.one(&slots));
        let s = loaded(&mut random, "by chance", &periods, due, share, slot, 0).tight("by chance");
        for gap in [s.gap, s.gap * 9 / 10, s.gap / 2] {
            let s = Server { gap, ..s.clone() };
            let (short, tested) = s.descent();
            if short == 0 {
                tried += 1;
                most = most.max(1.0 + s.close_descent(s.first_step()).1 as f64 / tested as f64);
            }
        }
    }
    println!("by chance, {} servers: lengths that the question looks at to those of the test, at most {:.1}", tried, most);
}

fn main() {
    short_lengths();
    println!("\nThe least to spare. from H: the lengths looked at, had the search begun with what the horizon has to spare.");
    println!("ratio: the question, which tests and then looks for the least to spare, to the test alone.");
    close_lengths();
    most_lengths();
}
