// An independent account of document 01, and of what document 02 asks for since, by the slowest plain means: no search skips
// a length, the ring is an array of positions, a line is a split string. The outside tests hold the proved tool to it.
#![allow(dead_code)]

#[derive(Clone, Debug, PartialEq)]
pub struct Task {
    pub id: u64,
    pub c: u64,
    pub d: u64,
    pub t: u64,
    pub cache: Option<u64>,
}

#[derive(Clone, Debug, PartialEq)]
pub struct Interrupt {
    pub p: u64,
    pub c: u64,
    pub d: u64,
    pub t: u64,
    pub j: u64,
}

#[derive(Clone, Debug, Default, PartialEq)]
pub struct Set {
    pub m: u64,
    pub s: u64,
    pub relj: u64,
    pub relo: u64,
    pub ctswo: u64,
    pub resd: u64,
    pub cpmdo: u64,
    pub masked: Option<u64>,
    pub rule: Option<u64>,
    pub tasks: Vec<Task>,
    pub interrupts: Vec<Interrupt>,
}

impl Set {
    // The ticks for which a job can hold interrupts off.
    pub fn b(&self) -> u64 {
        self.masked.unwrap_or(0)
    }

    // The number of the packing rule.
    pub fn packing(&self) -> u64 {
        self.rule.unwrap_or(0)
    }

    // The cache cost of a task by itself: that of its 03 line, or the header's.
    pub fn cache(&self, task: &Task) -> u64 {
        task.cache.unwrap_or(self.cpmdo)
    }
}

pub type Refusal = (u8, usize);

fn hex_fields(line: &[u8], widths: &[usize]) -> Option<Vec<u64>> {
    let total: usize = widths.iter().sum();
    if line.len() != 2 + total {
        return None;
    }
    let text = std::str::from_utf8(line).ok()?;
    if !text.chars().all(|ch| "0123456789ABCDEF".contains(ch)) {
        return None;
    }
    let mut fields = Vec::new();
    let mut rest = &text[2..];
    for width in widths {
        let (field, tail) = rest.split_at(*width);
        fields.push(u64::from_str_radix(field, 16).ok()?);
        rest = tail;
    }
    Some(fields)
}

enum Line {
    Header(Vec<u64>),
    Task(Vec<u64>),
    Masked(u64),
    Rule(u64),
    Interrupt(Vec<u64>),
    Malformed,
}

fn classify(line: &[u8], closed: bool) -> Line {
    if !closed {
        return Line::Malformed;
    }
    if line.starts_with(b"01") {
        if let Some(f) = hex_fields(line, &[2, 6, 4, 4, 4, 4, 4]) {
            return Line::Header(f);
        }
    }
    if line.starts_with(b"02") {
        if let Some(f) = hex_fields(line, &[2, 6, 6, 6]) {
            return Line::Task(f);
        }
    }
    if line.starts_with(b"03") {
        if let Some(f) = hex_fields(line, &[2, 6, 6, 6, 4]) {
            return Line::Task(f);
        }
    }
    if line.starts_with(b"05") {
        if let Some(f) = hex_fields(line, &[4]) {
            return Line::Masked(f[0]);
        }
    }
    if line.starts_with(b"06") {
        if let Some(f) = hex_fields(line, &[2]) {
            return Line::Rule(f[0]);
        }
    }
    if line.starts_with(b"07") {
        if let Some(f) = hex_fields(line, &[2, 6, 6, 6, 4]) {
            return Line::Interrupt(f);
        }
    }
    Line::Malformed
}

pub fn read(text: &[u8]) -> Result<Set, Refusal> {
    let mut lines: Vec<(&[u8], bool)> = text.split(|b| *b == b'\n').map(|l| (l, true)).collect();
    let last = lines.len() - 1;
    lines[last].1 = false;
    if lines[last].0.is_empty() {
        lines.pop();
    }
    let mut set = Set::default();
    for (i, (line, closed)) in lines.iter().enumerate() {
        let number = i + 1;
        match (classify(line, *closed), number) {
            (Line::Malformed, _) => return Err((1, number)),
            (Line::Header(f), 1) => {
                set = Set { m: f[0], s: f[1], relj: f[2], relo: f[3], ctswo: f[4], resd: f[5], cpmdo: f[6], ..Set::default() };
            }
            (Line::Header(_), _) => return Err((2, number)),
            (Line::Masked(b), 2) => set.masked = Some(b),
            (Line::Masked(_), _) => return Err((2, number)),
            (Line::Rule(rule), 2) => set.rule = Some(rule),
            (Line::Rule(rule), 3) if set.masked.is_some() => set.rule = Some(rule),
            (Line::Rule(_), _) => return Err((2, number)),
            (Line::Task(_) | Line::Interrupt(_), 1) => return Err((2, 1)),
            (Line::Task(f), _) => {
                if !set.interrupts.is_empty() {
                    return Err((2, number));
                }
                if set.tasks.len() == 64 {
                    return Err((3, number));
                }
                if set.tasks.iter().any(|t| t.id == f[0]) {
                    return Err((4, number));
                }
                set.tasks.push(Task { id: f[0], c: f[1], d: f[2], t: f[3], cache: f.get(4).copied() });
            }
            (Line::Interrupt(f), _) => {
                if set.interrupts.len() == 32 {
                    return Err((3, number));
                }
                set.interrupts.push(Interrupt { p: f[0], c: f[1], d: f[2], t: f[3], j: f[4] });
            }
        }
    }
    if lines.is_empty() {
        return Err((2, 1));
    }
    if set.tasks.is_empty() {
        return Err((3, lines.len() + 1));
    }
    match figures(&set) {
        Some(refusal) => Err(refusal),
        None => Ok(set),
    }
}

fn figures(set: &Set) -> Option<Refusal> {
    if set.m < 1 || set.m > 64 || set.s == 0 || set.packing() > 8 {
        return Some((5, 0));
    }
    let ordered = |c: u64, d: u64, t: u64| 1 <= c && c <= d && d <= t && t <= 1_000_000;
    if let Some(i) = set.tasks.iter().position(|t| !ordered(t.c, t.d, t.t)) {
        return Some((6, i + 1));
    }
    let wrong = |i: &Interrupt| !ordered(i.c, i.d, i.t) || i.j >= i.d || i.p < 1 || i.p > set.m;
    set.interrupts.iter().position(wrong).map(|i| (6, 64 + i + 1))
}

#[derive(Clone, Copy, Debug)]
pub struct Load {
    pub c: u64,
    pub d: u64,
    pub t: u64,
}

// A server as its tasks make it: what each asks for, and the loss at each entry, by the largest cache cost among them.
#[derive(Clone, Debug)]
pub struct Server {
    pub cache: u64,
    pub loss: u64,
    pub loads: Vec<Load>,
}

impl Server {
    pub fn of(set: &Set, tasks: &[&Task]) -> Server {
        let cache = tasks.iter().map(|t| set.cache(t)).max().unwrap();
        let loads = tasks.iter().map(|t| Load { c: charged(set, t, cache), d: t.d - set.relj, t: t.t }).collect();
        Server { cache, loss: set.resd + cache, loads }
    }
}

fn charged(set: &Set, task: &Task, cache: u64) -> u64 {
    task.c + set.relo + 2 * set.ctswo + cache
}

pub fn gcd(a: u64, b: u64) -> u64 {
    let (mut a, mut b) = (a, b);
    while b != 0 {
        (a, b) = (b, a % b);
    }
    a
}

pub fn lcm(s: u64, periods: impl Iterator<Item = u64>) -> u128 {
    let mut h = s as u128;
    for t in periods {
        let g = gcd((h % t as u128) as u64, t);
        h = h / g as u128 * t as u128;
        if h > 1 << 100 {
            return h;
        }
    }
    h
}

pub fn supply(s: u64, l: u64, r: u64, t: u64) -> u64 {
    if r == s {
        return t;
    }
    let f = s - r + l;
    (t / s) * (s - f) + (t % s).saturating_sub(f)
}

// The report's Eq. 9: what the interrupts of one processor ask for.
fn interrupt_demand(own: &[Interrupt], t: u64) -> u64 {
    let jobs = |i: &Interrupt| ((t as i64 - (i.d as i64 - i.j as i64)).div_euclid(i.t as i64) + 1).max(0) as u64;
    own.iter().map(|i| jobs(i) * i.c).sum()
}

// What every server of a set stands on: the slot, B, and the interrupts of each processor from 1 to m.
#[derive(Clone, Debug)]
pub struct Board {
    pub s: u64,
    pub b: u64,
    pub processors: Vec<Vec<Interrupt>>,
}

impl Board {
    pub fn of(set: &Set) -> Board {
        let on = |p: u64| set.interrupts.iter().filter(|i| i.p == p).cloned().collect();
        Board { s: set.s, b: set.b(), processors: (1..=set.m).map(on).collect() }
    }

    // The report's Eq. 10.
    pub fn interrupt_load(&self, t: u64) -> u64 {
        self.processors.iter().map(|own| interrupt_demand(own, t)).max().unwrap_or(0)
    }

    // The loads' own, B ticks more from the smallest d up to, not including, the largest, and the interrupts'.
    pub fn demand(&self, server: &Server, t: u64) -> u64 {
        let loads = &server.loads;
        let own: u64 = loads.iter().map(|l| if t < l.d { 0 } else { l.c * ((t - l.d) / l.t + 1) }).sum();
        let waiting = loads.iter().any(|l| l.d <= t) && loads.iter().any(|l| t < l.d);
        own + if waiting { self.b } else { 0 } + self.interrupt_load(t)
    }

    pub fn supply(&self, server: &Server, r: u64, t: u64) -> u64 {
        supply(self.s, server.loss, r, t)
    }

    // The first deadline and the period of each load and of each interrupt.
    fn deadlines(&self, server: &Server) -> Vec<(u64, u64)> {
        let interrupts = self.processors.iter().flatten().map(|i| (i.d - i.j, i.t));
        server.loads.iter().map(|l| (l.d, l.t)).chain(interrupts).collect()
    }

    fn horizon(&self, deadlines: &[(u64, u64)]) -> u64 {
        lcm(self.s, deadlines.iter().map(|(_, t)| *t)) as u64
    }

    // The smallest failing length, by looking at every deadline up to the horizon.
    pub fn first_failing(&self, server: &Server, r: u64) -> Option<u64> {
        let deadlines = self.deadlines(server);
        let h = self.horizon(&deadlines);
        let mut worst: Option<u64> = None;
        for (first, period) in deadlines {
            let mut t = first;
            while t <= h && worst.map_or(true, |w| t < w) {
                if self.demand(server, t) > self.supply(server, r, t) {
                    worst = Some(t);
                }
                t += period;
            }
        }
        worst
    }

    // The smallest length with the least to spare, by looking at every deadline up to three horizons.
    pub fn closest(&self, server: &Server, r: u64) -> u64 {
        let deadlines = self.deadlines(server);
        let h = self.horizon(&deadlines);
        let all = deadlines.iter().flat_map(|(first, period)| (*first..=3 * h).step_by(*period as usize));
        let steps = all.filter(|t| self.demand(server, *t) > self.demand(server, *t - 1));
        steps.map(|t| (self.supply(server, r, t) - self.demand(server, t), t)).min().unwrap().1
    }

    // 1 for yes, 0 for no; the length that it is said of, the demand and the supply there.
    pub fn verdict(&self, server: &Server, r: u64) -> [u64; 4] {
        let (yes, t) = match self.first_failing(server, r) {
            None => (1, self.closest(server, r)),
            Some(t) => (0, t),
        };
        [yes, t, self.demand(server, t), self.supply(server, r, t)]
    }

    // The same by looking at every length up to three horizons: a step is where the demand is more than a tick before.
    pub fn verdict_walked(&self, server: &Server, r: u64) -> [u64; 4] {
        let h = self.horizon(&self.deadlines(server));
        let mut least: Option<[u64; 4]> = None;
        let mut before = 0;
        for t in 1..=3 * h {
            let (asked, given) = (self.demand(server, t), self.supply(server, r, t));
            if asked > given {
                return [0, t, asked, given];
            }
            if asked > before && least.map_or(true, |[_, _, w, v]| given - asked < v - w) {
                least = Some([1, t, asked, given]);
            }
            before = asked;
        }
        least.unwrap()
    }

    // Upwards from the least allowed reserve, one by one, until the server passes.
    pub fn smallest_reserve(&self, server: &Server) -> u64 {
        let mut reserve = server.loss + 1;
        while reserve < self.s && self.first_failing(server, reserve).is_some() {
            reserve += 1;
        }
        reserve.max(server.loss + 1).min(self.s)
    }
}

#[derive(Clone, Debug)]
pub struct Plan {
    pub whole: usize,
    pub r: usize,
    pub reserves: Vec<u64>,
    pub starts: Vec<u64>,
    pub members: Vec<Vec<usize>>,
    pub placed: Vec<usize>,
    pub ring: Vec<usize>,
    pub wholes: Vec<usize>,
    pub servers: Vec<Server>,
    pub board: Board,
}

impl Plan {
    // Does server q pass with R: the verdict, none where the server is not there or R is not allowed.
    pub fn pass(&self, q: u64, r: u64) -> Option<[u64; 4]> {
        let server = self.servers.get(q.checked_sub(1)? as usize)?;
        let allowed = r == self.board.s || (server.loss < r && r < self.board.s);
        allowed.then(|| self.board.verdict(server, r))
    }
}

// The places of the tasks in the order in which they are placed: a task's turn is how many tasks come before it. By falling or
// rising load C/T, both over one denominator; equal loads by the file.
pub fn turns(set: &Set) -> Vec<usize> {
    let before = |j: usize, i: usize| {
        let (first, second) = (&set.tasks[j], &set.tasks[i]);
        let (own, other) = (first.c as u128 * second.t as u128, second.c as u128 * first.t as u128);
        match set.packing() % 3 {
            0 => j < i,
            1 => own > other || (own == other && j < i),
            _ => own < other || (own == other && j < i),
        }
    };
    let all = 0..set.tasks.len();
    let turn: Vec<usize> = all.clone().map(|i| all.clone().filter(|j| before(*j, i)).count()).collect();
    all.map(|k| turn.iter().position(|own| *own == k).unwrap()).collect()
}

// What is left of a horizon when a server's tasks have run all through it, each charged as the server is.
pub fn room(server: &Server, h: u128) -> u128 {
    server.loads.iter().fold(h, |left, load| left - load.c as u128 * (h / load.t as u128))
}

// Of the candidates with their rooms, in number order: the first, the one with the least room, or the one with the most.
fn chosen(fit: u64, candidates: &[usize], rooms: &[u128]) -> Option<usize> {
    let sought = match fit {
        0 => rooms.first(),
        1 => rooms.iter().min(),
        _ => rooms.iter().max(),
    };
    let at = rooms.iter().position(|room| Some(room) == sought)?;
    Some(candidates[at])
}

pub fn plan(set: &Set) -> Result<Plan, Refusal> {
    if let Some(refusal) = figures(set) {
        return Err(refusal);
    }
    if let Some(i) = set.tasks.iter().position(|t| t.d < set.s) {
        return Err((7, i + 1));
    }
    let own = |t: &Task| charged(set, t, set.cache(t));
    if let Some(i) = set.tasks.iter().position(|t| set.relj >= t.d || own(t) > t.d - set.relj) {
        return Err((8, i + 1));
    }
    let h = lcm(set.s, set.tasks.iter().map(|t| t.t).chain(set.interrupts.iter().map(|i| i.t)));
    if h > 10_000_000 {
        return Err((9, 0));
    }
    let board = Board::of(set);
    let server = |held: &[usize]| Server::of(set, &held.iter().map(|i| &set.tasks[*i]).collect::<Vec<_>>());
    let passes = |held: &[usize]| board.first_failing(&server(held), set.s).is_none();
    if let Some(i) = (0..set.tasks.len()).position(|i| !passes(&[i])) {
        return Err((13, i + 1));
    }
    let mut members: Vec<Vec<usize>> = Vec::new();
    for i in turns(set) {
        let candidates: Vec<usize> = (0..members.len()).filter(|q| passes(&[&members[*q][..], &[i]].concat())).collect();
        let rooms: Vec<u128> = candidates.iter().map(|q| room(&server(&members[*q]), h)).collect();
        match chosen(set.packing() / 3, &candidates, &rooms) {
            Some(q) => members[q].push(i),
            None => members.push(vec![i]),
        }
    }
    members.iter_mut().for_each(|held| held.sort());
    let placed = (0..set.tasks.len()).map(|i| members.iter().position(|held| held.contains(&i)).unwrap() + 1).collect();
    let servers: Vec<Server> = members.iter().map(|held| server(held)).collect();
    let reserves: Vec<u64> = servers.iter().map(|server| board.smallest_reserve(server)).collect();
    let mut ring: Vec<usize> = Vec::new();
    let mut starts = Vec::new();
    let mut wholes = Vec::new();
    for (i, reserve) in reserves.iter().enumerate() {
        if *reserve == set.s {
            starts.push(0xFFFF_FFFF);
            wholes.push(i + 1);
        } else {
            starts.push(ring.len() as u64);
            ring.extend(std::iter::repeat(i + 1).take(*reserve as usize));
        }
    }
    while ring.len() % set.s as usize != 0 {
        ring.push(0);
    }
    let r = ring.len() / set.s as usize;
    let whole = wholes.len();
    if r + whole > set.m as usize {
        return Err((10, r + whole));
    }
    Ok(Plan { whole, r, reserves, starts, members, placed, ring, wholes, servers, board })
}

// The server and the ticks left, counted tick by tick.
pub fn who(set: &Set, plan: &Plan, p: usize, x: u64) -> Option<(usize, u64)> {
    if p < 1 || p > plan.r + plan.whole {
        return None;
    }
    if p > plan.r {
        return Some((plan.wholes[p - plan.r - 1], set.s - x % set.s));
    }
    let length = plan.ring.len();
    let at = ((x as u128 + (p as u128 - 1) * set.s as u128) % length as u128) as usize;
    let server = plan.ring[at];
    let left = plan.ring[at..].iter().take_while(|q| **q == server).count();
    Some((server, left as u64))
}

pub fn text(set: &Set, plan: &Plan) -> String {
    let idle = plan.ring.iter().filter(|q| **q == 0).count();
    let mut out = format!("11{:02X}{:02X}{:02X}{:06X}{:08X}\n", plan.whole, plan.r, plan.reserves.len(), set.s, idle);
    for (i, reserve) in plan.reserves.iter().enumerate() {
        out += &format!("12{:02X}{:06X}{:08X}{:02X}\n", i + 1, reserve, plan.starts[i], plan.members[i].len());
    }
    for (task, server) in set.tasks.iter().zip(&plan.placed) {
        out += &format!("13{:02X}{:02X}\n", task.id, server);
    }
    for p in 1..=plan.r {
        let (server, left) = who(set, plan, p, 0).unwrap();
        out += &format!("14{:02X}{:02X}{:06X}\n", p, server, left);
    }
    for (i, server) in plan.wholes.iter().enumerate() {
        out += &format!("14{:02X}{:02X}{:06X}\n", plan.r + i + 1, server, set.s);
    }
    out
}

// The switches of one turn: at every tick every ring processor is asked whom it runs now, and whom it ran a tick before.
pub fn switches(set: &Set, plan: &Plan) -> String {
    let turn = plan.ring.len() as u64;
    let runs = |p: u64, x: u64| plan.ring[((x + (p - 1) * set.s) % turn) as usize];
    let mut out = String::new();
    for x in 0..turn {
        for p in 1..=plan.r as u64 {
            if x == 0 || runs(p, x) != runs(p, x - 1) {
                out += &format!("21{:08X}{:02X}{:02X}\n", x, p, runs(p, x));
            }
        }
    }
    out
}

// From the bytes of a task file to its switch list, or the refusal.
pub fn switch_list(bytes: &[u8]) -> Result<String, Refusal> {
    let set = read(bytes)?;
    Ok(switches(&set, &plan(&set)?))
}

// From the bytes of a task file to the bytes that rota prints.
pub fn rota(bytes: &[u8]) -> String {
    match read(bytes).and_then(|set| plan(&set).map(|p| text(&set, &p))) {
        Ok(text) => text,
        Err((number, place)) => format!("1F{:02X}{:02X}\n", number, place),
    }
}

pub fn file(set: &Set) -> String {
    let mut out = format!(
        "01{:02X}{:06X}{:04X}{:04X}{:04X}{:04X}{:04X}\n",
        set.m, set.s, set.relj, set.relo, set.ctswo, set.resd, set.cpmdo
    );
    if let Some(b) = set.masked {
        out += &format!("05{:04X}\n", b);
    }
    if let Some(rule) = set.rule {
        out += &format!("06{:02X}\n", rule);
    }
    for t in &set.tasks {
        let figures = format!("{:02X}{:06X}{:06X}{:06X}", t.id, t.c, t.d, t.t);
        out += &t.cache.map_or(format!("02{}\n", figures), |cache| format!("03{}{:04X}\n", figures, cache));
    }
    for i in &set.interrupts {
        out += &format!("07{:02X}{:06X}{:06X}{:06X}{:04X}\n", i.p, i.c, i.d, i.t, i.j);
    }
    out
}

// A set that a caller hands in as numbers: its count, the seven figures of the header, whether there is a 05 line and its B, whether
// there is a 06 line and its rule, then id, C, D, T, whether there is a cache cost and the cost of 64 places, how many interrupts
// there are, and processor, C, D, T and J of 32 places.
// Row 11: a count that is not 1 to 64, or of interrupts above 32, an id that repeats, or a figure with more digits than its field.
pub fn handed(numbers: &[u64]) -> Result<Set, Refusal> {
    let (count, interrupts) = (numbers[0], numbers[396]);
    if !(1..=64).contains(&count) || interrupts > 32 {
        return Err((11, 0));
    }
    let digits = |values: &[u64], widths: &[usize]| values.iter().zip(widths).any(|(v, w)| format!("{:X}", v).len() > *w);
    let header = &numbers[1..8];
    let tasks: Vec<&[u64]> = numbers[12..396].chunks(6).take(count as usize).collect();
    let interrupts: Vec<&[u64]> = numbers[397..].chunks(5).take(interrupts as usize).collect();
    let ids: std::collections::HashSet<u64> = tasks.iter().map(|t| t[0]).collect();
    if ids.len() < tasks.len()
        || digits(header, &[2, 6, 4, 4, 4, 4, 4])
        || (numbers[10] != 0 && digits(&numbers[11..], &[2]))
        || tasks.iter().any(|t| digits(t, &[2, 6, 6, 6]))
        || interrupts.iter().any(|i| digits(i, &[2, 6, 6, 6, 4]))
    {
        return Err((11, 0));
    }
    Ok(Set {
        m: header[0],
        s: header[1],
        relj: header[2],
        relo: header[3],
        ctswo: header[4],
        resd: header[5],
        cpmdo: header[6],
        masked: if numbers[8] == 0 { None } else { Some(numbers[9]) },
        rule: if numbers[10] == 0 { None } else { Some(numbers[11]) },
        tasks: tasks.iter().map(|t| Task { id: t[0], c: t[1], d: t[2], t: t[3], cache: if t[4] == 0 { None } else { Some(t[5]) } }).collect(),
        interrupts: interrupts.iter().map(|i| Interrupt { p: i[0], c: i[1], d: i[2], t: i[3], j: i[4] }).collect(),
    })
}

// The text of a set that is handed in; row 11 also where row 5 or 6 is broken.
pub fn written(set: &Set) -> Result<String, Refusal> {
    match figures(set) {
        Some(_) => Err((11, 0)),
        None => Ok(file(set)),
    }
}

// A plan as numbers, every field in its order, in 64 places each; none in unused room.
pub fn numbers(set: &Set, plan: &Plan) -> Vec<Option<u64>> {
    let room = |values: &[u64], places: usize| -> Vec<Option<u64>> { (0..places).map(|i| values.get(i).copied()).collect() };
    let idle = plan.ring.iter().filter(|q| **q == 0).count() as u64;
    let mut out = room(&[plan.whole as u64, plan.r as u64, plan.reserves.len() as u64, set.s, idle], 5);
    for q in 0..64 {
        let held = match plan.members.get(q) {
            Some(held) => held,
            None => {
                out.extend(room(&[], 68));
                continue;
            }
        };
        let places: Vec<u64> = held.iter().map(|i| *i as u64).collect();
        let start = if plan.reserves[q] == set.s { 0 } else { plan.starts[q] };
        out.push(Some(held.len() as u64));
        out.extend(room(&places, 64));
        out.extend(room(&[plan.reserves[q], start, plan.servers[q].cache], 3));
    }
    let placed: Vec<u64> = plan.placed.iter().map(|q| *q as u64).collect();
    out.extend(room(&placed, 64));
    let first: Vec<u64> = (1..=plan.r + plan.whole)
        .map(|p| who(set, plan, p, 0).unwrap())
        .flat_map(|(server, left)| [server as u64, left])
        .collect();
    out.extend(room(&first, 128));
    out
}
