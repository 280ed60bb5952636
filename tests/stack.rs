// The deepest stack of each function named, by a disassembly of an object, an archive or a linked program: `objdump -d -r
// --no-show-raw-insn` on standard input; as arguments the functions outside that may be called, parted by commas, then the names. Every way through every function is
// followed, and every call. Refused: a function that calls itself, directly or through others; an indirect call; a change of
// the stack pointer that is not a push, a pop, an addition or a subtraction of a constant; any other call outside. An indirect
// jump with room taken is one through a table of the function's own places, at that depth; without, it could be a call, but for
// one to the sum of a table's address and an entry.
// A figure is in bytes, from the function's return address on down. What a function outside takes is not in it, except its
// own return address.
use std::collections::HashMap;
use std::io::Read;

const WORD: u64 = 8;

struct Step {
    at: u64,
    name: String,
    operands: Vec<String>,
    symbol: Option<String>,
    place: Option<String>,
}

// How far down a function goes itself, and what it calls: how far down it is at that moment, and whom.
struct Frame {
    reach: u64,
    calls: Vec<(u64, String)>,
}

fn operands(text: &str) -> Vec<String> {
    let (mut all, mut one, mut depth) = (Vec::new(), String::new(), 0);
    for c in text.split(['#', '<']).next().unwrap().chars().filter(|c| !c.is_whitespace()) {
        match c {
            ',' if depth == 0 => all.push(std::mem::take(&mut one)),
            _ => {
                depth += (c == '(') as i32 - (c == ')') as i32;
                one.push(c);
            }
        }
    }
    if !one.is_empty() {
        all.push(one);
    }
    all
}

fn step(at: u64, text: &str) -> Step {
    let mut words = text.trim().splitn(2, char::is_whitespace);
    let name = words.next().unwrap().to_string();
    let rest = words.next().unwrap_or("").trim();
    if ["bnd", "notrack", "rep", "repz", "repnz", "lock", "data16", "cs"].contains(&name.as_str()) {
        return step(at, rest);
    }
    let place = rest.split_once('<').and_then(|(_, place)| place.trim_end().strip_suffix('>')).map(str::to_string);
    Step { at, name, operands: operands(rest), symbol: None, place }
}

fn hex(text: &str) -> Option<u64> {
    u64::from_str_radix(text.strip_prefix("0x").unwrap_or(text), 16).ok()
}

// A relocation names the function, or the section that has it alone, and the four bytes from the operand to the next step.
fn callee(symbol: &str) -> Result<String, String> {
    let name = symbol.strip_suffix("-0x4").ok_or(format!("a call into the middle of {}", symbol))?;
    Ok(name.strip_prefix(".text.unlikely.").or(name.strip_prefix(".text.")).unwrap_or(name).to_string())
}

// In a linked program there is no relocation: the disassembly names the function that begins at the address.
fn linked_callee(name: &str, step: &Step) -> Option<String> {
    let place = step.place.as_deref().filter(|place| *place != name && !place.contains("+0x"))?;
    Some(place.strip_suffix("@plt").unwrap_or(place).to_string())
}

fn functions(listing: &str) -> Result<HashMap<String, Vec<Step>>, String> {
    let mut all: HashMap<String, Vec<Step>> = HashMap::new();
    let mut current = String::new();
    for line in listing.lines() {
        if let Some(name) = line.split_once(" <").and_then(|(_, rest)| rest.strip_suffix(">:")) {
            current = name.to_string();
            if all.insert(current.clone(), Vec::new()).is_some() {
                return Err(format!("two functions are called {}", current));
            }
        } else if let Some((left, text)) = line.trim_start().split_once(':') {
            if let (Some(at), Some(steps)) = (hex(left), all.get_mut(&current)) {
                match text.trim().strip_prefix("R_X86_64_") {
                    Some(place) => steps.last_mut().unwrap().symbol = place.split_whitespace().nth(1).map(str::to_string),
                    None => steps.push(step(at, text)),
                }
            }
        }
    }
    Ok(all)
}

fn constant(operand: &str) -> Option<u64> {
    hex(operand.strip_prefix('$')?)
}

// How far below the stack pointer a step reads or writes.
fn below(step: &Step) -> u64 {
    let far = |o: &String| o.strip_prefix('-').and_then(|o| o.split_once("(%rsp")).and_then(|(n, _)| hex(n));
    step.operands.iter().filter_map(far).max().unwrap_or(0)
}

// Where a call or jump leads: to another function by a relocation or its name, to an address of its own, or wherever a register says.
enum Target {
    Function(String),
    Address(u64),
    Indirect,
}

fn target(name: &str, step: &Step) -> Result<Target, String> {
    let to = step.operands.first().ok_or("a jump to nowhere")?;
    match (&step.symbol, linked_callee(name, step)) {
        _ if to.starts_with('*') => Ok(Target::Indirect),
        (Some(symbol), _) => callee(symbol).map(Target::Function),
        (None, Some(callee)) => Ok(Target::Function(callee)),
        (None, None) => hex(to).map(Target::Address).ok_or(format!("a jump to {}", to)),
    }
}

fn ends(step: &Step) -> bool {
    ["ret", "jmp", "ud2", "hlt", "int3"].contains(&step.name.trim_end_matches('q'))
}

// The first step, not yet reached, that a table may lead to: one right behind an end.
fn by_table(steps: &[Step], depths: &[Option<u64>]) -> Option<usize> {
    let behind = |i: &usize| ends(&steps[i - 1]) && depths[*i].is_none() && steps[*i..].iter().any(|s| !s.name.starts_with("nop") && s.name != "xchg");
    (1..steps.len()).find(behind)
}

// A large frame is taken in a loop, a page at most at a time, down to a place reckoned before it: how much the loop takes in all.
fn probed(steps: &[Step]) -> Option<u64> {
    let text: Vec<String> = steps.get(..6)?.iter().map(|s| format!("{} {}", s.name, s.operands.join(","))).collect();
    let taken = |text: &str, register: &str| text.strip_prefix("sub ")?.strip_suffix(register).and_then(constant);
    let (whole, each) = (taken(&text[1], ",%r11")?, taken(&text[2], ",%rsp")?);
    let again = format!("jne {:x}", steps[2].at);
    let loops = ["mov %rsp,%r11", &text[1], &text[2], "movq $0x0,(%rsp)", "cmp %r11,%rsp", &again];
    (text == loops && whole > 0 && 0 < each && each <= 0x1000 && whole % each == 0).then_some(whole)
}

// Whether the last of these steps jumps to the sum of a table's address and what was read from it.
fn jumps_by_entry(steps: &[Step]) -> bool {
    let [.., read, sum, jump] = steps else { return false };
    let to = jump.operands.first().and_then(|o| o.strip_prefix('*'));
    read.name == "movslq" && sum.name == "add" && to.is_some() && [read, sum].iter().all(|s| s.operands.last().map(String::as_str) == to)
}

// What a step does: how far down the next one stands, if it goes on; whom it calls, and from how far down; where else it leads.
struct Effect {
    after: Option<u64>,
    call: Option<(u64, String)>,
    leads: Option<u64>,
    table: bool,
}

// Other changes of the stack pointer than those that are followed.
fn moves_otherwise(step: &Step) -> bool {
    let is = |names: &[&str], o: &String| names.contains(&o.as_str());
    step.operands.last().map_or(false, |o| is(&["%rsp"], o))
        || step.operands.iter().any(|o| is(&["%esp", "%sp", "%spl"], o) || step.name.starts_with('x') && is(&["%rsp"], o))
        || ["leave", "enter", "pushf", "popf"].contains(&step.name.trim_end_matches('q'))
}

fn effect(name: &str, entry: u64, steps: &[Step], depth: u64) -> Result<Effect, String> {
    let step = steps.last().unwrap();
    let mut does = Effect { after: Some(depth), call: None, leads: None, table: false };
    let of_rsp = step.operands.last().map(String::as_str) == Some("%rsp");
    let room = || constant(&step.operands[0]).ok_or("takes or gives back room that is not constant");
    match step.name.trim_end_matches('q') {
        "push" => does.after = Some(depth + WORD),
        "pop" if !of_rsp => does.after = depth.checked_sub(WORD),
        "sub" if of_rsp => does.after = Some(depth + room()?),
        "add" if of_rsp => does.after = Some(depth.checked_sub(room()?).ok_or("gives back more than it took")?),
        "ret" if depth != WORD => return Err(format!("returns from depth {}", depth)),
        "call" => match target(name, step)? {
            Target::Function(callee) => does.call = Some((depth, callee)),
            Target::Address(at) if at == entry => does.call = Some((depth, name.to_string())),
            Target::Address(_) => return Err(format!("a call into its middle at {:x}", step.at)),
            Target::Indirect => return Err("calls indirectly".to_string()),
        },
        jump if jump.starts_with('j') => match target(name, step)? {
            Target::Function(callee) => does.call = Some((depth - WORD, callee)),
            Target::Address(at) => does.leads = Some(at),
            Target::Indirect if depth > WORD || jumps_by_entry(steps) => does.table = true,
            Target::Indirect => return Err("jumps indirectly, which may be a call".to_string()),
        },
        _ if moves_otherwise(step) => return Err(format!("{} of the stack pointer at {:x}", step.name, step.at)),
        _ => {}
    }
    if ends(step) {
        does.after = None;
    }
    Ok(does)
}

fn frame(name: &str, steps: &[Step]) -> Result<Frame, String> {
    let index: HashMap<u64, usize> = steps.iter().enumerate().map(|(i, s)| (s.at, i)).collect();
    let mut depths: Vec<Option<u64>> = vec![None; steps.len()];
    let mut found = Frame { reach: WORD, calls: Vec::new() };
    let mut open = vec![(0, WORD)];
    let mut table = None;
    while let Some((i, depth)) = open.pop().or_else(|| Some((by_table(steps, &depths)?, table?))) {
        let step = steps.get(i).ok_or("runs past its end")?;
        match depths[i] {
            Some(before) if before == depth => continue,
            Some(_) => return Err(format!("two depths at {:x}", step.at)),
            None => depths[i] = Some(depth),
        }
        if let Some(room) = probed(&steps[i..]) {
            open.push((i + 6, depth + room));
            continue;
        }
        let does = effect(name, steps[0].at, &steps[..=i], depth)?;
        found.reach = found.reach.max(depth + below(step)).max(does.after.unwrap_or(0));
        found.calls.extend(does.call);
        open.extend(does.after.map(|after| (i + 1, after)));
        if let Some(at) = does.leads {
            open.push((*index.get(&at).ok_or("jumps out of itself")?, depth));
        }
        if does.table && *table.get_or_insert(depth) != depth {
            return Err(format!("tables at two depths, at {:x}", step.at));
        }
    }
    Ok(found)
}

// The deepest stack of a function. `above` are the calls that led to it, `known` the figures that are found.
fn deepest(
    name: &str,
    all: &HashMap<String, Vec<Step>>,
    above: &mut Vec<String>,
    known: &mut HashMap<String, u64>,
) -> Result<u64, String> {
    if let Some(bytes) = known.get(name) {
        return Ok(*bytes);
    }
    if above.iter().any(|f| f == name) {
        return Err(format!("{} calls itself: {}", name, above.join(" > ")));
    }
    let steps = all.get(name).ok_or(format!("{} is called, and is outside", name))?;
    let own = frame(name, steps).map_err(|why| format!("{}: {}", name, why))?;
    above.push(name.to_string());
    let mut bytes = own.reach;
    for (depth, callee) in &own.calls {
        bytes = bytes.max(depth + deepest(callee, all, above, known)?);
    }
    above.pop();
    known.insert(name.to_string(), bytes);
    Ok(bytes)
}

fn figures(listing: &str, outside: &str, names: &[String]) -> Result<Vec<u64>, String> {
    let all = functions(listing)?;
    let mut known = outside.split(',').map(|name| (name.to_string(), WORD)).collect();
    names.iter().map(|name| deepest(name, &all, &mut Vec::new(), &mut known)).collect()
}

fn main() {
    let mut listing = String::new();
    std::io::stdin().read_to_string(&mut listing).unwrap();
    let arguments: Vec<String> = std::env::args().skip(1).collect();
    match figures(&listing, &arguments[0], &arguments[1..]) {
        Ok(all) => all.iter().zip(&arguments[1..]).for_each(|(bytes, name)| println!("{} {}", name, bytes)),
        Err(why) => {
            println!("{}", why);
            std::process::exit(1);
        }
    }
}
