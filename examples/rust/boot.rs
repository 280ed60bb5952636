// Loads the switch list of a task file, as boot code does, and tells who runs on each ring processor at a tick that lies
// past the first turn. The task file comes on standard input.
use std::io::Read;

// The longest texts that `rack_plan` and `rack_switches` store.
const PLAN_BYTES: usize = 2647;
const SWITCHES_BYTES: usize = 63345;

const TICK: u64 = 1_000_026;

extern "C" {
    fn rack_plan(tasks: *const u8, tasks_len: usize, out: *mut u8, out_len: usize) -> usize;
    fn rack_switches(tasks: *const u8, tasks_len: usize, out: *mut u8, out_len: usize, answer: *mut u64, answer_len: usize) -> u64;
}

struct Switch {
    tick: u64,
    processor: u64,
    server: u64,
}

fn field(line: &[u8], at: usize, width: usize) -> u64 {
    let text = std::str::from_utf8(&line[at..at + width]).unwrap_or("");
    u64::from_str_radix(text, 16).unwrap_or(0)
}

// The list, or the number and the place of the refusal.
fn switches(tasks: &[u8]) -> Result<Vec<Switch>, (u64, u64)> {
    let mut out = vec![0; SWITCHES_BYTES];
    let mut length = 0;
    // Each pointer is good for the length beside it, and no two of them share memory.
    let status = unsafe { rack_switches(tasks.as_ptr(), tasks.len(), out.as_mut_ptr(), out.len(), &mut length, 1) };
    if status != 0 {
        return Err((status / 256, status % 256));
    }
    let switch = |line: &[u8]| Switch { tick: field(line, 2, 8), processor: field(line, 10, 2), server: field(line, 12, 2) };
    Ok(out[..length as usize].chunks(15).map(switch).collect())
}

// r and S, from the plan's 11 line.
fn ring_and_slot(tasks: &[u8]) -> (u64, u64) {
    let mut plan = vec![0; PLAN_BYTES];
    unsafe { rack_plan(tasks.as_ptr(), tasks.len(), plan.as_mut_ptr(), plan.len()) };
    (field(&plan, 4, 2), field(&plan, 8, 6))
}

fn main() -> std::io::Result<()> {
    let mut tasks = Vec::new();
    std::io::stdin().read_to_end(&mut tasks)?;
    let list = match switches(&tasks) {
        Ok(list) => list,
        Err((number, place)) => {
            println!("refusal {number} at {place}");
            std::process::exit(1);
        }
    };
    let (ring, slot) = ring_and_slot(&tasks);
    println!("{} switches in a turn of {} ticks", list.len(), ring * slot);
    for p in 1..=ring {
        // The processor's last line at or before this tick of the turn; 0 for idle.
        let last = list.iter().rev().find(|s| s.processor == p && s.tick <= TICK % (ring * slot));
        println!("processor {} at tick {}: server {}", p, TICK, last.map_or(0, |s| s.server));
    }
    Ok(())
}
