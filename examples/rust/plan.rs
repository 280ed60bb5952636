// Reads a task file on standard input and prints its plan, who runs on processor 1 at tick 0, and whether
// server 1 passes with a whole slot.
use std::io::{Read, Write};

// The longest text that `rack_plan` stores.
const PLAN_BYTES: usize = 2647;

extern "C" {
    fn rack_plan(tasks: *const u8, tasks_len: usize, out: *mut u8, out_len: usize) -> usize;
    fn rack_who(tasks: *const u8, tasks_len: usize, processor: u64, tick: u64, answer: *mut u64, answer_len: usize) -> u64;
    fn rack_pass(tasks: *const u8, tasks_len: usize, server: u64, reserve: u64, answer: *mut u64, answer_len: usize) -> u64;
}

// A refusal: its number and its place.
struct Refusal(u64, u64);

fn refused(status: u64) -> Result<(), Refusal> {
    if status == 0 { Ok(()) } else { Err(Refusal(status / 256, status % 256)) }
}

fn plan(tasks: &[u8]) -> Vec<u8> {
    let mut out = vec![0; PLAN_BYTES];
    // Each pointer is good for the length beside it, and `out` is not part of `tasks`.
    let n = unsafe { rack_plan(tasks.as_ptr(), tasks.len(), out.as_mut_ptr(), out.len()) };
    out.truncate(n);
    out
}

fn who(tasks: &[u8], processor: u64, tick: u64) -> Result<[u64; 2], Refusal> {
    let mut answer = [0; 2];
    let status = unsafe { rack_who(tasks.as_ptr(), tasks.len(), processor, tick, answer.as_mut_ptr(), answer.len()) };
    refused(status)?;
    Ok(answer)
}

fn pass(tasks: &[u8], server: u64, reserve: u64) -> Result<[u64; 4], Refusal> {
    let mut answer = [0; 4];
    let status = unsafe { rack_pass(tasks.as_ptr(), tasks.len(), server, reserve, answer.as_mut_ptr(), answer.len()) };
    refused(status)?;
    Ok(answer)
}

// The slot is the field of six digits from the fifth digit of the header on.
fn slot_of(tasks: &[u8]) -> u64 {
    let digits = tasks.get(4..10).unwrap_or(&[]);
    let text = std::str::from_utf8(digits).unwrap_or("");
    u64::from_str_radix(text, 16).unwrap_or(0)
}

fn main() -> std::io::Result<()> {
    let mut tasks = Vec::new();
    std::io::stdin().read_to_end(&mut tasks)?;
    std::io::stdout().write_all(&plan(&tasks))?;
    match who(&tasks, 1, 0) {
        Ok([server, left]) => println!("processor 1 at tick 0: server {server}, {left} ticks left"),
        Err(Refusal(number, place)) => println!("who: refusal {number} at {place}"),
    }
    match pass(&tasks, 1, slot_of(&tasks)) {
        Ok([yes, length, demand, supply]) => {
            let how = if yes == 1 { "passes with its slot, closest" } else { "fails" };
            println!("server 1 {how} at length {length}: demand {demand}, supply {supply}");
        }
        Err(Refusal(number, place)) => println!("pass: refusal {number} at {place}"),
    }
    Ok(())
}
