// Sweeping: the program `sweep` against plain Rust that reads each file of the list whole and plans it with the same library, each a
// process of its own, on the same list in turn. Prints the best time of each, and the most memory that each had resident.
// Without arguments this is the plain program. To time both, its arguments are the words that run `sweep`, then --, then those
// that run the plain program.
mod bench_files;
mod random;

use random::Random;
use std::ffi::OsStr;
use std::fs::{self, File};
use std::io::{BufRead, Write};
use std::os::unix::ffi::OsStrExt;
use std::path::{Path, PathBuf};
use std::process::{Command, Stdio};
use std::time::{Duration, Instant};

extern "C" {
    fn rack_plan(tasks: *const u8, tasks_len: usize, out: *mut u8, out_len: usize) -> usize;
}

// The number of a file's refusal, none for a plan.
fn refusal(file: &[u8]) -> Option<usize> {
    let mut out = [0u8; 2647];
    let n = unsafe { rack_plan(file.as_ptr(), file.len(), out.as_mut_ptr(), out.len()) };
    let digit = |b: u8| if b <= b'9' { b - b'0' } else { b - b'A' + 10 } as usize;
    if out[..n].starts_with(b"1F") {
        Some(digit(out[2]) * 16 + digit(out[3]))
    } else {
        None
    }
}

// Prints the same report.
fn plain() {
    let (mut accepted, mut refused) = (0, [0; 14]);
    for name in std::io::stdin().lock().split(b'\n') {
        match fs::read(OsStr::from_bytes(&name.unwrap())).map(|file| refusal(&file)) {
            Ok(None) => accepted += 1,
            Ok(Some(number)) => refused[number] += 1,
            Err(_) => refused[0] += 1,
        }
    }
    println!("40{:08X}", accepted);
    for number in (0..=10).chain([13]) {
        println!("41{:02X}{:08X}", number, refused[number]);
    }
}

// Task files of 1 to 64 tasks in the folder for temporary files, and a list of their names. A thousand kinds are enough, as each
// file is read anew.
fn listed(count: usize) -> PathBuf {
    let mut random = Random(0x2545_F491_4F6C_DD1D);
    let path = std::env::temp_dir();
    let kind = |_| {
        let (h, slot) = [(10_080, 14), (100_800, 144), (997_920, 144), (9_979_200, 1440)][random.within(0, 3) as usize];
        let n = random.within(1, 64);
        bench_files::file(&mut random, n, h, slot, 30)
    };
    let kinds: Vec<Vec<u8>> = (0..1_000).map(kind).collect();
    let list = path.join("list");
    let mut names = std::io::BufWriter::new(File::create(&list).unwrap());
    for i in 0..count {
        let name = format!("rack-{:05}.tasks", i);
        fs::write(path.join(&name), &kinds[i % kinds.len()]).unwrap();
        writeln!(names, "{}", name).unwrap();
    }
    names.flush().unwrap();
    list
}

// A list with the first names of another.
fn first(list: &Path, count: usize) -> PathBuf {
    let shorter = list.with_extension(count.to_string());
    let names: Vec<String> = fs::read_to_string(list).unwrap().lines().take(count).map(|name| name.to_string() + "\n").collect();
    fs::write(&shorter, names.concat()).unwrap();
    shorter
}

// A process's peak of resident memory so far, in KiB.
fn peak(process: u32) -> Option<u64> {
    let status = fs::read_to_string(format!("/proc/{}/status", process)).ok()?;
    status.lines().find_map(|line| line.strip_prefix("VmHWM:"))?.trim().strip_suffix(" kB")?.parse().ok()
}

// Seconds, KiB and the report of one run.
fn run(words: &[String], list: &Path) -> (f64, u64, String) {
    let mut command = Command::new(&words[0]);
    command.args(&words[1..]).current_dir(list.parent().unwrap()).stdin(File::open(list).unwrap()).stdout(Stdio::piped());
    let start = Instant::now();
    let mut child = command.spawn().unwrap();
    let mut most = 0;
    while child.try_wait().unwrap().is_none() {
        most = peak(child.id()).unwrap_or(most);
        std::thread::sleep(Duration::from_millis(2));
    }
    let seconds = start.elapsed().as_secs_f64();
    let report = child.wait_with_output().unwrap().stdout;
    (seconds, most, String::from_utf8(report).unwrap())
}

fn row(list: &Path, count: usize, times: usize, sweep: &[String], plain: &[String]) {
    let (mut ours, mut theirs, mut our_peak, mut their_peak) = (f64::MAX, f64::MAX, 0, 0);
    for _ in 0..times {
        let (swept, read) = (run(sweep, list), run(plain, list));
        assert_eq!(swept.2, read.2, "the two report differently");
        (ours, our_peak) = (swept.0.min(ours), swept.1.max(our_peak));
        (theirs, their_peak) = (read.0.min(theirs), read.1.max(their_peak));
    }
    println!("{:>8} {:>10.2} {:>10.2} {:>8.2} {:>12} {:>12}", count, ours, theirs, ours / theirs, our_peak, their_peak);
}

fn main() {
    let words: Vec<String> = std::env::args().skip(1).collect();
    if words.is_empty() {
        return plain();
    }
    let middle = words.iter().position(|word| word == "--").expect("-- between the two programs");
    let (sweep, plain) = (&words[..middle], &words[middle + 1..]);
    let list = listed(65_535);
    println!("\n{:>8} {:>10} {:>10} {:>8} {:>12} {:>12}", "names", "sweep s", "plain s", "ratio", "sweep KiB", "plain KiB");
    row(&first(&list, 6_553), 6_553, 5, sweep, plain);
    row(&list, 65_535, 3, sweep, plain);
}
