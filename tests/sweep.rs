// The program `sweep`, run as from a shell, held to the independent account: lists of names, of files good, damaged and missing,
// handed over whole and in pieces. Its own arguments are the words that run the program.
// Each test prints its name; the last line counts them.
mod counted;
mod files;
mod oracle;
mod random;

use oracle::{Interrupt, Set, Task};
use random::Random;
use std::collections::HashMap;
use std::ffi::{OsStr, OsString};
use std::fs::{self, File, Permissions};
use std::io::{BufRead, BufReader, Write};
use std::os::unix::ffi::OsStrExt;
use std::os::unix::fs::{symlink, PermissionsExt};
use std::os::unix::io::{FromRawFd, IntoRawFd};
use std::os::unix::net::{UnixDatagram, UnixStream};
use std::os::unix::process::CommandExt;
use std::path::PathBuf;
use std::process::{Command, Output, Stdio};

// The numbers that a report counts under, and the most names that are read.
const NUMBERS: [u8; 12] = [0, 1, 2, 3, 4, 5, 6, 7, 8, 9, 10, 13];
const MOST: usize = 65_535;

// The names of a list: nothing after a last LF is no name.
fn names(list: &[u8]) -> Vec<&[u8]> {
    let mut names: Vec<&[u8]> = list.split(|b| *b == b'\n').collect();
    if names.last().unwrap().is_empty() {
        names.pop();
    }
    names.truncate(MOST);
    names
}

// What becomes of a file: none if it is accepted, else the number of its refusal.
fn answer(file: &[u8]) -> Option<u8> {
    oracle::read(file).and_then(|set| oracle::plan(&set)).err().map(|refusal| refusal.0)
}

fn words() -> Vec<OsString> {
    let words: Vec<OsString> = std::env::args_os().skip(1).collect();
    assert!(!words.is_empty(), "the words that run the program are missing");
    words
}

// A folder of a test's own, in which the program runs, and what its names come to. Any other name is counted under 0.
struct Folder {
    path: PathBuf,
    list: PathBuf,
    answers: HashMap<Vec<u8>, Option<u8>>,
}

impl Folder {
    fn new(name: &str) -> Folder {
        let path = std::env::temp_dir().join(format!("sweep-{}-{}", std::process::id(), name));
        fs::create_dir(&path).unwrap();
        fs::set_permissions(&path, Permissions::from_mode(0o755)).unwrap();
        Folder { list: path.with_extension("list"), path, answers: HashMap::new() }
    }

    // One with a file `good.tasks` that has a plan, and for each number but 0 a file that meets it, `1.tasks` and so on.
    fn of_each(name: &str) -> Folder {
        let mut folder = Folder::new(name);
        folder.put("good.tasks", oracle::file(&two_tasks()).as_bytes());
        assert_eq!(folder.answers[&b"good.tasks"[..]], None);
        for (number, file) in refused() {
            let name = format!("{}.tasks", number);
            folder.put(&name, file.as_bytes());
            assert_eq!(folder.answers[name.as_bytes()], Some(number));
        }
        folder
    }

    fn at(&self, name: impl AsRef<[u8]>) -> PathBuf {
        self.path.join(OsStr::from_bytes(name.as_ref()))
    }

    fn put(&mut self, name: impl AsRef<[u8]>, file: &[u8]) {
        fs::write(self.at(&name), file).unwrap();
        fs::set_permissions(self.at(&name), Permissions::from_mode(0o644)).unwrap();
        self.answers.insert(name.as_ref().to_vec(), answer(file));
    }

    // Another name of a file that is there.
    fn also(&mut self, other: impl AsRef<[u8]>, name: &str) {
        let answer = self.answers[name.as_bytes()];
        self.answers.insert(other.as_ref().to_vec(), answer);
    }

    // The report that is due.
    fn report(&self, list: &[u8]) -> String {
        let mut counts: HashMap<Option<u8>, u32> = HashMap::new();
        for name in names(list) {
            *counts.entry(*self.answers.get(name).unwrap_or(&Some(0))).or_insert(0) += 1;
        }
        let mut text = format!("40{:08X}\n", counts.remove(&None).unwrap_or(0));
        for number in NUMBERS {
            text += &format!("41{:02X}{:08X}\n", number, counts.remove(&Some(number)).unwrap_or(0));
        }
        assert!(counts.is_empty() && text.len() == 167);
        text
    }

    // The program, in the folder; what it prints and what it says are kept.
    fn command(&self, arguments: &[&str]) -> Command {
        self.through("exec \"$@\"", arguments)
    }

    // The same, started by a line of shell.
    fn through(&self, line: &str, arguments: &[&str]) -> Command {
        let mut command = Command::new("sh");
        command.args(&["-c", line, "sh"]).args(words()).args(arguments).current_dir(&self.path);
        command.stdin(Stdio::null()).stdout(Stdio::piped()).stderr(Stdio::piped());
        command
    }

    // A list from a file.
    fn listed(&self, list: &[u8], mut command: Command) -> Output {
        fs::write(&self.list, list).unwrap();
        command.stdin(File::open(&self.list).unwrap()).output().unwrap()
    }

    // A list through a pipe, written in pieces; a writer that is ahead fills the reads.
    fn piped(&self, list: &[u8], mut size: impl FnMut() -> usize) -> Output {
        let mut child = self.command(&[]).stdin(Stdio::piped()).spawn().unwrap();
        let mut pipe = child.stdin.take().unwrap();
        for piece in pieces(list, &mut size) {
            if pipe.write_all(piece).is_err() {
                break;
            }
        }
        drop(pipe);
        child.wait_with_output().unwrap()
    }

    // A list in messages, each of which is one read; an empty one is the end.
    fn read_by(&self, list: &[u8], mut size: impl FnMut() -> usize) -> Output {
        let (ours, theirs) = UnixDatagram::pair().unwrap();
        let theirs = unsafe { Stdio::from_raw_fd(theirs.into_raw_fd()) };
        let child = self.command(&[]).stdin(theirs).spawn().unwrap();
        for piece in pieces(list, &mut size).into_iter().chain([&b""[..]]) {
            if ours.send(piece).is_err() {
                break;
            }
        }
        child.wait_with_output().unwrap()
    }

    // The report is the one that is due, and nothing else is said.
    fn holds(&self, list: &[u8], ran: Output) {
        let shown = String::from_utf8_lossy(&list[..list.len().min(2_000)]);
        assert_eq!(String::from_utf8_lossy(&ran.stderr), "", "on standard error, for a list that begins with\n{}", shown);
        assert_eq!(String::from_utf8_lossy(&ran.stdout), self.report(list), "for a list that begins with\n{}", shown);
        assert!(ran.status.success(), "{} for a list that begins with\n{}", ran.status, shown);
    }

    fn same(&self, list: impl AsRef<[u8]>) {
        self.holds(list.as_ref(), self.listed(list.as_ref(), self.command(&[])));
    }
}

impl Drop for Folder {
    fn drop(&mut self) {
        fs::remove_dir_all(&self.path).ok();
        fs::remove_file(&self.list).ok();
    }
}

fn pieces<'a>(list: &'a [u8], size: &mut impl FnMut() -> usize) -> Vec<&'a [u8]> {
    let (mut pieces, mut rest) = (vec![], list);
    while !rest.is_empty() {
        let (piece, after) = rest.split_at(size().min(rest.len()));
        pieces.push(piece);
        rest = after;
    }
    pieces
}

fn two_tasks() -> Set {
    let tasks = vec![Task { id: 1, c: 6, d: 10, t: 10, cache: None }, Task { id: 2, c: 6, d: 10, t: 10, cache: None }];
    Set { m: 2, s: 10, tasks, ..Set::default() }
}

// For each number but 0 a file that meets it.
fn refused() -> Vec<(u8, String)> {
    let file = |change: fn(&mut Set)| {
        let mut set = two_tasks();
        change(&mut set);
        oracle::file(&set)
    };
    vec![
        (1, file(|_| ()).replace("0A\n", "0a\n")),
        (2, file(|_| ()).split_off(31)),
        (3, file(|set| set.tasks.clear())),
        (4, file(|set| set.tasks[1].id = 1)),
        (5, file(|set| set.s = 0)),
        (6, file(|set| set.tasks[1].c = 0)),
        (7, file(|set| set.s = 11)),
        (8, file(|set| set.relj = 5)),
        (9, file(|set| set.tasks.iter_mut().zip([999_983, 999_979]).for_each(|(task, t)| task.t = t))),
        (10, file(|set| set.m = 1)),
        (13, file(|set| set.interrupts = vec![Interrupt { p: 1, c: 5, d: 10, t: 10, j: 0 }])),
    ]
}

// A path of so many bytes, 12 at least, to `good.tasks`.
fn long_path(bytes: usize) -> String {
    format!(".{}good.tasks", "/".repeat(bytes - 11))
}

fn no_names() {
    let folder = Folder::of_each("none");
    folder.same("");
    folder.holds(b"", folder.piped(b"", || 1));
}

fn empty_names() {
    let folder = Folder::of_each("empty");
    for list in ["\n", "\n\n", "\n\n\n\n\n\n\n", "\ngood.tasks", "good.tasks\n\n", "\n\ngood.tasks\n\n1.tasks\n"] {
        folder.same(list);
    }
    folder.same("\n".repeat(5_000));
}

fn last_names() {
    let folder = Folder::of_each("last");
    for list in ["good.tasks", "2.tasks\ngood.tasks", "good.tasks\n2.tasks", "good.tasks\nnone", "x"] {
        folder.same(list);
        folder.same(format!("{}\n", list));
        folder.holds(list.as_bytes(), folder.piped(list.as_bytes(), || 7));
    }
}

// Alone, and all in one list, each another number of times.
fn each_number() {
    let folder = Folder::of_each("each");
    folder.same("good.tasks\n");
    let mut all = "good.tasks\n".repeat(300);
    for (times, number) in NUMBERS.iter().enumerate() {
        folder.same(format!("{}.tasks\n", number));
        all += &format!("{}.tasks\n", number).repeat(times + 1);
    }
    folder.same(all);
}

// What is not there, or can't be read, or is no name for a file. One with a NUL would be `good.tasks` up to there.
fn not_opened() {
    let mut folder = Folder::of_each("not");
    fs::create_dir(folder.at("folder")).unwrap();
    symlink("nowhere", folder.at("dangling")).unwrap();
    symlink("round", folder.at("round")).unwrap();
    let shut = ["none", "folder", "folder/", ".", "..", "/", "good.tasks/", "good.tasks/x", "dangling", "round", "none/x", "/proc/self/mem"];
    let odd = ["\0", "good.tasks\0", "good.tasks\0x", "\0good.tasks", "good.tasks ", " good.tasks", "good.tasks\r", "Good.tasks", "good", "~", "*"];
    for name in shut.iter().chain(&odd) {
        assert_eq!(folder.answers.get(name.as_bytes()), None);
        folder.same(format!("{}\ngood.tasks\n{}", name, name));
    }
    folder.put("empty", b"");
    folder.put("*", b"\n");
    folder.same([&shut[..], &odd[..], &["empty", "*"]].concat().join("\n"));
}

// A path is UTF-8 text, as the programs have it: a file of another name is there, and counts as one that can't be opened.
fn no_text() {
    let mut folder = Folder::of_each("text");
    let good = oracle::file(&two_tasks()).into_bytes();
    for name in [&b"\xFF\x80"[..], b"\xE4", b"good.tasks\xC3", b"\x80good.tasks", b"\xC0\xAF", b"\xED\xA0\x80", b"\xF4\x90\x80\x80"] {
        folder.put(name, &good);
        folder.answers.remove(name);
        folder.same([name, &b"\ngood.tasks\n"[..], name].concat());
    }
}

// Any other bytes in a name, a path that begins at the root, links, and what is no plain file but can be read.
fn opened() {
    let mut folder = Folder::of_each("opened");
    let good = oracle::file(&two_tasks()).into_bytes();
    let plain = [&b"a b"[..], b" ", b"-", b"--progress", b"\r", b"\t", b"a\\nb", b"'\"", b"$HOME", b"#", "\u{e4}".as_bytes(), b"x"];
    for name in plain {
        folder.put(name, &good);
    }
    symlink("good.tasks", folder.at("link")).unwrap();
    folder.also("link", "good.tasks");
    folder.also("./good.tasks", "good.tasks");
    folder.also(format!("..//{}/good.tasks", folder.path.file_name().unwrap().to_str().unwrap()), "good.tasks");
    folder.also(folder.at("good.tasks").as_os_str().as_bytes().to_vec(), "good.tasks");
    folder.answers.insert(b"/dev/null".to_vec(), answer(b""));
    folder.answers.insert(b"/dev/zero".to_vec(), answer(&[0; 10_000]));
    let all: Vec<Vec<u8>> = folder.answers.keys().cloned().collect();
    for name in &all {
        folder.same(name);
    }
    folder.same(all.join(&b'\n'));
}

// Who may read everything runs the program as nobody, where nobody can run it and reach the folder.
fn unreadable_file() {
    let mut folder = Folder::of_each("unreadable");
    folder.put("shut.tasks", oracle::file(&two_tasks()).as_bytes());
    fs::set_permissions(folder.at("shut.tasks"), Permissions::from_mode(0)).unwrap();
    folder.answers.remove(&b"shut.tasks"[..]);
    let all = fs::read(folder.at("shut.tasks")).is_ok();
    let command = || {
        let mut command = folder.command(&[]);
        if all {
            command.uid(65_534).gid(65_534);
        }
        command
    };
    if all && folder.listed(b"good.tasks", command()).stdout != folder.report(b"good.tasks").as_bytes() {
        println!("sweep, a file that may not be read: skipped, as nobody can't run the program here");
        return;
    }
    let list = b"shut.tasks\ngood.tasks\n1.tasks\nshut.tasks";
    folder.holds(list, folder.listed(list, command()));
}

// Up to 255 bytes a name is opened. A longer one is not, whatever its first or its last 255 bytes name; the name behind it is.
fn long_names() {
    let mut folder = Folder::of_each("long");
    let mut paths = vec![];
    for bytes in [12, 100, 253, 254, 255] {
        folder.also(long_path(bytes), "good.tasks");
        paths.push(long_path(bytes));
    }
    paths.extend([256, 257, 300, 510, 511, 512, 513, 1_000, 4_000, 4_095, 4_096, 4_097, 10_000].map(long_path));
    paths.extend(["x", "/", " ", "\0", &"x".repeat(256), &"x".repeat(5_000)].map(|more| long_path(255) + more));
    paths.extend([".", "/", "x", &"x".repeat(256), &"x".repeat(5_000)].map(|more| more.to_string() + &long_path(255)));
    paths.push("good.tasks".to_string() + &"x".repeat(256));
    paths.push("good.tasks".to_string() + &"x".repeat(65_536));
    for name in &paths {
        folder.same(format!("{}\ngood.tasks\n", name));
        folder.same(format!("2.tasks\n{}", name));
    }
    folder.same(paths.join("\n"));
    folder.same("x".repeat(1_000_000));
}

// Files longer than what is read of them: the answer is the whole file's. The longest that counts has a header at its end.
fn long_files() {
    let mut folder = Folder::new("files");
    let of = |tasks: u64, interrupts: usize, cache: Option<u64>| {
        let tasks = (0..tasks).map(|i| Task { id: i % 256, c: 1, d: 100, t: 100, cache }).collect();
        let interrupts = vec![Interrupt { p: 1, c: 1, d: 100, t: 100, j: 0 }; interrupts];
        oracle::file(&Set { m: 64, s: 10, masked: Some(0), tasks, interrupts, ..Set::default() }).into_bytes()
    };
    for (tasks, interrupts) in [(64, 0), (64, 32), (64, 33), (65, 0), (176, 0), (177, 0), (178, 0), (1_000, 0), (1, 32), (1, 200)] {
        folder.put(format!("{}-{}", tasks, interrupts), &of(tasks, interrupts, None));
    }
    for (tasks, interrupts) in [(64, 0), (64, 32), (64, 33), (65, 0), (150, 0), (151, 0), (152, 0), (1_000, 0)] {
        folder.put(format!("cost-{}-{}", tasks, interrupts), &of(tasks, interrupts, Some(1)));
    }
    let most = of(64, 32, Some(0));
    for more in [&b"x"[..], b"\n", &most[..30], &most[..31], &most, &[0; 4_000], &[b'\n'; 100_000], &[b'0'; 3_000]] {
        folder.put(format!("more-{}", more.len()), &[&most, more].concat());
    }
    for bytes in [4_095, 4_096, 4_097, 8_192, 1_000_000] {
        folder.put(format!("zero-{}", bytes), &vec![0; bytes]);
        folder.put(format!("line-{}", bytes), &vec![b'\n'; bytes]);
    }
    let answers = ["64-32", "cost-64-32", "cost-64-33", "more-30", "more-31", "1-200"].map(|name| folder.answers[name.as_bytes()]);
    assert_eq!(answers, [None, None, Some(3), Some(1), Some(2), Some(3)]);
    for name in folder.answers.keys() {
        folder.same(name);
    }
}

// Names that no file has, of so many bytes together.
fn filled(bytes: usize) -> String {
    let lines = bytes / 100 - 1;
    format!("{}\n", "m".repeat(99)).repeat(lines) + &"m".repeat(bytes - lines * 100 - 1) + "\n"
}

// Names over the end of a read of 4,096 bytes: each begins so many bytes before it. One that is too long in its place.
fn names_over_reads() {
    let mut folder = Folder::of_each("over");
    folder.also(long_path(255), "good.tasks");
    let short = (0..=12).map(|before| (before, "good.tasks".to_string()));
    for (before, name) in short.chain([1, 2, 3, 128, 253, 254, 255, 256, 257].map(|before| (before, long_path(255)))) {
        let list = |name: &str| filled(4_096 - before) + name + "\n1.tasks\n";
        folder.same(list(&name));
        folder.same(list(&(long_path(255) + "x")));
    }
}

// A name comes in pieces of any size.
fn lists_in_pieces() {
    let mut folder = Folder::of_each("pieces");
    folder.also(long_path(255), "good.tasks");
    let list = ["good.tasks", "1.tasks", "", "none", "13.tasks", "good.tasks\0", "", &long_path(255), &long_path(256), "10.tasks"].join("\n");
    for more in ["", "\n", "\n\n", "\nx"] {
        let list = (list.clone() + more).into_bytes();
        for bytes in [1, 2, 3, 5, 11, 100, 255, 256, 257] {
            folder.holds(&list, folder.read_by(&list, || bytes));
        }
        folder.holds(&list, folder.piped(&list, || 1));
    }
    let mut random = Random(71);
    let list = (list + "\n").repeat(20).into_bytes();
    for most in [2, 20, 60, 300, 1_000] {
        folder.holds(&list, folder.read_by(&list, || random.within(1, most) as usize));
        folder.holds(&list, folder.piped(&list, || random.within(1, most) as usize));
    }
}

// A folder of files by chance: good ones, some with 03, 05, 06 or 07 lines, and damaged ones.
fn by_chance(random: &mut Random) -> Folder {
    let mut folder = Folder::of_each("chance");
    for i in 0..240 {
        let set = [files::good, files::masked, files::interrupted, files::cached, files::packed][i % 5](random);
        let mut file = oracle::file(&set).into_bytes();
        match i % 7 {
            0 => files::damaged(random, &mut file),
            1 => files::masked_anywhere(random, &mut file),
            2 => files::interrupts_anywhere(random, &mut file),
            3 => files::caches_anywhere(random, &mut file),
            4 => files::rules_anywhere(random, &mut file),
            _ => (),
        }
        folder.put(format!("{}", i), &file);
    }
    (12..=255).for_each(|bytes| folder.also(long_path(bytes), "good.tasks"));
    folder
}

fn random_lists() {
    let mut random = Random(72);
    let folder = by_chance(&mut random);
    let mut known: Vec<&Vec<u8>> = folder.answers.keys().filter(|name| name.len() < 12).collect();
    known.sort();
    let refused = known.iter().filter(|name| folder.answers[**name].is_some()).count();
    assert!(refused > 40 && known.len() - refused > 40, "{} of {} files refused", refused, known.len());
    for round in 0..24 {
        let mut list = vec![];
        for _ in 0..random.within(1, 800) {
            match random.next() % 12 {
                0 => list.extend((0..random.within(0, 300)).map(|_| b"./x\0\xFF"[random.within(0, 4) as usize])),
                1 => list.extend(long_path(random.within(12, 270) as usize).into_bytes()),
                _ => list.extend(known[random.within(0, known.len() as u64 - 1) as usize]),
            }
            list.push(b'\n');
        }
        list.truncate(list.len() - (random.next() % 2) as usize);
        let most = random.one(&[10, 100, 1_000]);
        match round % 3 {
            0 => folder.same(&list),
            1 => folder.holds(&list, folder.piped(&list, || random.within(1, most) as usize)),
            _ => folder.holds(&list, folder.read_by(&list, || random.within(1, most) as usize)),
        }
    }
}

// 65,535 names are counted, the last with its LF or without.
fn most_names() {
    let folder = Folder::of_each("most");
    folder.same("good.tasks\n".repeat(MOST));
    folder.same("missing\n".repeat(MOST - 1));
    folder.same("missing\n".repeat(MOST - 1) + "good.tasks\n");
    folder.same("missing\n".repeat(MOST - 1) + "good.tasks");
    folder.same("\n".repeat(MOST));
}

// Later names are not counted: they would change the report. In one list the last that counts ends a read of 4,096 bytes.
fn later_names() {
    let folder = Folder::of_each("later");
    let most = "1.tasks\n".repeat(MOST);
    for more in ["good.tasks", "good.tasks\n", "\n", "2.tasks\ngood.tasks\n"] {
        folder.same(most.clone() + more);
    }
    let ending = "none/none/none/\n".to_string() + &"1.tasks\n".repeat(MOST - 1);
    assert_eq!(ending.len() % 4_096, 0);
    folder.same(ending + "good.tasks\ngood.tasks\n");
    let mixed: String = (0..MOST).map(|i| format!("{}.tasks\n", NUMBERS[i % 12])).collect();
    folder.same(mixed + &"good.tasks\n".repeat(70_000 - MOST));
    folder.same("\n".repeat(70_000));
}

// To open a queue to which nobody writes takes for ever: a later name is not opened. Nor does the list have to end.
fn later_not_opened() {
    let folder = Folder::of_each("queue");
    assert!(Command::new("mkfifo").arg(folder.at("queue")).status().unwrap().success());
    let most = "missing\n".repeat(MOST);
    folder.same(most.clone() + "queue\n");
    folder.same(most.clone() + "queue");
    let mut child = folder.command(&[]).stdin(Stdio::piped()).spawn().unwrap();
    let mut pipe = child.stdin.take().unwrap();
    pipe.write_all(most.as_bytes()).ok();
    let mut said = String::new();
    BufReader::new(child.stdout.as_mut().unwrap()).read_line(&mut said).unwrap();
    assert_eq!(said, "4000000000\n", "before the list has ended");
    while pipe.write_all(b"good.tasks\n").is_ok() {}
    assert!(child.wait().unwrap().success());
}

// A file is closed again, whatever became of it.
fn few_descriptors() {
    let folder = Folder::of_each("few");
    fs::create_dir(folder.at("folder")).unwrap();
    let list = "good.tasks\nfolder\n1.tasks\nnone\n10.tasks\n13.tasks\n\n".repeat(100).into_bytes();
    folder.holds(&list, folder.listed(&list, folder.through("ulimit -n 32; exec \"$@\"", &[])));
}

// The N of each line `sweep: N names read`.
fn progress_lines(said: &[u8]) -> Vec<usize> {
    let said = std::str::from_utf8(said).unwrap();
    assert!(said.is_empty() || said.ends_with('\n'), "a line without its end: {}", said);
    let number = |line: &str| {
        let digits = line.strip_prefix("sweep: ").and_then(|rest| rest.strip_suffix(" names read"));
        digits.filter(|d| d.bytes().all(|b| b.is_ascii_digit()) && !d.starts_with('0')).and_then(|d| d.parse().ok())
    };
    said.lines().map(|line| number(line).unwrap_or_else(|| panic!("no line of progress: {}", line))).collect()
}

// A line for each thousand, with as many names as have been read then; the report is the same, and without the word nothing is said.
fn progress() {
    let folder = Folder::of_each("progress");
    for count in [0, 1, 999, 1_000, 1_001, 1_999, 2_000, 2_999, 3_000, 12_345, MOST, 70_000] {
        let list = "missing\n".repeat(count).into_bytes();
        let ran = folder.listed(&list, folder.command(&["--progress"]));
        let told = progress_lines(&ran.stderr);
        let read = count.min(MOST);
        assert_eq!(told.len(), read / 1_000, "{} names: {:?}", count, told);
        assert!(told.iter().enumerate().all(|(i, n)| n / 1_000 == i + 1 && *n <= read), "{} names: {:?}", count, told);
        folder.holds(&list, Output { stderr: vec![], ..ran });
        folder.same(&list);
    }
    // A read of empty names has several thousands.
    let list = "\n".repeat(20_000).into_bytes();
    let ran = folder.listed(&list, folder.command(&["--progress"]));
    let told = progress_lines(&ran.stderr);
    let within = told.iter().all(|n| (1_000..=20_000).contains(n));
    assert!((5..=20).contains(&told.len()) && within && told.windows(2).all(|two| two[0] < two[1]), "{:?}", told);
    folder.holds(&list, Output { stderr: vec![], ..ran });
}

// Progress is seen while the list still comes.
fn live_progress() {
    let folder = Folder::of_each("live");
    let mut child = folder.command(&["--progress"]).stdin(Stdio::piped()).spawn().unwrap();
    let mut pipe = child.stdin.take().unwrap();
    let mut said = BufReader::new(child.stderr.take().unwrap());
    for thousand in 1..=3 {
        pipe.write_all("missing\n".repeat(1_000).as_bytes()).unwrap();
        let mut line = vec![];
        said.read_until(b'\n', &mut line).unwrap();
        assert_eq!(progress_lines(&line), [thousand * 1_000]);
    }
    drop(pipe);
    let ran = child.wait_with_output().unwrap();
    folder.holds("missing\n".repeat(3_000).as_bytes(), ran);
}

// Nothing is printed, and a line says why.
fn complains(ran: Output, of: &str, word: &str) {
    let said = String::from_utf8_lossy(&ran.stderr);
    assert_eq!(String::from_utf8_lossy(&ran.stdout), "", "{}", of);
    assert!(said.ends_with('\n') && said.lines().count() == 1 && said.contains(word), "{}: {:?} on standard error", of, said);
}

fn wrong_arguments() {
    let folder = Folder::of_each("wrong");
    let wrong = [&[""][..], &["x"], &["-"], &["--"], &["-p"], &["--progres"], &["--progress "], &["--progressx"], &["--Progress"], &["progress"]];
    let several = [&["--progress", "--progress"][..], &["--progress", "x"], &["x", "--progress"], &["--progress", ""], &["a", "b", "c"]];
    for arguments in wrong.iter().chain(&several) {
        let ran = folder.listed(b"good.tasks\n", folder.command(arguments));
        complains(ran, &format!("arguments {:?}", arguments), "usage");
    }
}

fn unread_list() {
    let folder = Folder::of_each("unread");
    for (of, line) in [("a directory", "exec \"$@\" </"), ("closed", "exec \"$@\" <&-"), ("not to be read", "exec \"$@\" 0>/dev/null")] {
        for arguments in [&[][..], &["--progress"]] {
            complains(folder.through(line, arguments).output().unwrap(), &format!("standard input, {}", of), "standard input");
        }
    }
}

// Names come, and then a read that fails: who closes a connection with bytes unread breaks it off. Where the last name that counts
// has come, there is no such read.
fn broken_list() {
    let folder = Folder::of_each("broken");
    let (fewer, most) = ("\n".repeat(MOST - 1), "\n".repeat(MOST));
    for (list, whole) in [("good.tasks\n1.tasks\n", false), ("good.tasks", false), ("", false), (&fewer, false), (&most, true)] {
        let (mut ours, mut theirs) = UnixStream::pair().unwrap();
        theirs.write_all(b"unread").unwrap();
        ours.write_all(list.as_bytes()).unwrap();
        drop(ours);
        let theirs = unsafe { Stdio::from_raw_fd(theirs.into_raw_fd()) };
        let ran = folder.command(&[]).stdin(theirs).output().unwrap();
        if whole {
            folder.holds(list.as_bytes(), ran);
        } else {
            complains(ran, &format!("{} bytes of a list", list.len()), "standard input");
        }
    }
}

fn unwritten_report() {
    let folder = Folder::of_each("unwritten");
    for (of, line) in [("full", "exec \"$@\" >/dev/full"), ("not to be written", "exec \"$@\" 1</dev/null")] {
        let ran = folder.listed(b"good.tasks\n1.tasks\n", folder.through(line, &[]));
        complains(ran, &format!("standard output, {}", of), "standard output");
    }
}

fn main() {
    counted::run(&[
        ("sweep, an empty list", no_names),
        ("sweep, empty names", empty_names),
        ("sweep, a last name with its LF and without", last_names),
        ("sweep, each number", each_number),
        ("sweep, names that are not opened or not read", not_opened),
        ("sweep, names that are no text", no_text),
        ("sweep, names that are opened", opened),
        ("sweep, a file that may not be read", unreadable_file),
        ("sweep, names of 255 bytes and more", long_names),
        ("sweep, files longer than what is read of them", long_files),
        ("sweep, names over the end of a read", names_over_reads),
        ("sweep, lists in pieces", lists_in_pieces),
        ("sweep, random lists", random_lists),
        ("sweep, 65,535 names", most_names),
        ("sweep, names after the 65,535th", later_names),
        ("sweep, names after the 65,535th are not opened", later_not_opened),
        ("sweep, few descriptors", few_descriptors),
        ("sweep, progress", progress),
        ("sweep, progress while the list comes", live_progress),
        ("sweep, wrong arguments", wrong_arguments),
        ("sweep, a list that can't be read", unread_list),
        ("sweep, a list that breaks off", broken_list),
        ("sweep, a report that can't be written", unwritten_report),
    ]);
}
