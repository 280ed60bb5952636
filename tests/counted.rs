// Runs tests one after the other. Each prints its name and how it ended; the last line counts them.
pub fn run(tests: &[(&str, fn())]) -> ! {
    let mut failed = 0;
    for (name, test) in tests {
        let ok = std::panic::catch_unwind(test).is_ok();
        failed += !ok as usize;
        println!("{}: {}", name, if ok { "ok" } else { "FAILED" });
    }
    println!("{} passed, {} failed", tests.len() - failed, failed);
    std::process::exit((failed > 0) as i32)
}
