//! The benchmark's smoke run: every line can be made, and both sides agree on it.

#[cfg(not(rust_source))]
#[test]
#[ignore = "skipped: the Rust source of ../shared is absent"]
fn quick_run_agrees() {}

#[cfg(rust_source)]
#[test]
fn quick_run_agrees() {
    let mut program = std::process::Command::new(env!("CARGO_BIN_EXE_benchmark"));
    let run = program.arg("--quick").output().unwrap();
    let errors = String::from_utf8_lossy(&run.stderr);
    assert!(run.status.success(), "{errors}");
    let printed = String::from_utf8_lossy(&run.stdout);
    assert!(printed.contains("lines agree"), "{printed}");
    assert!(printed.contains("lines of reports agree"), "{printed}");
}
