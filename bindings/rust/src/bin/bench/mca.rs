//! What llvm-mca, which an engineer would otherwise reach for, takes for straight-line code of the same length.
use std::path::{Path, PathBuf};
use std::process::{Command, Stdio};
use std::time::Instant;

/// A single-issue core without reordering, the nearest to the strictly in-order one.
const CORE: &str = "rocket-rv64";

fn found() -> Option<PathBuf> {
    let names: Vec<String> = std::iter::once("llvm-mca".into()).chain((12..30).rev().map(|v| format!("llvm-mca-{v}"))).collect();
    let path = std::env::var_os("PATH")?;
    std::env::split_paths(&path).flat_map(|folder| names.iter().map(move |n| folder.join(n))).find(|p| p.is_file())
}

/// Kinds and registers by turns; all accesses hit, since llvm-mca knows no others.
fn code(n: usize) -> String {
    let register = |k: usize| 5 + k * 7 % 27;
    let line = |k: usize| {
        let (a, b, c) = (register(k), register(k + 3), register(k + 11));
        match k % 4 {
            0 => format!("add x{a}, x{b}, x{c}\n"),
            1 => format!("lw x{a}, 0(x{b})\n"),
            2 => format!("sw x{a}, 0(x{b})\n"),
            _ => format!("beq x{a}, x{b}, 8\n"),
        }
    };
    (0..n).map(line).collect()
}

/// The least time of ten runs, in nanoseconds.
fn run(program: &Path, n: usize) -> Option<f64> {
    let file = std::env::temp_dir().join(format!("sic-bench-{}-{n}.s", std::process::id()));
    std::fs::write(&file, code(n)).ok()?;
    let once = || {
        let began = Instant::now();
        let mut command = Command::new(program);
        command.args(["-march=riscv64", &format!("-mcpu={CORE}"), "-iterations=1", "-instruction-info=false", "-resource-pressure=false"]);
        let status = command.arg(&file).stdout(Stdio::null()).stderr(Stdio::null()).status().ok()?;
        status.success().then(|| began.elapsed().as_nanos() as f64)
    };
    let least = (0..10).map(|_| once()).try_fold(f64::MAX, |least, t| Some(least.min(t?)));
    let _ = std::fs::remove_file(&file);
    least
}

/// The time for n instructions less that for one, which is starting the program.
pub fn time(n: usize) -> Option<f64> {
    let program = found()?;
    Some(run(&program, n)? - run(&program, 1)?)
}
