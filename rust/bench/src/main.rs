//! Measurements: the linked library (feature `ffi`) against the plain Rust, same input, same buffers, interleaved in one
//! run. Without the feature the plain Rust stands on both sides, which shows the noise.
//!
//! `rust/bench/run [--time] [--quick] [--best] [--callgrind] [PART..]` builds and runs it, under an emulator where the machine is
//! none of x86-64. Where something counts instructions (`count.c` in the emulator) they are what is measured, unless
//! `--time` is asked for; `--callgrind` counts them with valgrind. `--best`: the least time of each side, not the medians, for a machine
//! that others use. PART: only cases whose name holds one of these.

mod cases;
mod inputs;
mod measure;

use cases::{Case, cases};
use measure::{Counter, Figures, time};
use std::hint::black_box;
use std::process::Command;
use zarfolin_compare::face::{Face, Plain, measured};

fn main() {
    let args: Vec<String> = std::env::args().skip(1).collect();
    if args.first().is_some_and(|a| a == "--one") {
        one(&args[1], args[2] == "other");
        return;
    }
    if args.first().is_some_and(|a| a == "--files") {
        files(&args[1], args[2].parse().expect("how many megabytes"));
        return;
    }
    let asked = |what: &str| args.iter().any(|a| a == what);
    let counter = if asked("--time") || asked("--callgrind") { None } else { Counter::new() };
    let parts: Vec<&String> = args.iter().filter(|a| !a.starts_with("--")).collect();
    let other = measured();
    headline(other.name(), counter.is_some() || asked("--callgrind"));
    let mut worst = (0.0, String::new());
    for (name, make) in cases() {
        if !parts.is_empty() && !parts.iter().any(|p| name.contains(*p)) {
            continue;
        }
        let mut case = make();
        for face in [&other as &dyn Face, &Plain] {
            let number = (case.step)(face);
            assert_eq!(number, case.number, "{name}: {} answered {number}", face.name());
        }
        let (figures, digits) = match &counter {
            Some(counter) => (counter.count(&mut case, &other), 0),
            None if asked("--callgrind") => (callgrind(&name), 0),
            None => (time(&mut case, &other, asked("--quick"), asked("--best")), 1),
        };
        let Figures { ours, plain, ratio } = figures;
        let bytes = if case.bytes == 0 { "-".to_string() } else { case.bytes.to_string() };
        let speed = |figure: f64| speed(case.bytes as f64, figure, digits == 0);
        println!(
            "| {name:<50} | {bytes:>7} | {ours:>10.digits$} | {plain:>10.digits$} | {ratio:>6.2} | {:>8} | {:>8} |",
            speed(ours),
            speed(plain)
        );
        if ratio > worst.0 {
            worst = (ratio, name);
        }
    }
    println!("\nhighest ratio: {:.2} ({})", worst.0, worst.1);
}

/// Writes definitions and sound files of so many megabytes for `rust/bench/programs`: 5 rows in 27 bytes, 512 rows in 16 KiB.
fn files(folder: &str, megabytes: usize) {
    for (name, survey, length) in [("5", inputs::few_rows(), 27), ("512", inputs::many_rows(), 16_384)] {
        let data = inputs::flawed(&survey.table(), length, megabytes * 1_000_000 / (length + 2), inputs::Flaw::None);
        std::fs::write(format!("{folder}/{name}.sss"), survey.text()).unwrap();
        std::fs::write(format!("{folder}/{name}.asc"), data).unwrap();
    }
}

/// Instructions for a byte, or MB/s, of what a call goes through.
fn speed(bytes: f64, figure: f64, counted: bool) -> String {
    match (bytes == 0.0, counted) {
        (true, _) => "-".to_string(),
        (false, true) => format!("{:.1}", figure / bytes),
        (false, false) => format!("{:.0}", bytes / figure * 1000.0),
    }
}

fn headline(ours: &str, counted: bool) {
    println!("ours: {ours}    plain: {}", Plain.name());
    println!(
        "buffers: the same for both, warm; calls interleaved in one run, pair by pair; medians, the ratio's too (--best: the least)\n"
    );
    let (what, rate) = match counted {
        true => ("instructions of one call", "a byte"),
        false => ("ns of one call (the thread's time)", "MB/s"),
    };
    println!(
        "| {what:<50} | {:>7} | {:>10} | {:>10} | {:>6} | {rate:>8} | {:>8} |",
        "bytes", "ours", "plain", "ratio", "plain"
    );
    println!("|{:-<52}|{:->8}:|{:->11}:|{:->11}:|{:->7}:|{:->9}:|{:->9}:|", "", "", "", "", "", "", "");
}

/// One call of one case under valgrind, which collects only inside this function.
#[unsafe(no_mangle)]
#[inline(never)]
pub extern "C" fn zarfolin_bench_measured(case: *mut std::ffi::c_void, other_side: bool) -> u64 {
    // SAFETY: only `one` calls this, with a case of its own.
    let case = unsafe { &mut *case.cast::<Case>() };
    if other_side { (case.step)(&measured()) } else { (case.step)(&Plain) }
}

fn one(name: &str, other_side: bool) {
    let (_, make) = cases().into_iter().find(|(n, _)| n == name).expect("a case of this name");
    let mut case = make();
    // Once before, so that what is set up at the first call doesn't count.
    black_box(if other_side { (case.step)(&measured()) } else { (case.step)(&Plain) });
    black_box(zarfolin_bench_measured((&raw mut case).cast(), other_side));
}

/// Instructions of one call on each side, by callgrind.
fn callgrind(name: &str) -> Figures {
    let count = |side: &str| {
        let output = Command::new("valgrind")
            .args(["--tool=callgrind", "--callgrind-out-file=/dev/null", "--toggle-collect=zarfolin_bench_measured"])
            .arg(std::env::current_exe().unwrap())
            .args(["--one", name, side])
            .output()
            .expect("valgrind runs");
        let text = String::from_utf8_lossy(&output.stderr);
        assert!(output.status.success(), "valgrind failed: {text}");
        text.lines()
            .find_map(|line| line.split("Collected :").nth(1))
            .and_then(|n| n.trim().parse().ok())
            .unwrap_or_else(|| panic!("no count from callgrind: {text}"))
    };
    let (ours, plain): (f64, f64) = (count("other"), count("plain"));
    Figures { ours, plain, ratio: ours / plain }
}
