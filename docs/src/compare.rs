// Compares the programs with the brute-force one on many traces: compare BINARIES KEPT COUNT
// BINARIES is the folder with the programs, KEPT a folder for traces on which an answer differs.
use std::collections::BTreeMap;
use std::io::Write;
use std::process::Command;
use std::process::Stdio;

mod brute;
mod make;

// what a program prints, and its status
fn run(path: &str, bytes: &[u8]) -> (String, i32) {
    let mut child = Command::new(path).stdin(Stdio::piped()).stdout(Stdio::piped()).stderr(Stdio::null()).spawn().expect("the program starts");
    let mut input = child.stdin.take().unwrap();
    let bytes = bytes.to_vec();
    let writer = std::thread::spawn(move || {
        let _ = input.write_all(&bytes);
    });
    let out = child.wait_with_output().expect("the program ends");
    let _ = writer.join();
    (String::from_utf8_lossy(&out.stdout).to_string(), out.status.code().unwrap_or(-1))
}

// The input of a number: one that is too long, some at both sides of the most events that `monitors` takes, and traces by chance.
fn input(number: u64) -> Vec<u8> {
    match number {
        0 => vec![b'T'; brute::LONGEST + 1],
        1..=3 => make::long(number, 4_096),
        4..=6 => make::long(number, 4_097),
        _ => make::trace(number),
    }
}

fn main() {
    let args: Vec<String> = std::env::args().collect();
    let (binaries, kept, count) = match args.as_slice() {
        [_, b, k, n] => (b.clone(), k.clone(), n.parse::<u64>().expect("a number")),
        _ => {
            eprintln!("usage: compare BINARIES KEPT COUNT");
            std::process::exit(2);
        }
    };
    let programs: Vec<&str> = ["races", "monitors"].into_iter().filter(|p| std::path::Path::new(&format!("{binaries}/{p}")).exists()).collect();
    let (mut passed, mut failed) = (0u64, 0u64);
    for program in programs {
        let mut refusals: BTreeMap<u32, u64> = BTreeMap::new();
        let (mut with_findings, mut without) = (0u64, 0u64);
        for number in 0..count {
            let bytes = input(number);
            let want = brute::answer(program, &bytes);
            let status = if want.starts_with("refused") { 1 } else { 0 };
            if let Some(rest) = want.strip_prefix("refused ") {
                let n = rest.split(' ').next().unwrap().parse().unwrap();
                *refusals.entry(n).or_insert(0) += 1;
            } else if want.starts_with("found 0 ") {
                without += 1;
            } else {
                with_findings += 1;
            }
            if run(&format!("{binaries}/{program}"), &bytes) == (want, status) {
                passed += 1;
            } else {
                failed += 1;
                let file = format!("{kept}/{program}-{number}.trace");
                std::fs::write(&file, &bytes).expect("the trace is kept");
                println!("{program} differs on trace {number}, kept as {file}");
            }
        }
        let seen: Vec<String> = refusals.iter().map(|(n, k)| format!("{n}: {k}")).collect();
        println!("{program}: {with_findings} traces with findings, {without} without, refused by number {}", seen.join(", "));
    }
    println!("{passed} passed, {failed} failed");
    std::process::exit(if failed > 0 { 1 } else { 0 });
}
