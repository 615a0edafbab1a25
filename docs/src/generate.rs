// Writes the trace of a number to standard output: generate 17 > FILE
use std::io::Write;

mod make;

fn main() {
    let Some(number) = std::env::args().nth(1).and_then(|n| n.parse().ok()) else {
        eprintln!("usage: generate NUMBER > FILE");
        std::process::exit(2);
    };
    std::io::stdout().write_all(&make::trace(number)).unwrap();
}
