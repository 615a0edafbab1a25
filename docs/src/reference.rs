// Prints what `races` or `monitors` should print, by brute force: reference races < FILE
use std::io::Read;
use std::io::Write;

mod brute;

fn main() {
    let program = std::env::args().nth(1).unwrap_or_default();
    if program != "races" && program != "monitors" {
        eprintln!("usage: reference races|monitors < FILE");
        std::process::exit(2);
    }
    let mut bytes = Vec::new();
    std::io::stdin().read_to_end(&mut bytes).unwrap();
    let text = brute::answer(&program, &bytes);
    std::io::stdout().write_all(text.as_bytes()).unwrap();
    std::process::exit(if text.starts_with("refused") { 1 } else { 0 });
}
