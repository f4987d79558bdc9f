//! `oracle` answers requests line by line (see requests.rs); `oracle yard` reads the yard's
//! text from standard input and prints its drawing.

use std::io::{BufRead, Read, Write};

fn main() -> std::io::Result<()> {
    let arguments: Vec<String> = std::env::args().skip(1).collect();
    match arguments.iter().map(String::as_str).collect::<Vec<_>>()[..] {
        [] => oracle::with_stack(answer_lines),
        ["yard"] => oracle::with_stack(yard),
        _ => {
            eprintln!("usage: oracle [yard] < input");
            std::process::exit(2);
        }
    }
}

fn answer_lines() -> std::io::Result<()> {
    let mut out = std::io::stdout().lock();
    for line in std::io::stdin().lock().lines() {
        writeln!(out, "{}", oracle::requests::answer(&line?))?;
        out.flush()?;
    }
    Ok(())
}

fn yard() -> std::io::Result<()> {
    let mut text = Vec::new();
    std::io::stdin().lock().read_to_end(&mut text)?;
    std::io::stdout().write_all(oracle::yard::run(&text).as_bytes())
}
