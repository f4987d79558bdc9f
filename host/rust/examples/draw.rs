//! Draws a yard with the proved library, as the program `yard` does: forms from standard input, the drawing to standard
//! output, `(refused N)` and status 1 where it is refused. Cargo.toml has the command. `yard` draws in fine detail, so the
//! threshold is passed here.
use std::io::{self, Read};
use std::process::ExitCode;
use yard_core::{FINE, MOST_POINTS, forms};

fn main() -> io::Result<ExitCode> {
    let mut text = Vec::new();
    io::stdin().read_to_end(&mut text)?;
    let read = forms::read(&String::from_utf8_lossy(&text));
    match read.and_then(|(view, scene)| scene.draw_with(&view, FINE, MOST_POINTS)) {
        Ok(drawing) => print!("{}", forms::write(&drawing)),
        Err(refused) => {
            println!("({refused})");
            return Ok(ExitCode::FAILURE);
        }
    }
    Ok(ExitCode::SUCCESS)
}
