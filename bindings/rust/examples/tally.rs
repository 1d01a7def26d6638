//! Reads a text from standard input and prints what a price list counts: `cargo run --release --example tally < ../../examples/two-voices.abc`. A program to start
//! from; `sindvaelo tally` (src/bin/sindvaelo) is the one to use.
use std::io::Read;

fn main() -> std::process::ExitCode {
    let mut text = Vec::new();
    std::io::stdin().lock().read_to_end(&mut text).expect("standard input");
    match sindvaelo::read(&text) {
        Ok(reading) => {
            println!("parts {}", reading.parts().len());
            for (i, part) in reading.parts().enumerate() {
                let rests = part.notes().filter(|note| note.is_rest()).count();
                let sounded = part.notes().len() - rests;
                println!("part {} measures {} sounded {sounded} rests {rests} syllables {}", i + 1, part.measures().len(), part.lyrics().len());
            }
            std::process::ExitCode::SUCCESS
        }
        Err(refusal) => {
            eprintln!("{refusal}");
            std::process::ExitCode::FAILURE
        }
    }
}
