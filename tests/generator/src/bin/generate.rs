//! `generate SEED COUNT`: runs a batch of images with the reference and
//! prints what it reached.

use generator::{made, Reached, LIMIT};

/// The number given as an argument.
fn number(argument: Option<String>) -> Option<u64> {
    argument?.parse().ok()
}

fn main() -> std::process::ExitCode {
    let mut arguments = std::env::args().skip(1);
    let (Some(seed), Some(count)) = (number(arguments.next()), number(arguments.next())) else {
        eprintln!("usage: generate SEED COUNT");
        return std::process::ExitCode::from(2);
    };
    let mut reached = Reached::default();
    let mut memory = vec![0; reference::MEMORY_WORDS];
    for index in 0..count {
        let image = made(seed, index);
        reached.dead_gates.add(&image);
        // Refusals are counted in the report.
        let _ = reached.observe(&image.bytes, &mut memory, LIMIT);
    }
    print!("{reached}");
    std::process::ExitCode::SUCCESS
}
