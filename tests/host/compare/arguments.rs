//! How a comparison is called and ends: NAME [--seed N] [--scale K]. Its words, and exit code 1, where something
//! differs.

/// Seed and scale of the program's words.
fn read(name: &str, seed: u64) -> Result<(u64, u64), String> {
    let (mut seed, mut scale) = (seed, 1);
    let mut words = std::env::args().skip(1);
    while let Some(word) = words.next() {
        let value = words.next().and_then(|value| value.parse().ok());
        match (word.as_str(), value) {
            ("--seed", Some(value)) => seed = value,
            ("--scale", Some(value)) if value > 0 => scale = value,
            _ => return Err(format!("usage: {name} [--seed N] [--scale K]")),
        }
    }
    Ok((seed, scale))
}

/// Compares by seed, which is this one where no other is asked for, and scale.
pub fn run(name: &str, seed: u64, compare_all: fn(u64, u64) -> Result<(), String>) {
    let outcome = read(name, seed).and_then(|(seed, scale)| {
        compare_all(seed, scale).map_err(|text| format!("seed {seed}, scale {scale}, {text}"))
    });
    if let Err(text) = outcome {
        println!("{name}: {text}");
        std::process::exit(1);
    }
}
