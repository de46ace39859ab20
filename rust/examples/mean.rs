//! Plans a sheet and runs it: mean SHEET CYCLES ANGLE..
//!
//! The same program as examples/mean.c, and it prints the same; behind the words of a file's error Rust sets its number.
use gongperch::{clear, memory_words, plan, step, Cleared, Needed, Planned, Stepped};

fn word_of(degrees: &str) -> u32 {
    let degrees: f64 = degrees.parse().unwrap_or(0.0);
    (degrees / 360.0 * 4294967296.0) as i64 as u32
}

fn run(plan: &[u8], channels: &[u32], cycles: u32) -> Result<(), u32> {
    let words = match memory_words(plan) {
        Needed::Words(words) => words,
        refused => return Err(refused.number()),
    };
    let mut memory = vec![0; words];
    let cleared = clear(plan, &mut memory);
    if cleared != Cleared::Done {
        return Err(cleared.number());
    }
    let mut out = vec![0; usize::from(plan[3])];
    for t in 0..cycles {
        let stepped = step(plan, &mut memory, channels, &mut out);
        if stepped != Stepped::Done {
            return Err(stepped.number());
        }
        let words: Vec<String> = out.iter().map(u32::to_string).collect();
        println!("cycle {t}: {}", words.join(" "));
    }
    Ok(())
}

fn stop(why: &str) -> ! {
    eprintln!("{why}");
    std::process::exit(2);
}

fn main() {
    let args: Vec<String> = std::env::args().skip(1).collect();
    let (path, cycles, angles) = match args.as_slice() {
        [path, cycles, angles @ ..] => (path, cycles, angles),
        _ => stop("usage: mean SHEET CYCLES ANGLE.."),
    };
    let sheet = std::fs::read(path).unwrap_or_else(|why| stop(&format!("mean: {path}: {why}")));
    let mut channels = [0; gongperch::CHANNELS];
    for (channel, angle) in channels.iter_mut().zip(angles) {
        *channel = word_of(angle);
    }
    let mut buffer = [0; gongperch::PLAN_MAX];
    let refused = match plan(&sheet, &mut buffer) {
        Planned::Done(plan) => run(plan, &channels, cycles.parse().unwrap_or(0)).err().map(|number| number.to_string()),
        Planned::Unfoldable(wires) => {
            let numbers: Vec<String> = wires.numbers().map(|wire| wire.to_string()).collect();
            Some(format!("6 wires {}", numbers.join(" ")))
        }
        other => Some(other.number().to_string()),
    };
    if let Some(refusal) = refused {
        println!("refused {refusal}");
        std::process::exit(1);
    }
}
