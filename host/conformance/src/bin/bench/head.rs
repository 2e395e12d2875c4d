//! On what, and by what, the figures were made.

use std::fs;
use std::process::Command;

use crate::row::ROUNDS;

pub fn print() {
    println!("# Benchmarks");
    println!();
    println!("- Processor: {}", processor());
    println!("- Library built by: {}", first_line("rt", "version"));
    println!("- Models built by: {}", first_line("rustc", "--version"));
    println!();
    println!(
        "The library, the models and the limit take turns in one run; each figure is the best of \
         {ROUNDS}. Buffers are not cleared between runs."
    );
}

/// The name that the system has for its first processor, and how many there are.
fn processor() -> String {
    let text = fs::read_to_string("/proc/cpuinfo").unwrap_or_default();
    let names: Vec<&str> = text
        .lines()
        .filter(|line| line.starts_with("model name"))
        .filter_map(|line| line.split_once(": "))
        .map(|(_, name)| name)
        .collect();
    match names[..] {
        [] => "not named in /proc/cpuinfo".into(),
        [name, ..] => format!("{name}, {} logical", names.len()),
    }
}

/// The first line that a program writes.
fn first_line(program: &str, argument: &str) -> String {
    let output = Command::new(program).arg(argument).output();
    let text = match output {
        Ok(output) if output.status.success() => output.stdout,
        _ => return format!("`{program} {argument}` cannot be run here"),
    };
    let text = String::from_utf8_lossy(&text);
    text.lines().next().unwrap_or_default().into()
}
