//! Feeds a script to quayrun line by line and times each answer. Prints the longest and the middle time of a step of one
//! unit, and beside them the middle time of every other line: the way through two pipes, which a step takes too.
//! usage: longest QUAYRUN SCRIPT

use std::io::{BufRead, BufReader, Write};
use std::process::{Command, Stdio};
use std::time::{Duration, Instant};

fn middle(times: &mut [Duration]) -> Duration {
    times.sort();
    times.get(times.len() / 2).copied().unwrap_or_default()
}

fn main() -> std::io::Result<()> {
    let arguments: Vec<String> = std::env::args().collect();
    let script = std::fs::read(&arguments[2])?;
    let mut child = Command::new(&arguments[1]).stdin(Stdio::piped()).stdout(Stdio::piped()).spawn()?;
    let mut input = child.stdin.take().expect("standard input is piped");
    let mut output = BufReader::new(child.stdout.take().expect("standard output is piped"));
    let (mut units, mut others) = (Vec::new(), Vec::new());
    let mut answer = Vec::new();
    for line in script.split_inclusive(|byte| *byte == b'\n') {
        answer.clear();
        let start = Instant::now();
        input.write_all(line)?;
        output.read_until(b'\n', &mut answer)?;
        let time = start.elapsed();
        if line == b"G\t1\n" && answer.starts_with(b"G\tok") {
            units.push(time);
        } else {
            others.push(time);
        }
    }
    drop(input);
    child.wait()?;
    let longest = units.iter().max().copied().unwrap_or_default();
    println!(
        "{} steps of one unit: longest {} us, middle {} us; other lines: middle {} us",
        units.len(),
        longest.as_micros(),
        middle(&mut units).as_micros(),
        middle(&mut others).as_micros()
    );
    Ok(())
}
