//! Writes the file of calls and the text that a correct monitor prints for
//! it, checks such files against what it would write, or plays a file.

use reference::generator::{calls, SEED};
use reference::play::{play, Tally};
use std::process::ExitCode;
use std::{env, fs, io};

const USAGE: &str = "usage: vectors CALLS TEXT [SEED]
       vectors --check CALLS TEXT [SEED]
       vectors --play CALLS";

fn main() -> ExitCode {
    let words: Vec<String> = env::args().skip(1).collect();
    let words: Vec<&str> = words.iter().map(String::as_str).collect();
    let done = match words[..] {
        ["--play", file] => print_play(file),
        ["--check", file, text] => check(file, text, SEED),
        ["--check", file, text, seed] => match seed.parse() {
            Ok(seed) => check(file, text, seed),
            Err(_) => return usage(),
        },
        [file, text] if !file.starts_with("--") => write(file, text, SEED),
        [file, text, seed] if !file.starts_with("--") => match seed.parse() {
            Ok(seed) => write(file, text, seed),
            Err(_) => return usage(),
        },
        _ => return usage(),
    };
    match done {
        Ok(true) => ExitCode::SUCCESS,
        Ok(false) => ExitCode::from(1),
        Err(error) => {
            eprintln!("{error}");
            ExitCode::from(2)
        }
    }
}

fn usage() -> ExitCode {
    eprintln!("{USAGE}");
    ExitCode::from(2)
}

fn write(file: &str, text: &str, seed: u64) -> io::Result<bool> {
    let calls = calls(seed);
    let played = play(&calls);
    fs::write(file, &calls)?;
    fs::write(text, &played.text)?;
    println!("calls {} bytes", calls.len());
    println!("text {} bytes", played.text.len());
    print_tally(&played.tally);
    Ok(true)
}

fn print_tally(tally: &Tally) {
    let mut call_before = "";
    for ((call, number), count) in tally {
        if *call != call_before {
            println!("{call}");
            call_before = call;
        }
        println!("  number {number}: {count}");
    }
}

fn check(file: &str, text: &str, seed: u64) -> io::Result<bool> {
    let calls = calls(seed);
    let calls_equal = fs::read(file)? == calls;
    let text_equal = fs::read(text)? == play(&calls).text.as_bytes();
    if !calls_equal {
        eprintln!("{file} differs from what is written for this seed");
    }
    if !text_equal {
        eprintln!("{text} differs from what is written for this seed");
    }
    Ok(calls_equal && text_equal)
}

fn print_play(file: &str) -> io::Result<bool> {
    print!("{}", play(&fs::read(file)?).text);
    Ok(true)
}
