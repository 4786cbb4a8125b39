//! What the program `answers` prints (section "The program `answers`").

use crate::book::{load, rest};
use crate::buffers::Buffers;
use crate::numbers::GRANTED;

pub const INPUT_BYTES: usize = 65_536;

/// The lines for a rulebook followed by requests.
pub fn answers(input: &[u8]) -> String {
    if input.len() > INPUT_BYTES {
        return "too long\n".to_string();
    }
    let loaded = load(input);
    if loaded.number != GRANTED {
        return format!("book {} at {}\n", loaded.number, loaded.offset);
    }
    let requests = rest(input);
    let mut buffers = Buffers::blank(&loaded.tables);
    // No request is shorter than a byte, so this many answers are enough.
    let mut numbers = vec![0; requests.len()];
    let ran = buffers.run(&loaded.tables, requests, &mut numbers);
    let mut lines = String::new();
    for (place, number) in numbers[..ran.granted + ran.refused].iter().enumerate() {
        lines.push_str(&format!("{} {}\n", place + 1, number));
    }
    lines.push_str(&format!(
        "granted {} refused {}\n",
        ran.granted, ran.refused
    ));
    lines
}
