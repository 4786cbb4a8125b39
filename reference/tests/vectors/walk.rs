//! The committed files of calls, walked through command by command.

use reference::command::{Command, Lengths, Reader};
use reference::play::Player;
use reference::request::{read_record, record_length};
use reference::rules::judge_request;
use reference::{judge, run, Request, State, Tables};
use std::fs;

pub fn committed(name: &str) -> Vec<u8> {
    let folder = concat!(env!("CARGO_MANIFEST_DIR"), "/../crates/cases");
    fs::read(format!("{folder}/{name}")).unwrap()
}

/// The books of a file of calls.
pub fn books(calls: &[u8]) -> Vec<Vec<u8>> {
    let mut reader = Reader { left: calls };
    let mut found = Vec::new();
    while let Some(command) = reader.command() {
        if let Command::Load { book } = command {
            found.push(book);
        }
    }
    found
}

/// Shows every command with the player before it.
pub fn each_command(calls: &[u8], mut look: impl FnMut(&Player, &Command)) {
    let mut player = Player::new();
    let mut reader = Reader { left: calls };
    while let Some(command) = reader.command() {
        look(&player, &command);
        player.follow(&command);
    }
}

/// The front parts of the history buffer and of the level buffer that a command
/// names.
pub fn fronts<'a>(player: &'a Player, lent: &Lengths) -> (&'a [u8], &'a [u8]) {
    let history = usize::from(lent.history).min(player.history.len());
    let levels = usize::from(lent.levels).min(player.levels.len());
    (&player.history[..history], &player.levels[..levels])
}

/// Shows every request that is judged, by judge, put or run, with the tables
/// and what lies in the buffers before it.
pub fn each_judged(calls: &[u8], mut look: impl FnMut(&Tables, &State, &Request)) {
    each_command(calls, |player, command| {
        each_judged_in(player, command, &mut look);
    });
}

/// Shows the requests that one command judges, with the player before it.
pub fn each_judged_in(
    player: &Player,
    command: &Command,
    look: &mut impl FnMut(&Tables, &State, &Request),
) {
    match command {
        Command::Judge { lent, request } | Command::Put { lent, request } => {
            let (history, levels) = fronts(player, lent);
            // 10, 20, 11 and 12 come before any rule.
            if ![10, 20, 11, 12].contains(&judge(&player.tables, history, levels, request)) {
                let request = read_record(request).unwrap();
                look(&player.tables, &State::of(history, levels), &request);
            }
        }
        Command::Run {
            lent,
            answers,
            requests,
        } => {
            let (tables, (history, levels)) = (&player.tables, fronts(player, lent));
            let mut room = vec![0; usize::from(*answers).min(player.answers.len())];
            let (mut left, mut lowered) = (history.to_vec(), levels.to_vec());
            if run(tables, &mut left, &mut lowered, requests, &mut room).number == 0 {
                let state = State::of(history, levels);
                each_in_run(tables, state, requests, look);
            }
        }
        _ => {}
    }
}

/// Shows the requests of a run up to its end or an unreadable one.
pub fn each_in_run(
    tables: &Tables,
    mut state: State,
    requests: &[u8],
    look: &mut impl FnMut(&Tables, &State, &Request),
) {
    let mut left = requests;
    while let Some(request) = read_record(left) {
        look(tables, &state, &request);
        if judge_request(tables, &state, &request) == 0 {
            state.record(tables, &request);
        }
        left = &left[record_length(left[0]).unwrap()..];
    }
}
