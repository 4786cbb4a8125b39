//! The four rules (section "Four rules", and of the later requests Point 1 for
//! public folders, Point 2 for steps that alter, Point 4 for levels held ready
//! and Point 5 for the two numbers of low-water) and what they look at. Each rule
//! is asked about a request whose parties are declared.

use crate::history::{counted, History};
use crate::level::{Compared, Level};
use crate::numbers::*;
use crate::places::lies_in;
use crate::request::Request;
use crate::state::State;
use crate::tables::{Tables, LOW_WATER_RULE, PIPELINE_RULE, ROLES_RULE, STEPS, WALL_RULE};
use std::collections::BTreeSet;

/// The checks 13 to 17, in this order, with 21 in the place of 15; a rule not in
/// force refuses nothing.
pub fn judge_request(tables: &Tables, state: &State, request: &Request) -> u8 {
    let history = &state.history;
    if !request.parties_declared(tables) || !request.step_in_range() {
        return UNDECLARED;
    }
    if tables.in_force(WALL_RULE) && !wall_grants(tables, history, request) {
        return WALL;
    }
    if tables.in_force(LOW_WATER_RULE) {
        match low_water(tables, state, request) {
            Compared::AtMost => {}
            Compared::RankTooLow => return LOW_WATER_RANK,
            Compared::CompartmentMissing => return LOW_WATER_COMPARTMENT,
        }
    }
    if tables.in_force(ROLES_RULE) && !roles_grant(tables, history, request) {
        return ROLES;
    }
    if tables.in_force(PIPELINE_RULE) && !pipeline_grants(tables, history, request) {
        return PIPELINE;
    }
    GRANTED
}

/// The folders that a person accessed.
fn folders_accessed(tables: &Tables, history: &History, person: u8) -> BTreeSet<u8> {
    let mut folders = BTreeSet::new();
    for request in counted(tables, history) {
        if request.person() == person {
            if let Some(folder) = request.folder_accessed() {
                folders.insert(folder);
            }
        }
    }
    folders
}

/// The firms that a person opened: those of the folders accessed, public ones
/// too.
pub fn firms_opened(tables: &Tables, history: &History, person: u8) -> BTreeSet<u8> {
    let mut firms = BTreeSet::new();
    for folder in folders_accessed(tables, history, person) {
        firms.insert(tables.folder(folder).firm);
    }
    firms
}

/// The meet of the first level and the levels of all folders that the person
/// has read or stepped on, under every mask. No rule asks for it: low-water and
/// standing take the level stored, which is this one after a list from blank.
pub fn current_level(tables: &Tables, history: &History, person: u8) -> Level {
    let mut level = tables.persons[usize::from(person)].level;
    for request in counted(tables, history) {
        if request.person() == person {
            if let Some(folder) = request.folder_that_lowers() {
                level = level.meet(&tables.folder(folder).level);
            }
        }
    }
    level
}

/// The rights of all requests of a person. A start counts for the starter.
pub fn rights_used(tables: &Tables, history: &History, person: u8) -> [bool; 64] {
    let mut rights = [false; 64];
    for request in counted(tables, history) {
        if request.person() == person {
            rights[request.right(tables)] = true;
        }
    }
    rights
}

/// The steps done on a folder by anyone.
pub fn steps_done(tables: &Tables, history: &History, on: u8) -> BTreeSet<usize> {
    let mut done = BTreeSet::new();
    for request in counted(tables, history) {
        if let Request::Step { step, folder, .. } = *request {
            if folder == on {
                done.insert(usize::from(step));
            }
        }
    }
    done
}

/// Wall: granted if this person accessed some folder of the same firm, or if
/// every folder the person accessed is in another conflict class. A request
/// for a public folder passes, and public folders accessed do not count.
fn wall_grants(tables: &Tables, history: &History, request: &Request) -> bool {
    let folder = match request.folder_accessed() {
        Some(folder) => folder,
        None => return true,
    };
    if tables.folder(folder).public {
        return true;
    }
    let firm = tables.folder(folder).firm;
    let class = tables.class_of_folder(folder);
    let mut accessed = folders_accessed(tables, history, request.person());
    accessed.retain(|other| !tables.folder(*other).public);
    let some_of_same_firm = accessed
        .iter()
        .any(|other| tables.folder(*other).firm == firm);
    let all_in_another_class = accessed
        .iter()
        .all(|other| tables.class_of_folder(*other) != class);
    some_of_same_firm || all_in_another_class
}

/// Low-water: write and step need the folder's level at most the stored level
/// of the person, start needs the started person's at most the starter's. The
/// stored level is the one before the request, also where the history would
/// give another. Read passes.
fn low_water(tables: &Tables, state: &State, request: &Request) -> Compared {
    match *request {
        Request::Read { .. } => Compared::AtMost,
        Request::Write { person, folder } | Request::Step { person, folder, .. } => {
            tables.folder(folder).level.compare(state.level(person))
        }
        Request::Start { person, other } => state.level(other).compare(state.level(person)),
    }
}

/// Roles: the rights used with the new one lie in one declared role.
fn roles_grant(tables: &Tables, history: &History, request: &Request) -> bool {
    let mut rights = rights_used(tables, history, request.person());
    rights[request.right(tables)] = true;
    for role in &tables.roles {
        if role.declared && lies_in(&rights, &role.rights) {
            return true;
        }
    }
    false
}

/// Pipeline: create needs no step done; another step needs a done step that
/// enables it and that enables no step done.
fn pipeline_grants(tables: &Tables, history: &History, request: &Request) -> bool {
    let (wanted, folder) = match *request {
        Request::Step { step, folder, .. } => (usize::from(step), folder),
        _ => return true,
    };
    let done = steps_done(tables, history, folder);
    if wanted == 0 {
        return done.is_empty();
    }
    for before in 0..STEPS {
        let is_last =
            done.contains(&before) && !done.iter().any(|after| tables.enables[before][*after]);
        if is_last && tables.enables[before][wanted] {
            return true;
        }
    }
    false
}
