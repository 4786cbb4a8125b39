//! The tables, loading, and the test for tables that a load gives.

#[derive(Clone, Copy, Default)]
pub struct Firm {
    pub declared: bool,
    pub class: u8,
}

#[derive(Clone, Copy, Default)]
pub struct Person {
    pub declared: bool,
    pub level: u16,
}

#[derive(Clone, Copy, Default)]
pub struct Folder {
    pub declared: bool,
    pub firm: u8,
    pub kind: u8,
    pub level: u16,
    pub public: bool,
}

#[derive(Clone, Copy, Default)]
pub struct Role {
    pub declared: bool,
    pub rights: u64,
}

pub struct Tables {
    pub mask: u8,
    pub firms: [Firm; 64],
    pub persons: [Person; 64],
    pub folders: [Folder; 128],
    pub roles: [Role; 32],
    pub steps: [u16; 16],
}

/// The tables of a book, or the number that refuses it.
pub fn load(book: &[u8]) -> Result<Tables, u8> {
    let mut t = Tables {
        mask: 0,
        firms: [Firm::default(); 64],
        persons: [Person::default(); 64],
        folders: [Folder::default(); 128],
        roles: [Role::default(); 32],
        steps: [0; 16],
    };
    let mut at = 0;
    loop {
        let kind = *book.get(at).ok_or(1)?;
        let length = match kind {
            0 => 0,
            1 | 7 => 1,
            2 | 6 => 2,
            3 => 3,
            4 => 5,
            5 => 9,
            _ => return Err(2),
        };
        need((kind == 1) == (at == 0), 3)?;
        let body = book.get(at + 1..at + 1 + length).ok_or(1)?;
        match kind {
            0 => {
                need(!has_circle(&t.steps), 8)?;
                need(!has_loose(&t.steps), 9)?;
                return Ok(t);
            }
            1 => {
                need(body[0] <= 15, 4)?;
                t.mask = body[0];
            }
            2 => take_firm(&mut t, body)?,
            3 => take_person(&mut t, body)?,
            4 => take_folder(&mut t, body)?,
            5 => take_role(&mut t, body)?,
            6 => take_pair(&mut t, body)?,
            _ => take_public(&mut t, body)?,
        }
        at += 1 + length;
    }
}

fn need(holds: bool, number: u8) -> Result<(), u8> {
    if holds {
        Ok(())
    } else {
        Err(number)
    }
}

fn take_firm(t: &mut Tables, body: &[u8]) -> Result<(), u8> {
    need(body[0] < 64 && body[1] < 32, 4)?;
    let entry = &mut t.firms[usize::from(body[0])];
    need(!entry.declared, 5)?;
    *entry = Firm {
        declared: true,
        class: body[1],
    };
    Ok(())
}

fn take_person(t: &mut Tables, body: &[u8]) -> Result<(), u8> {
    need(body[0] < 64, 4)?;
    let entry = &mut t.persons[usize::from(body[0])];
    need(!entry.declared, 5)?;
    *entry = Person {
        declared: true,
        level: u16::from_le_bytes([body[1], body[2]]),
    };
    Ok(())
}

fn take_folder(t: &mut Tables, body: &[u8]) -> Result<(), u8> {
    need(body[0] < 128 && body[1] < 64 && body[2] < 16, 4)?;
    let entry = &mut t.folders[usize::from(body[0])];
    need(!entry.declared, 5)?;
    need(t.firms[usize::from(body[1])].declared, 6)?;
    *entry = Folder {
        declared: true,
        firm: body[1],
        kind: body[2],
        level: u16::from_le_bytes([body[3], body[4]]),
        public: false,
    };
    Ok(())
}

fn take_role(t: &mut Tables, body: &[u8]) -> Result<(), u8> {
    need(body[0] < 32, 4)?;
    let entry = &mut t.roles[usize::from(body[0])];
    need(!entry.declared, 5)?;
    let mut rights = [0; 8];
    rights.copy_from_slice(&body[1..9]);
    *entry = Role {
        declared: true,
        rights: u64::from_le_bytes(rights),
    };
    Ok(())
}

fn take_pair(t: &mut Tables, body: &[u8]) -> Result<(), u8> {
    need(body[0] < 16 && body[1] < 16, 4)?;
    let set = &mut t.steps[usize::from(body[0])];
    need(*set >> body[1] & 1 == 0, 5)?;
    need(body[1] != 0, 7)?;
    *set |= 1 << body[1];
    Ok(())
}

fn take_public(t: &mut Tables, body: &[u8]) -> Result<(), u8> {
    need(body[0] < 128, 4)?;
    let entry = &mut t.folders[usize::from(body[0])];
    need(!entry.public, 5)?;
    need(entry.declared, 19)?;
    entry.public = true;
    Ok(())
}

fn has_circle(steps: &[u16; 16]) -> bool {
    let mut all = *steps;
    for k in 0..16 {
        let row = all[k];
        for set in &mut all {
            if *set >> k & 1 == 1 {
                *set |= row;
            }
        }
    }
    (0..16).any(|p| all[p] >> p & 1 == 1)
}

fn has_loose(steps: &[u16; 16]) -> bool {
    let enabled = steps.iter().fold(0, |union, set| union | set);
    (1..16).any(|p| steps[p] != 0 && enabled >> p & 1 == 0)
}

/// Whether a load gives the tables.
pub fn given(t: &Tables) -> bool {
    let firms = t.firms.iter().all(|f| match f.declared {
        true => f.class <= 31,
        false => f.class == 0,
    });
    let persons = t.persons.iter().all(|s| s.declared || s.level == 0);
    let folders = t.folders.iter().all(|o| match o.declared {
        true => o.firm < 64 && t.firms[usize::from(o.firm)].declared && o.kind <= 15,
        false => o.firm == 0 && o.kind == 0 && o.level == 0 && !o.public,
    });
    let roles = t.roles.iter().all(|k| k.declared || k.rights == 0);
    let enters_create = t.steps.iter().any(|set| set & 1 == 1);
    t.mask <= 15
        && firms
        && persons
        && folders
        && roles
        && !enters_create
        && !has_circle(&t.steps)
        && !has_loose(&t.steps)
}
