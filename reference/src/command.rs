//! The commands of a file of calls, written and read. The format is described
//! in FORMAT.md.

/// The lengths of the history and of the levels that a call is lent.
#[derive(Clone, Copy, PartialEq, Eq, Debug)]
pub struct Lengths {
    pub history: u16,
    pub levels: u8,
}

/// One command of a file of calls.
#[derive(Clone, PartialEq, Eq, Debug)]
pub enum Command {
    Load {
        book: Vec<u8>,
    },
    Blank {
        lent: Lengths,
    },
    Judge {
        lent: Lengths,
        request: Vec<u8>,
    },
    Put {
        lent: Lengths,
        request: Vec<u8>,
    },
    Run {
        lent: Lengths,
        answers: u16,
        requests: Vec<u8>,
    },
    Standing {
        lent: Lengths,
        person: u8,
    },
    Field {
        which: u8,
        index: u8,
        value: u64,
    },
    Byte {
        at: u16,
        value: u8,
    },
    Fill {
        value: u8,
    },
    LevelByte {
        at: u8,
        value: u8,
    },
    Plan {
        lent: Lengths,
        jobs: Vec<u8>,
    },
}

impl Lengths {
    fn as_bytes(&self) -> [u8; 3] {
        let [low, high] = self.history.to_le_bytes();
        [low, high, self.levels]
    }
}

impl Command {
    fn code(&self) -> u8 {
        match self {
            Command::Load { .. } => 1,
            Command::Blank { .. } => 2,
            Command::Judge { .. } => 3,
            Command::Put { .. } => 4,
            Command::Run { .. } => 5,
            Command::Standing { .. } => 6,
            Command::Field { .. } => 7,
            Command::Byte { .. } => 8,
            Command::Fill { .. } => 9,
            Command::LevelByte { .. } => 10,
            Command::Plan { .. } => 11,
        }
    }

    pub fn as_bytes(&self) -> Vec<u8> {
        let mut bytes = vec![self.code()];
        match self {
            Command::Load { book } => {
                bytes.extend((book.len() as u16).to_le_bytes());
                bytes.extend(book);
            }
            Command::Blank { lent } => bytes.extend(lent.as_bytes()),
            Command::Judge { lent, request } | Command::Put { lent, request } => {
                bytes.extend(lent.as_bytes());
                bytes.push(request.len() as u8);
                bytes.extend(request);
            }
            Command::Run {
                lent,
                answers,
                requests,
            } => {
                bytes.extend(lent.as_bytes());
                bytes.extend(answers.to_le_bytes());
                bytes.extend((requests.len() as u16).to_le_bytes());
                bytes.extend(requests);
            }
            Command::Standing { lent, person } => {
                bytes.extend(lent.as_bytes());
                bytes.push(*person);
            }
            Command::Plan { lent, jobs } => {
                bytes.extend(lent.as_bytes());
                bytes.extend((jobs.len() as u16).to_le_bytes());
                bytes.extend(jobs);
            }
            change => bytes.extend(change.fields_of_change()),
        }
        bytes
    }

    /// The fields of the commands that call nothing.
    fn fields_of_change(&self) -> Vec<u8> {
        match self {
            Command::Field {
                which,
                index,
                value,
            } => [&[*which, *index][..], &value.to_le_bytes()].concat(),
            Command::Byte { at, value } => [&at.to_le_bytes()[..], &[*value]].concat(),
            Command::Fill { value } => vec![*value],
            Command::LevelByte { at, value } => vec![*at, *value],
            _ => Vec::new(),
        }
    }
}

/// Reads the fields of commands; None when the file is cut short.
pub struct Reader<'a> {
    pub left: &'a [u8],
}

impl Reader<'_> {
    fn bytes(&mut self, count: usize) -> Option<Vec<u8>> {
        if self.left.len() < count {
            return None;
        }
        let (taken, left) = self.left.split_at(count);
        self.left = left;
        Some(taken.to_vec())
    }

    /// A number of so many bytes, the lowest first.
    fn number(&mut self, count: usize) -> Option<u64> {
        let mut sum = 0;
        let mut worth: u64 = 1;
        for byte in self.bytes(count)? {
            sum += u64::from(byte) * worth;
            worth = worth.wrapping_mul(256);
        }
        Some(sum)
    }

    fn one(&mut self) -> Option<u8> {
        Some(self.number(1)? as u8)
    }

    fn two(&mut self) -> Option<u16> {
        Some(self.number(2)? as u16)
    }

    fn lengths(&mut self) -> Option<Lengths> {
        Some(Lengths {
            history: self.two()?,
            levels: self.one()?,
        })
    }

    /// Bytes after their length in one byte.
    fn request(&mut self) -> Option<Vec<u8>> {
        let length = self.one()?;
        self.bytes(usize::from(length))
    }

    /// Bytes after their length in two bytes.
    fn long_bytes(&mut self) -> Option<Vec<u8>> {
        let length = self.two()?;
        self.bytes(usize::from(length))
    }

    /// The next command; None at 0, at an unknown command or at the end.
    pub fn command(&mut self) -> Option<Command> {
        let command = match self.one()? {
            1 => Command::Load {
                book: self.long_bytes()?,
            },
            2 => Command::Blank {
                lent: self.lengths()?,
            },
            3 => Command::Judge {
                lent: self.lengths()?,
                request: self.request()?,
            },
            4 => Command::Put {
                lent: self.lengths()?,
                request: self.request()?,
            },
            5 => Command::Run {
                lent: self.lengths()?,
                answers: self.two()?,
                requests: self.long_bytes()?,
            },
            6 => Command::Standing {
                lent: self.lengths()?,
                person: self.one()?,
            },
            11 => Command::Plan {
                lent: self.lengths()?,
                jobs: self.long_bytes()?,
            },
            other => return self.change(other),
        };
        Some(command)
    }

    /// The commands that call nothing and print nothing.
    fn change(&mut self, code: u8) -> Option<Command> {
        match code {
            7 => Some(Command::Field {
                which: self.one()?,
                index: self.one()?,
                value: self.number(8)?,
            }),
            8 => Some(Command::Byte {
                at: self.two()?,
                value: self.one()?,
            }),
            9 => Some(Command::Fill { value: self.one()? }),
            10 => Some(Command::LevelByte {
                at: self.one()?,
                value: self.one()?,
            }),
            _ => None,
        }
    }
}

#[cfg(test)]
mod tests {
    use super::*;

    fn lent(history: u16, levels: u8) -> Lengths {
        Lengths { history, levels }
    }

    /// The commands 1 to 6.
    fn some_calls() -> Vec<Command> {
        vec![
            Command::Load {
                book: vec![1, 0, 0],
            },
            Command::Blank {
                lent: lent(18_944, 128),
            },
            Command::Judge {
                lent: lent(1, 255),
                request: vec![],
            },
            Command::Put {
                lent: lent(65_535, 0),
                request: vec![16, 1, 2],
            },
            Command::Run {
                lent: lent(18_960, 144),
                answers: 4_097,
                requests: vec![17; 300],
            },
            Command::Standing {
                lent: lent(300, 7),
                person: 200,
            },
        ]
    }

    #[test]
    fn commands_are_read_as_written() {
        let mut commands = some_calls();
        commands.push(Command::Field {
            which: 10,
            index: 3,
            value: u64::MAX - 1,
        });
        commands.push(Command::Byte {
            at: 40_000,
            value: 9,
        });
        commands.push(Command::Fill { value: 7 });
        commands.push(Command::LevelByte { at: 200, value: 3 });
        commands.push(Command::Plan {
            lent: lent(18_944, 128),
            jobs: vec![19; 300],
        });
        for (place, command) in commands.into_iter().enumerate() {
            let bytes = command.as_bytes();
            assert_eq!(usize::from(bytes[0]), 1 + place);
            let mut reader = Reader { left: &bytes };
            assert_eq!(reader.command(), Some(command));
            assert!(reader.left.is_empty());
        }
        let mut unknown = Reader { left: &[12, 0, 0] };
        assert_eq!(unknown.command(), None);
    }
}
