//! The records of a script of the program `calls`.

use std::io::{self, Read};

use crate::planner::Link;
use crate::room::Draft;
use crate::stated::Form;

#[derive(Clone, Debug, PartialEq, Eq)]
pub enum Call {
    /// Load, or load from rows.
    Load {
        form: Form,
        file: Vec<u8>,
    },
    Link(Link),
    Solve {
        cells: u32,
        output: u32,
    },
    Check {
        plan: Vec<u8>,
    },
    Room(Draft),
}

impl Call {
    pub fn record(&self) -> Vec<u8> {
        match self {
            Call::Load { form: Form::Sizes, file } => with_length(1, file),
            Call::Load { form: Form::Rows, file } => with_length(7, file),
            Call::Link(link) => {
                let arguments = [link.sender, link.receiver, link.open, link.fixed, link.rate];
                let bytes = arguments.iter().flat_map(|argument| argument.to_le_bytes());
                [2].into_iter().chain(bytes).collect()
            }
            Call::Check { plan } => with_length(5, plan),
            Call::Solve { cells, output } => {
                [&[6][..], &cells.to_le_bytes(), &output.to_le_bytes()].concat()
            }
            Call::Room(draft) => {
                let numbers = [draft.relations.to_le_bytes(), draft.sites.to_le_bytes()].concat();
                [vec![8], numbers, after_length(&draft.joins)].concat()
            }
        }
    }

    /// The next record; nothing where it is empty, cut or of an unknown kind.
    pub fn next(script: &mut impl Read) -> Option<Call> {
        let [opcode] = take(script).ok()?;
        let call = match opcode {
            1 => Call::Load { form: Form::Sizes, file: take_with_length(script).ok()? },
            2 => Call::Link(Link {
                sender: u64::from_le_bytes(take(script).ok()?),
                receiver: u64::from_le_bytes(take(script).ok()?),
                open: u64::from_le_bytes(take(script).ok()?),
                fixed: u64::from_le_bytes(take(script).ok()?),
                rate: u64::from_le_bytes(take(script).ok()?),
            }),
            5 => Call::Check { plan: take_with_length(script).ok()? },
            6 => Call::Solve {
                cells: u32::from_le_bytes(take(script).ok()?),
                output: u32::from_le_bytes(take(script).ok()?),
            },
            7 => Call::Load { form: Form::Rows, file: take_with_length(script).ok()? },
            8 => Call::Room(Draft {
                relations: u64::from_le_bytes(take(script).ok()?),
                sites: u64::from_le_bytes(take(script).ok()?),
                joins: take_with_length(script).ok()?,
            }),
            _ => return None,
        };
        Some(call)
    }
}

fn with_length(opcode: u8, bytes: &[u8]) -> Vec<u8> {
    [vec![opcode], after_length(bytes)].concat()
}

/// The bytes, and before them how many they are.
fn after_length(bytes: &[u8]) -> Vec<u8> {
    let length = u16::try_from(bytes.len()).expect("a record has at most 65,535 bytes");
    [&length.to_le_bytes(), bytes].concat()
}

fn take<const WIDTH: usize>(script: &mut impl Read) -> io::Result<[u8; WIDTH]> {
    let mut bytes = [0; WIDTH];
    script.read_exact(&mut bytes)?;
    Ok(bytes)
}

fn take_with_length(script: &mut impl Read) -> io::Result<Vec<u8>> {
    let mut bytes = vec![0; usize::from(u16::from_le_bytes(take(script)?))];
    script.read_exact(&mut bytes)?;
    Ok(bytes)
}
