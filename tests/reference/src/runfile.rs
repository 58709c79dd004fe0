//! Fields of a run file: document 01, "The run file and its trace"; 05 and 06 are #104's.

pub const OPEN: u8 = 1;
pub const PUSH: u8 = 2;
pub const POP: u8 = 3;
pub const STEPS: u8 = 4;
pub const OPEN_POOLED: u8 = 5;
pub const PUSH_POOLED: u8 = 6;

pub const MOST_STEPS: usize = 4_096;

#[derive(Clone, Copy, Debug, PartialEq, Eq)]
pub enum Field<'a> {
    Open {
        pooled: bool,
        tasks: u8,
        slots: u16,
        first_tag: u32,
    },
    /// 06 names no slot.
    Push {
        task: u8,
        side: u8,
        slot: Option<u16>,
        label: u32,
    },
    Pop {
        task: u8,
        side: u8,
    },
    Steps(&'a [u8]),
}

/// A malformed place (16); no field comes after it.
#[derive(Clone, Copy, Debug, PartialEq, Eq)]
pub struct Malformed;

/// The fields of a file, in order, up to its end or its first malformed place.
pub struct Fields<'a> {
    rest: &'a [u8],
    opened: bool,
    broken: bool,
}

impl<'a> Fields<'a> {
    pub fn of(file: &'a [u8]) -> Fields<'a> {
        Fields { rest: file, opened: false, broken: false }
    }

    /// The next field if it is whole, known, of the right length and in its right place.
    fn take(&mut self) -> Option<Field<'a>> {
        let &[tag, high, low, ref rest @ ..] = self.rest else { return None };
        let length = usize::from(u16::from_be_bytes([high, low]));
        let (content, rest) = rest.split_at_checked(length)?;
        let field = decode(tag, content)?;
        if self.opened == matches!(field, Field::Open { .. }) {
            return None;
        }
        self.opened = true;
        self.rest = rest;
        Some(field)
    }
}

impl<'a> Iterator for Fields<'a> {
    type Item = Result<Field<'a>, Malformed>;

    fn next(&mut self) -> Option<Self::Item> {
        if self.broken || (self.opened && self.rest.is_empty()) {
            return None;
        }
        let field = self.take().ok_or(Malformed);
        self.broken = field.is_err();
        Some(field)
    }
}

fn decode(tag: u8, content: &[u8]) -> Option<Field<'_>> {
    match (tag, content) {
        (OPEN | OPEN_POOLED, &[tasks, s1, s0, t3, t2, t1, t0]) => Some(Field::Open {
            pooled: tag == OPEN_POOLED,
            tasks,
            slots: u16::from_be_bytes([s1, s0]),
            first_tag: u32::from_be_bytes([t3, t2, t1, t0]),
        }),
        (PUSH, &[task, side, s1, s0, l3, l2, l1, l0]) => Some(Field::Push {
            task,
            side,
            slot: Some(u16::from_be_bytes([s1, s0])),
            label: u32::from_be_bytes([l3, l2, l1, l0]),
        }),
        (PUSH_POOLED, &[task, side, l3, l2, l1, l0]) => Some(Field::Push {
            task,
            side,
            slot: None,
            label: u32::from_be_bytes([l3, l2, l1, l0]),
        }),
        (POP, &[task, side]) => Some(Field::Pop { task, side }),
        (STEPS, tasks) if tasks.len() <= MOST_STEPS => Some(Field::Steps(tasks)),
        _ => None,
    }
}

/// Adds one field, its length as the content has it, to a file.
pub fn append(file: &mut Vec<u8>, tag: u8, content: &[u8]) {
    let length = u16::try_from(content.len()).expect("a field's content fits its length bytes");
    file.push(tag);
    file.extend_from_slice(&length.to_be_bytes());
    file.extend_from_slice(content);
}
