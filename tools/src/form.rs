//! The form of a trace (01, "Trace player"; 02, request 6): its records and groups in bytes, and where
//! reading them stops. Nothing here knows what a step does.

use std::collections::BTreeSet;
use std::ops::Range;

pub const RECORD_LIMIT: usize = 10_000;
pub const INPUT_LIMIT: usize = 65_536;

pub const RESET: u16 = 1;
pub const REGISTERS: u16 = 2;
pub const READ: u16 = 3;
pub const WRITE: u16 = 4;
pub const IN: u16 = 5;
pub const OUT: u16 = 6;
pub const OPCODE: u16 = 7;
pub const BOUNDARY: u16 = 8;
pub const HALT: u16 = 9;
pub const WAKE: u16 = 10;
pub const GROUP: u16 = 16;

/// So deep groups may stand in groups; the outermost is level one.
const GROUP_LEVELS: usize = 8;
/// Bytes of a group before its list: its length, its kind and its count.
pub const GROUP_HEAD: usize = 6;

/// Bytes of a kind's body, if there is such a kind.
fn body_length(kind: u16) -> Option<usize> {
    match kind {
        RESET | HALT | WAKE => Some(0),
        REGISTERS => Some(28),
        READ => Some(5),
        WRITE => Some(9),
        IN => Some(2),
        OUT => Some(3),
        OPCODE => Some(10),
        BOUNDARY => Some(17),
        _ => None,
    }
}

/// Why a replay stops; `long` is an input that is not played at all.
#[derive(Clone, Copy, PartialEq, Eq, Debug)]
pub enum Stop {
    End,
    Limit,
    Torn,
    Bad,
    Long,
}

impl Stop {
    const ALL: [Stop; 5] = [Stop::End, Stop::Limit, Stop::Torn, Stop::Bad, Stop::Long];

    pub fn word(self) -> &'static str {
        match self {
            Stop::End => "end",
            Stop::Limit => "limit",
            Stop::Torn => "torn",
            Stop::Bad => "bad",
            Stop::Long => "long",
        }
    }

    pub fn named(word: &str) -> Option<Stop> {
        Stop::ALL.into_iter().find(|stop| stop.word() == word)
    }
}

/// A record's kind and the body behind it.
pub struct Record<'a> {
    pub kind: u16,
    pub body: &'a [u8],
}

/// A group's count and its list of records and groups.
pub struct Group<'a> {
    pub count: u16,
    pub list: &'a [u8],
}

pub enum Item<'a> {
    Record(Record<'a>),
    Group(Group<'a>),
}

/// Why there is no item at the head of some bytes, or none that is sound.
pub struct Fault {
    pub stop: Stop,
    /// What is bad, and how many bytes behind the head.
    pub what: &'static str,
    pub at: usize,
}

impl Fault {
    fn new(stop: Stop, what: &'static str) -> Fault {
        Fault { stop, what, at: 0 }
    }

    fn bad(what: &'static str) -> Fault {
        Fault::new(Stop::Bad, what)
    }
}

/// The record or the group at the head of the bytes, and the bytes after it; or why there is none. A
/// group's list is not looked at.
pub fn first_item(bytes: &[u8]) -> Result<(Item<'_>, &[u8]), Fault> {
    if bytes.is_empty() {
        return Err(Fault::new(Stop::End, "no bytes are left"));
    }
    let torn = || Fault::new(Stop::Torn, "a record or a group is cut off");
    let (length, rest) = bytes.split_first_chunk::<2>().ok_or_else(torn)?;
    let length = u16::from_le_bytes(*length).into();
    let (record, after) = rest.split_at_checked(length).ok_or_else(torn)?;
    let unknown = || Fault::bad("no record has this length and kind");
    let (kind, body) = record.split_first_chunk::<2>().ok_or_else(unknown)?;
    let kind = u16::from_le_bytes(*kind);
    if kind == GROUP {
        return Ok((Item::Group(group(body)?), after));
    }
    if body_length(kind) != Some(body.len()) {
        return Err(unknown());
    }
    Ok((Item::Record(Record { kind, body }), after))
}

fn group(body: &[u8]) -> Result<Group<'_>, Fault> {
    let missing = || Fault::bad("a group has no count");
    let (count, list) = body.split_first_chunk::<2>().ok_or_else(missing)?;
    match u16::from_le_bytes(*count) {
        0 => Err(Fault::bad("a group's count is 0")),
        _ if list.is_empty() => Err(Fault::bad("a group's list is empty")),
        count => Ok(Group { count, list }),
    }
}

/// What is wrong in a group, if anything is, where so many levels are left, its own among them.
fn judge(group: &Group, levels: usize) -> Result<(), Fault> {
    if levels == 0 {
        return Err(Fault::bad(
            "groups stand in groups to more than eight levels",
        ));
    }
    let mut rest = group.list;
    while !rest.is_empty() {
        let at = GROUP_HEAD + group.list.len() - rest.len();
        let within = |fault: Fault| Fault {
            at: at + fault.at,
            ..fault
        };
        let (item, after) = first_item(rest).map_err(within)?;
        if let Item::Group(inner) = item {
            judge(&inner, levels - 1).map_err(within)?;
        }
        rest = after;
    }
    Ok(())
}

/// The record or the sound group at the head of the bytes of a trace, and the bytes after it; or why
/// there is none. A group in which anything is wrong is bad.
pub fn first_sound(bytes: &[u8]) -> Result<(Item<'_>, &[u8]), Fault> {
    let (item, after) = first_item(bytes)?;
    if let Item::Group(group) = &item {
        let bad = |fault| Fault {
            stop: Stop::Bad,
            ..fault
        };
        judge(group, GROUP_LEVELS).map_err(bad)?;
    }
    Ok((item, after))
}

/// The records and groups of the list of a sound group, or of other sound bytes.
pub fn items(mut list: &[u8]) -> impl Iterator<Item = Item<'_>> {
    std::iter::from_fn(move || {
        let (item, after) = first_item(list).ok()?;
        list = after;
        Some(item)
    })
}

/// What of a trace is played.
pub struct Framing {
    /// The bytes of each record, in the order in which they are played: those of a group again in
    /// each of its turns.
    pub records: Vec<Range<usize>>,
    /// Where the groups begin that are played.
    pub groups: BTreeSet<usize>,
    pub stop: Stop,
}

/// What of a trace is played, where it is not too long. Of a group no more is written out than is
/// played: every turn has a record, and there are 10,000 at most.
pub fn framing(bytes: &[u8]) -> Framing {
    let mut framing = Framing {
        records: Vec::new(),
        groups: BTreeSet::new(),
        stop: Stop::End,
    };
    framing.stop = framing.turn(bytes, 0..bytes.len(), first_sound);
    framing
}

type First = for<'a> fn(&'a [u8]) -> Result<(Item<'a>, &'a [u8]), Fault>;

impl Framing {
    /// One turn of the list that lies there in the trace; why it stopped, `end` for its own end. What
    /// stands in a group has been judged with it.
    fn turn(&mut self, trace: &[u8], list: Range<usize>, first: First) -> Stop {
        let mut place = list.start;
        while place < list.end {
            if self.records.len() == RECORD_LIMIT {
                return Stop::Limit;
            }
            let (item, after) = match first(&trace[place..list.end]) {
                Ok(found) => found,
                Err(fault) => return fault.stop,
            };
            let next = list.end - after.len();
            match item {
                Item::Record(_) => self.records.push(place..next),
                Item::Group(Group { count, .. }) => {
                    self.groups.insert(place);
                    for _ in 0..count {
                        let stop = self.turn(trace, place + GROUP_HEAD..next, first_item);
                        if stop != Stop::End {
                            return stop;
                        }
                    }
                }
            }
            place = next;
        }
        Stop::End
    }
}
