//! A trace played on the proved library: which records end in which line, and their answers.

use crate::edition::Edition;
use crate::form::{first_sound, framing, Fault, Framing, Item, Stop, INPUT_LIMIT};
use crate::rostuvlad::{self, Event, Reason};
use crate::show::show_record;
use crate::text::{ending, Answer, Form, Line, Place, Text};
use std::ops::Range;

#[derive(Clone)]
pub struct Memories {
    pub main: Vec<u8>,
    pub management: Vec<u8>,
}

/// A trace that is too long has no bytes, places and records here.
pub struct Played {
    bytes: Vec<u8>,
    places: Vec<Place>,
    /// Where each record lies, in the order in which they were played, and what was noted of it.
    framing: Framing,
    events: Vec<Event>,
    /// How many bytes were played.
    reached: usize,
    /// The records that end in each place.
    ending: Vec<Vec<usize>>,
    edition: Edition,
    pub stop: Stop,
}

/// What came of a line in one place.
pub struct Outcome<'a> {
    /// The records that end there, in the order in which they were played.
    pub records: &'a [usize],
    /// Whether all its bytes were played.
    pub whole: bool,
    /// Whether it is one record, which is played again in each turn of the groups round it, or the head
    /// of a group.
    pub own: bool,
}

fn stop_of(reason: Reason) -> Stop {
    match reason {
        Reason::End => Stop::End,
        Reason::Limit => Stop::Limit,
        Reason::Torn => Stop::Torn,
        Reason::Bad => Stop::Bad,
    }
}

fn player_of(edition: Edition) -> rostuvlad::Edition {
    match edition {
        Edition::Cx486 => rostuvlad::Edition::Cx486,
        Edition::Mii => rostuvlad::Edition::Mii,
    }
}

/// Plays a trace in an edition; where there is no text, one that is too long.
pub fn play(
    name: &str,
    text: Option<&Text>,
    edition: Edition,
    memories: &mut Memories,
) -> Result<Played, String> {
    let placed = text.and_then(|text| text.placed(INPUT_LIMIT));
    let long = placed.is_none();
    let (bytes, places) = placed.unwrap_or_default();
    let Memories { main, management } = memories;
    let replay = player_of(edition).replay(&bytes, main, management);
    // Where records lie is told by their form, and has to be what the library found.
    let framing = framing(&bytes);
    if replay.events.len() != framing.records.len() || stop_of(replay.reason) != framing.stop {
        return Err(format!(
            "{name}: the tool and the library read it differently: report it"
        ));
    }
    Ok(Played {
        ending: ending(&places, &framing.records),
        reached: framing.records.iter().map(|r| r.end).max().unwrap_or(0),
        bytes,
        places,
        events: replay.events,
        edition,
        stop: if long { Stop::Long } else { framing.stop },
        framing,
    })
}

impl Played {
    pub fn records(&self) -> Range<usize> {
        0..self.events.len()
    }

    pub fn answer(&self, record: usize) -> Answer {
        let event = self.events[record];
        (event.answer(), event.value())
    }

    /// The bytes of a record.
    pub fn bytes_of(&self, record: usize) -> Range<usize> {
        self.framing.records[record].clone()
    }

    pub fn text_of(&self, record: usize) -> String {
        match first_sound(&self.bytes[self.bytes_of(record)]) {
            Ok((Item::Record(record), _)) => show_record(&record, self.edition),
            _ => unreachable!("the record was played"),
        }
    }

    /// How many bytes were played, where it didn't stop in a group.
    pub fn played_to(&self) -> usize {
        self.reached
    }

    /// What was wrong where it stopped.
    pub fn fault(&self) -> Option<Fault> {
        first_sound(&self.bytes[self.reached..]).err()
    }

    /// What came of a line in one of its places.
    pub fn outcome(&self, line: &Line, place: usize) -> Outcome<'_> {
        let bytes = self.places.get(place).map(|place| &place.bytes);
        let records = self.ending.get(place).map_or(&[][..], |records| records);
        let is_own = |record: &usize| bytes == Some(&self.bytes_of(*record));
        let begins = bytes.is_some_and(|bytes| self.framing.groups.contains(&bytes.start));
        Outcome {
            whole: bytes.is_some_and(|bytes| bytes.end <= self.reached),
            own: match line.form {
                Form::Group => records.is_empty() && begins,
                _ => !records.is_empty() && records.iter().all(is_own),
            },
            records,
        }
    }

    /// Whether a byte of the place was played.
    pub fn is_begun(&self, place: usize) -> bool {
        let place = self.places.get(place);
        place.is_some_and(|place| place.bytes.start < self.reached)
    }

    /// Whether the same came of two places: the same records end there at the same distance, with the
    /// same answers, and both were played to the end or neither.
    pub fn is_same(&self, one: usize, other: usize) -> bool {
        let is_whole = |place: usize| self.places[place].bytes.end <= self.reached;
        let of_place = |place: usize| {
            let start = self.places[place].bytes.start;
            self.ending[place].iter().map(move |record| {
                let bytes = self.bytes_of(*record);
                (bytes.end - start, &self.bytes[bytes], self.answer(*record))
            })
        };
        of_place(one).eq(of_place(other)) && is_whole(one) == is_whole(other)
    }
}
