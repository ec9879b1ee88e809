//! The editions of the core (02 request 1). A trace's records have the same bytes in both; what
//! differs here is which byte after 0Fh has which name.

use crate::words::quoted;

#[derive(Clone, Copy, PartialEq, Eq, Debug, Default)]
pub enum Edition {
    #[default]
    Cx486,
    Mii,
}

pub const RSM: u8 = 0xAA;
/// So many of the opcodes with an operand, from the first on, name a segment.
pub const SEGMENT_OPCODES: usize = 2;
/// The opcodes with an operand. The last two are the later core's alone.
const OPERAND_OPCODES: [(&str, u8); 8] = [
    ("svdc", 0x78),
    ("rsdc", 0x79),
    ("svldt", 0x7A),
    ("rsldt", 0x7B),
    ("svts", 0x7C),
    ("rsts", 0x7D),
    ("rdshr", 0x36),
    ("wrshr", 0x37),
];

impl Edition {
    const ALL: [Edition; 2] = [Edition::Mii, Edition::Cx486];

    /// As it is written in a text and behind an option.
    pub fn word(self) -> &'static str {
        match self {
            Edition::Cx486 => "486",
            Edition::Mii => "mii",
        }
    }

    /// As it is named in a sentence.
    pub fn title(self) -> String {
        format!("{} edition", self.word().to_ascii_uppercase())
    }

    pub fn named(word: &str) -> Result<Edition, String> {
        let mut all = Edition::ALL.into_iter();
        let found = all.find(|edition| edition.word().eq_ignore_ascii_case(word));
        found.ok_or_else(|| format!("{} is no edition: write mii or 486", quoted(word)))
    }

    pub fn smint(self) -> u8 {
        match self {
            Edition::Cx486 => 0x7E,
            Edition::Mii => 0x38,
        }
    }

    pub fn operand_opcodes(self) -> &'static [(&'static str, u8)] {
        match self {
            Edition::Cx486 => &OPERAND_OPCODES[..6],
            Edition::Mii => &OPERAND_OPCODES,
        }
    }

    /// The place among the opcodes with an operand, and the byte, of one of this name; or that there
    /// is none, or none in this edition.
    pub fn operand_opcode(self, name: &str) -> Result<(usize, u8), String> {
        let place = OPERAND_OPCODES
            .iter()
            .position(|(known, _)| known.eq_ignore_ascii_case(name))
            .ok_or_else(|| format!("{} is no record", quoted(name)))?;
        let byte = OPERAND_OPCODES[place].1;
        if place < self.operand_opcodes().len() {
            return Ok((place, byte));
        }
        Err(format!(
            "`{name}` is not in the {}: write `edition mii` first, or `opcode {byte:X}h`",
            self.title()
        ))
    }
}
