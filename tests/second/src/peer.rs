//! Sheets that another program wrote, each with a note of its fields and pixels.

use crate::model::header::Color;
use std::fs;
use std::path::Path;

pub const NAMES: [&str; 4] = ["bilevel.rle", "byte.cot", "byte_palette.cot", "uint16.ingr"];

pub struct Peer {
    pub name: &'static str,
    pub file: Vec<u8>,
    /// The words of the note's comments, such as `WTF 766 DTC 9`.
    notes: Vec<String>,
    pub rows: Vec<Vec<u64>>,
}

impl Peer {
    fn load(dir: &Path, name: &'static str) -> Result<Peer, String> {
        let path = dir.join(name);
        let file = fs::read(&path).map_err(|error| format!("{}: {error}", path.display()))?;
        let path = dir.join(format!("{name}.txt"));
        let text =
            fs::read_to_string(&path).map_err(|error| format!("{}: {error}", path.display()))?;
        let (comments, pixels): (Vec<&str>, Vec<&str>) =
            text.lines().partition(|line| line.starts_with('#'));
        let notes = comments.iter().flat_map(|line| line.split_whitespace()).map(String::from);
        let rows: Result<Vec<Vec<u64>>, _> =
            pixels.iter().map(|line| line.split_whitespace().map(str::parse).collect()).collect();
        let rows = rows.map_err(|error| format!("{}: {error}", path.display()))?;
        let peer = Peer { name, file, notes: notes.collect(), rows };
        if peer.rows.is_empty() || peer.note("len") != Some(peer.file.len() as i64) {
            return Err(format!("{}: not the pixels and the length of {name}", path.display()));
        }
        Ok(peer)
    }

    /// All of them: a mode that missed some would compare less than it says.
    pub fn all(dir: &Path) -> Result<Vec<Peer>, String> {
        NAMES.iter().map(|name| Peer::load(dir, name)).collect()
    }

    /// The number that the note gives after a word, such as 766 after `WTF`.
    pub fn note(&self, word: &str) -> Option<i64> {
        let at = self.notes.iter().position(|note| note == word)?;
        self.notes.get(at + 1)?.parse().ok()
    }

    /// The color of a value and what the plotter is told: one sheet has the palette that was handed to
    /// the other program, and no other has any.
    pub fn colors(&self, value: u64) -> [Color; 2] {
        let gray = Some([256 * value; 3]);
        match (self.name, value) {
            (_, 256..) => [None; 2],
            ("byte_palette.cot", v) => {
                [Some([7 * v % 256, (5 + 3 * v) % 256, 255 - v].map(|part| 256 * part)); 2]
            }
            ("bilevel.rle", 0) => [Some([65_535; 3]), gray],
            ("bilevel.rle", 1) => [Some([0; 3]), gray],
            ("bilevel.rle", _) => [None, gray],
            _ => [gray; 2],
        }
    }
}
