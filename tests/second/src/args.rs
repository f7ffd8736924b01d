//! The flags of a mode: `--name value`, or `--name` alone.

use crate::report::Plan;
use crate::run::Program;
use std::path::PathBuf;
use std::time::Duration;

/// How long a program or a call under test may take, in milliseconds.
const PATIENCE: u64 = 20_000;
const SEED: u64 = 1989;
/// Flags without a value.
const SWITCHES: [&str; 2] = ["until-fault", "small"];

pub struct Args {
    pairs: Vec<(String, String)>,
}

impl Args {
    pub fn parse(words: &[String], known: &[&str]) -> Result<Args, String> {
        let mut pairs = Vec::new();
        let mut words = words.iter();
        while let Some(word) = words.next() {
            let name = word.strip_prefix("--").filter(|name| known.contains(name));
            let name = name.ok_or(format!("unknown flag {word}"))?;
            let value = match SWITCHES.contains(&name) {
                true => String::new(),
                false => words.next().ok_or(format!("{word} needs a value"))?.clone(),
            };
            pairs.push((name.to_string(), value));
        }
        Ok(Args { pairs })
    }

    pub fn get(&self, name: &str) -> Option<&str> {
        self.pairs.iter().rev().find(|(key, _)| key == name).map(|(_, value)| value.as_str())
    }

    pub fn is_set(&self, name: &str) -> bool {
        self.get(name).is_some()
    }

    pub fn program(&self, name: &str) -> Result<Program, String> {
        let path = PathBuf::from(self.get(name).ok_or(format!("--{name} is missing"))?);
        if !path.is_file() {
            return Err(format!("--{name}: no file {}", path.display()));
        }
        // A name without a slash would be looked for in the search path, not here. Links are
        // kept, as a program may look at the name it is called by.
        let path =
            std::path::absolute(&path).map_err(|error| format!("{}: {error}", path.display()))?;
        Ok(Program { path, patience: self.patience()? })
    }

    /// The sheets of the other program; by default those that stand beside this one.
    pub fn peer(&self) -> PathBuf {
        let beside = concat!(env!("CARGO_MANIFEST_DIR"), "/../peer");
        PathBuf::from(self.get("peer").unwrap_or(beside))
    }

    /// The sheets that are shown to everybody; by default those of the repository.
    pub fn samples(&self) -> PathBuf {
        let beside = concat!(env!("CARGO_MANIFEST_DIR"), "/../../samples");
        PathBuf::from(self.get("samples").unwrap_or(beside))
    }

    pub fn plan(&self, default_count: u64) -> Result<Plan, String> {
        let count = self.number("count", default_count)?;
        if count == 0 {
            return Err("--count: 0 cases compare nothing".to_string());
        }
        Ok(Plan {
            count: count as usize,
            seed: self.number("seed", SEED)?,
            first: self.number("first", u64::MAX)? as usize,
            until_fault: self.is_set("until-fault"),
            patience: self.patience()?,
        })
    }

    fn patience(&self) -> Result<Duration, String> {
        Ok(Duration::from_millis(self.number("patience", PATIENCE)?))
    }

    fn number(&self, name: &str, default: u64) -> Result<u64, String> {
        match self.get(name) {
            None => Ok(default),
            Some(text) => text.parse().map_err(|_| format!("--{name}: {text} is no number")),
        }
    }
}
