//! Mode `tool`: the command `ingr` over files, by what its manual page says. What it must print and
//! make is the model's; no output of its own is ever taken for right.

mod check;
mod colored;
mod compare;
pub mod fake;
mod info;
mod large;
mod make;
mod moves;
mod names;
mod pnm;
mod run;
pub mod selftest;
mod shown;
mod source;
mod usage;
mod view;
mod words;

use crate::gen::sheet::TYPES;
use crate::peer::Peer;
use crate::report::{self, Found, Needed, Outcome, Plan};
use crate::rng::Rng;
use crate::run::Program;
use colored::TABLES;
use run::Room;
use shown::Options;
use source::{Given, Stock};
use std::fs;
use std::io;
use std::path::{Path, PathBuf};
use std::process::ExitCode;

pub const DEFAULT_COUNT: u64 = 1_200;
/// Of the reduced set.
pub const SMALL_COUNT: u64 = 340;
pub const NAME: &str = "tool";

/// What all cases share.
pub struct Bench {
    pub program: Program,
    /// Where the cases have their rooms.
    pub dir: PathBuf,
    pub samples: Vec<(String, Vec<u8>)>,
    pub peers: Vec<Peer>,
    pub stock: Stock,
}

type Work = Box<dyn Fn(&Room, &mut Rng) -> io::Result<(Vec<String>, Found)> + Send + Sync>;

struct Case {
    family: &'static str,
    work: Work,
}

fn case(
    family: &'static str,
    work: impl Fn(&Room, &mut Rng) -> io::Result<(Vec<String>, Found)> + Send + Sync + 'static,
) -> Case {
    Case { family, work: Box::new(work) }
}

/// The sheets that are shown to everybody: all of them, and there must be some.
fn samples(dir: &Path) -> Result<Vec<(String, Vec<u8>)>, String> {
    let told = |error: io::Error| format!("{}: {error}", dir.display());
    let mut list = Vec::new();
    for entry in fs::read_dir(dir).map_err(told)? {
        let entry = entry.map_err(told)?;
        let name = entry.file_name().to_string_lossy().into_owned();
        if entry.path().is_file() {
            list.push((name, fs::read(entry.path()).map_err(told)?));
        }
    }
    list.sort();
    match list.is_empty() {
        true => Err(format!("{}: no samples", dir.display())),
        false => Ok(list),
    }
}

/// Where a run of the mode has its files.
struct Scratch(PathBuf);

impl Drop for Scratch {
    fn drop(&mut self) {
        let _ = fs::remove_dir_all(&self.0);
    }
}

pub fn run(
    program: Program,
    peer: &Path,
    samples_dir: &Path,
    plan: &Plan,
    small: bool,
) -> Result<ExitCode, String> {
    let dir = std::env::temp_dir().join(format!("second-tool-rooms-{}", std::process::id()));
    fs::create_dir_all(&dir).map_err(|error| format!("{}: {error}", dir.display()))?;
    let scratch = Scratch(dir);
    let bench = Bench {
        program,
        dir: scratch.0.clone(),
        samples: samples(samples_dir)?,
        peers: Peer::all(peer)?,
        stock: Stock::new(plan.seed),
    };
    let fixed = fixed(&bench, small);
    let total = plan.count.max(fixed.len());
    let needed = needed(plan, small);
    Ok(report::drive(NAME, plan, total, &needed, |i| {
        let room = Room::new(&bench, i)?;
        let mut rng = Rng::new(plan.seed, i as u64);
        let chance = by_chance(i);
        let Case { family, work } = fixed.get(i).unwrap_or(&chance);
        let (reached, found) = work(&room, &mut rng)?;
        Ok(Outcome { family, reached, found })
    }))
}

/// What must have been reached; what is reached by chance alone, with as many cases as by default.
fn needed(plan: &Plan, small: bool) -> Needed {
    if small {
        let families = vec![info::FAMILIES[0], check::FAMILIES[0]];
        return Needed { families, ..Needed::default() };
    }
    let mut reached: Vec<String> = (10..=22).map(|n| format!("check: refused {n}")).collect();
    reached.extend((1..=10).map(|mark| format!("check: mark {mark}")));
    reached.extend((11..=22).map(|n| format!("info: refused {n}")));
    reached.extend(source::families().iter().map(|family| format!("check: {family}")));
    reached.extend(compare::CHANGES.iter().map(|way| format!("compare: {way} changed")));
    reached.extend(make::REFUSALS.iter().map(|n| format!("make: refused {n}")));
    reached.extend(make::DAMAGES.iter().map(|way| format!("make: {way}")));
    for kind in TYPES {
        reached.extend((0..8).map(|slo| format!("make: type {kind} slo {slo}")));
        for slo in 0..8 {
            reached.extend((0..3).map(|ctv| format!("view: type {kind} slo {slo} ctv {ctv}")));
        }
    }
    if plan.count >= DEFAULT_COUNT as usize {
        reached.extend(by_chance_reached());
    }
    Needed { reached, families: families(), ..Needed::default() }
}

fn by_chance_reached() -> Vec<String> {
    let mut reached = make::forms();
    for command in ["info", "view"] {
        reached.extend((0..=10).map(|mark| format!("{command}: mark {mark}")));
    }
    reached.extend(view::WAYS.map(|what| format!("view: {what}")));
    reached.extend(moves::REFUSALS.iter().map(|n| format!("move: refused {n}")));
    reached.push("move: moved".to_string());
    let compared = ["alike", "differ", "refused", "picture", "no picture"];
    reached.extend(compared.map(|what| format!("compare: {what}")));
    reached.extend(["neither black nor white", "not taken"].map(|what| format!("make: {what}")));
    reached
}

fn families() -> Vec<&'static str> {
    [
        &info::FAMILIES[..],
        &check::FAMILIES,
        &view::FAMILIES,
        &moves::FAMILIES,
        &make::FAMILIES,
        &compare::FAMILIES,
        &usage::FAMILIES,
        &large::FAMILIES,
    ]
    .concat()
}

/// The cases that are always run.
fn fixed(bench: &Bench, small: bool) -> Vec<Case> {
    let mut list = Vec::new();
    if !small {
        // First, since they take longest.
        list.extend(large_cases());
    }
    list.extend(info_cases(bench));
    list.extend(check_cases(small));
    list.extend(view_cases(bench, small));
    list.extend(move_cases(bench));
    list.extend(compare_cases(bench));
    list.extend(make_cases(small));
    list.extend(usage_cases());
    list
}

/// A case by chance; which command it is of goes by its number.
fn by_chance(i: usize) -> Case {
    match i % 14 {
        0 => case(info::FAMILIES[2], info::by_chance),
        1 => case(check::FAMILIES[2], check::operands),
        2..=4 => case(view::FAMILIES[4], view::by_chance),
        5..=7 => case(compare::FAMILIES[1], compare::by_chance),
        8..=10 => case(make::FAMILIES[1], make::by_chance),
        _ => case(moves::FAMILIES[1], moves::by_chance),
    }
}

fn large_cases() -> Vec<Case> {
    vec![
        case(large::FAMILIES[1], large::seen_whole),
        case(large::FAMILIES[3], large::made),
        case(large::FAMILIES[2], |room, rng| large::shrunk(room, rng, 4, 8)),
        case(large::FAMILIES[2], |room, rng| large::shrunk(room, rng, 1, 16)),
        case(large::FAMILIES[0], large::checked),
        case(large::FAMILIES[4], large::interrupted),
    ]
}

fn info_cases(bench: &Bench) -> Vec<Case> {
    let given = |name: &str, file: &[u8]| Given {
        name: name.as_bytes().to_vec(),
        file: file.to_vec(),
        family: "",
    };
    let samples: Vec<Given> = bench.samples.iter().map(|(name, file)| given(name, file)).collect();
    let peers: Vec<Given> = bench.peers.iter().map(|peer| given(peer.name, &peer.file)).collect();
    vec![
        case(info::FAMILIES[0], move |room, _| info::files(room, &samples, false)),
        case(info::FAMILIES[1], move |room, _| info::files(room, &peers, true)),
        case(info::FAMILIES[2], info::by_chance),
        case(info::FAMILIES[2], info::every_refusal),
        case(info::FAMILIES[3], info::standard_input),
    ]
}

fn check_cases(small: bool) -> Vec<Case> {
    let mut list = vec![
        case(check::FAMILIES[0], |room, rng| check::directory(room, rng, false)),
        case(check::FAMILIES[1], |room, rng| check::directory(room, rng, true)),
        case(check::FAMILIES[2], check::operands),
        case(check::FAMILIES[3], check::standard_input),
    ];
    if small {
        return list;
    }
    for i in 0..10 {
        list.push(case(check::FAMILIES[i % 2], move |room, rng| {
            check::directory(room, rng, i % 2 == 1)
        }));
    }
    for as_json in [false, true] {
        list.push(case(check::FAMILIES[4], move |room, _| check::too_long(room, as_json)));
        list.push(case(check::FAMILIES[6], move |room, _| check::no_file(room, as_json)));
        list.push(case(check::FAMILIES[7], move |room, rng| check::long(room, rng, as_json)));
    }
    list.push(case(check::FAMILIES[5], |room, _| check::too_large(room)));
    list
}

fn view_cases(bench: &Bench, small: bool) -> Vec<Case> {
    let mut list = Vec::new();
    let mut whole = |family, name: &str, file: &[u8]| {
        let (name, file) = (name.as_bytes().to_vec(), file.to_vec());
        list.push(case(family, move |room, rng| {
            view::seen(room, rng, &name, &file, &Options::default())
        }));
    };
    bench.samples.iter().for_each(|(name, file)| whole(view::FAMILIES[0], name, file));
    bench.peers.iter().for_each(|peer| whole(view::FAMILIES[1], peer.name, &peer.file));
    for slo in 0..8 {
        for harmed in [false, true] {
            list.push(case(view::FAMILIES[3], move |room, rng| {
                view::full_bytes(room, rng, slo, harmed)
            }));
        }
    }
    list.push(case(view::FAMILIES[4], view::by_chance));
    for number in 11..=22 {
        list.push(case(view::FAMILIES[5], move |room, rng| view::of_refused(room, rng, number)));
    }
    for lines in ["NOL+1", "1-NOL+1", "NOL+1-NOL+1", "0", "0-1", "2-1", "1-", "-1", "x", "1-1-1"] {
        list.push(case(view::FAMILIES[6], move |room, rng| view::wrong_lines(room, rng, lines)));
    }
    if small {
        return list;
    }
    for kind in TYPES {
        for slo in 0..8 {
            for table in TABLES {
                list.push(case(view::FAMILIES[2], move |room, rng| {
                    view::of_kind(room, rng, kind, slo, table)
                }));
            }
        }
    }
    list
}

fn move_cases(bench: &Bench) -> Vec<Case> {
    let mut list = Vec::new();
    for (name, file) in &bench.samples {
        let (name, file) = (name.as_bytes().to_vec(), file.clone());
        list.push(case(moves::FAMILIES[0], move |room, rng| moves::moved(room, rng, &name, &file)));
    }
    list.push(case(moves::FAMILIES[2], moves::too_long));
    list.extend((0..8).map(|_| case(moves::FAMILIES[3], moves::onto_itself)));
    list
}

fn compare_cases(bench: &Bench) -> Vec<Case> {
    let mut list = Vec::new();
    // Each sample with the next, which may be of another size.
    for pair in bench.samples.windows(2) {
        let (old, new) = (pair[0].1.clone(), pair[1].1.clone());
        list.push(case(compare::FAMILIES[0], move |room, rng| {
            compare::compared(room, rng, &old, &new, true)
        }));
    }
    for way in compare::CHANGES {
        list.push(case(compare::FAMILIES[2], move |room, rng| compare::pair(room, rng, way, true)));
        list.push(case(compare::FAMILIES[1], move |room, rng| {
            compare::pair(room, rng, way, false)
        }));
    }
    for number in [11, 13, 16, 22] {
        list.push(case(compare::FAMILIES[3], move |room, rng| {
            compare::with_refused(room, rng, number)
        }));
    }
    list
}

fn make_cases(small: bool) -> Vec<Case> {
    let mut list = Vec::new();
    for way in make::DAMAGES {
        list.push(case(make::FAMILIES[3], move |room, rng| make::of_damaged(room, rng, way)));
    }
    for way in 0..5 {
        list.push(case(make::FAMILIES[5], move |room, rng| make::wrong_table(room, rng, way)));
    }
    for plain in [true, false] {
        for (bits, channels, most) in
            [(true, 1, 1), (false, 1, 255), (false, 3, 255), (false, 1, 5)]
        {
            list.push(case(make::FAMILIES[6], move |room, rng| {
                make::of_pnm(room, rng, plain, bits, channels, most)
            }));
        }
    }
    list.push(case(make::FAMILIES[1], make::by_chance));
    list.push(case(make::FAMILIES[4], |room, rng| make::of_refused(room, rng, 26)));
    for kind in TYPES.map(u32::from) {
        for slo in 0..8 {
            list.push(case(make::FAMILIES[0], move |room, rng| {
                make::of_kind(room, rng, kind, slo, slo % 2 == 0)
            }));
        }
    }
    if small {
        return list;
    }
    for (kind, slo) in [(0, 4), (4, 4), (11, 4), (65_545, 4), (9, 8), (9, 4_294_967_300)] {
        list.push(case(make::FAMILIES[4], move |room, _| make::of_wrong_number(room, kind, slo)));
    }
    for kind in [1, 2, 9] {
        list.push(case(make::FAMILIES[4], move |room, rng| make::of_deep(room, rng, kind)));
    }
    for number in [19, 20, 27] {
        list.push(case(make::FAMILIES[4], move |room, rng| make::of_refused(room, rng, number)));
    }
    for flags in [&[][..], &["-interlace"]] {
        for most in [1, 3, 15, 255, 65_535] {
            list.push(case(make::FAMILIES[2], move |room, rng| {
                make::of_png(room, rng, 1, most, flags)
            }));
        }
    }
    for flags in [&["-force"][..], &["-force", "-interlace"]] {
        for most in [255, 65_535] {
            list.push(case(make::FAMILIES[2], move |room, rng| {
                make::of_png(room, rng, 3, most, flags)
            }));
        }
    }
    for colors in [2, 4, 16, 200] {
        list.push(case(make::FAMILIES[2], move |room, rng| make::of_palette(room, rng, colors)));
    }
    list
}

fn usage_cases() -> Vec<Case> {
    let mut list = Vec::new();
    for call in usage::WRONG {
        list.push(case(usage::FAMILIES[0], move |room, _| usage::wrong(room, call)));
    }
    for call in [&[][..], &["see"], &["--json"]] {
        list.push(case(usage::FAMILIES[0], move |room, _| usage::no_command(room, call)));
    }
    for call in [
        &["--help"][..],
        &["info", "--help"],
        &["check", "--help"],
        &["view", "--help"],
        &["make", "--help"],
        &["compare", "--help"],
        &["move", "--help"],
    ] {
        list.push(case(usage::FAMILIES[1], move |room, _| usage::help(room, call)));
    }
    for name in ["--json", "--help", "--"] {
        list.push(case(usage::FAMILIES[2], move |room, _| usage::after_dashes(room, name)));
    }
    for command in usage::COMMANDS {
        list.push(case(usage::FAMILIES[4], move |room, _| usage::missing(room, command)));
        list.push(case(usage::FAMILIES[4], move |room, _| usage::directory(room, command)));
    }
    for full in [true, false] {
        for command in ["view", "move"] {
            list.push(case(usage::FAMILIES[3], move |room, _| usage::failing(room, command, full)));
        }
    }
    list
}
