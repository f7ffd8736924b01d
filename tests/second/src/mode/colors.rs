//! The color calls of mode `calls`: single ones, those of known colors, and of sheets that are moved.

use crate::calls::call::{numbers, Bench, ColorCall};
use crate::gen::calls::some_value;
use crate::gen::sheet::TYPES;
use crate::model::c::COLOR_ANSWER;
use crate::model::header::Color;
use crate::model::word;
use crate::report::{fault, Found};
use crate::rng::Rng;

/// Values on both sides of each limit.
const VALUES: [u32; 5] = [0, 1, 2, 255, 256];

/// What both calls must have reached by what is always run.
pub fn all() -> Vec<String> {
    let mut all = Vec::new();
    for call in ColorCall::BOTH {
        for kind in TYPES {
            for value in VALUES {
                all.extend((0..=2).map(|ctv| told(call, value, kind.into(), ctv, true)));
                all.push(told(call, value, kind.into(), 2, false));
            }
        }
    }
    all
}

/// Nothing but an Environ-V table may have a value or not.
fn told(call: ColorCall, value: u32, kind: u64, ctv: u64, has_slot: bool) -> String {
    let lacks = if ctv == 2 && !has_slot { " without that slot" } else { "" };
    format!("{} of {value} in type {kind} table {ctv}{lacks}", call.name())
}

/// What a call reached, by what it returned.
fn reached_by(call: ColorCall, file: &[u8], value: u32, result: u32) -> Vec<String> {
    let name = call.name();
    let accepted = matches!(result, 0 | 25) && file.len() >= 1_024;
    let mut all = match result {
        0 if accepted => vec![format!("{name} by table {}", word(file, 532))],
        number => vec![format!("{name} refused {number}")],
    };
    if accepted && VALUES.contains(&value) {
        all.push(told(call, value, word(file, 4), word(file, 532), result == 0));
    }
    if result == 25 && value > 65_535 {
        all.push(format!("{name} of a value above 65,535"));
    }
    all
}

/// Both calls with the same file, value and length of their answers.
pub fn check(
    bench: &Bench,
    rng: &mut Rng,
    file: &[u8],
    value: u32,
    answer: usize,
    reached: &mut Vec<String>,
) -> Found {
    let [color, plotter] = ColorCall::BOTH.map(|call| {
        let (done, found) = bench.color(rng, call, file, value, answer);
        reached.extend(reached_by(call, file, value, done.result));
        found
    });
    color.and(plotter)
}

/// What a call showed: parts, or the number that it was refused with.
type Shown = Result<Vec<u64>, u32>;

/// Both calls with each of these values.
fn show(
    bench: &Bench,
    rng: &mut Rng,
    file: &[u8],
    values: &[u32],
    reached: &mut Vec<String>,
) -> (Vec<[Shown; 2]>, Found) {
    let mut all = Vec::new();
    let mut judged = Vec::new();
    for &value in values {
        all.push(ColorCall::BOTH.map(|call| {
            let (done, found) = bench.color(rng, call, file, value, COLOR_ANSWER);
            reached.extend(reached_by(call, file, value, done.result));
            judged.push(found);
            match done.result {
                0 => Ok(numbers(&done.answer, 3)),
                number => Err(number),
            }
        }));
    }
    (all, judged.into_iter().reduce(Found::and).expect("some values are asked for"))
}

/// Both calls against colors that are known without the model.
pub fn check_known(
    bench: &Bench,
    rng: &mut Rng,
    file: &[u8],
    known: &[(u32, [Color; 2])],
    reached: &mut Vec<String>,
) -> Found {
    let values: Vec<u32> = known.iter().map(|(value, _)| *value).collect();
    let (shown, found) = show(bench, rng, file, &values, reached);
    found.then(|| {
        for (shown, (value, colors)) in shown.iter().zip(known) {
            let wanted = colors.map(|color| color.map(Vec::from).ok_or(25));
            if *shown != wanted {
                let text = format!("colors of {value} are {shown:?}, known to be {wanted:?}");
                return Err(fault(text, vec![("file", file.to_vec())]));
            }
        }
        Ok(())
    })
}

/// Above so many bytes a file is asked for one value.
const LARGE: usize = 1 << 16;

/// Whether all of these files show the same colors, whatever the model says of each.
pub fn alike(
    bench: &Bench,
    rng: &mut Rng,
    files: [&[u8]; 3],
    reached: &mut Vec<String>,
) -> (bool, Found) {
    let any = some_value(rng, files[0]);
    let bit = rng.below(2) as u32;
    let values = [bit, 1 - bit, any];
    let values = if files[0].len() > LARGE { &values[..1] } else { &values };
    let [first, second, third] = files.map(|file| show(bench, rng, file, values, reached));
    (first.0 == second.0 && first.0 == third.0, first.1.and(second.1).and(third.1))
}
