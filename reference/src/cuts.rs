//! Document 02 (e), 'All cuts of a small tape': all of them are listed, in
//! order.

use crate::device::{check_length, decode, Command, Pending, LINE};
use crate::{refuse, Refusal};

/// "For at most 12 commands."
pub const MOST_COMMANDS: usize = 12;

/// "A count of commands and the choice bytes": here the choices of the lines
/// that have pending stores, rising by line. Every other line's is 0.
#[derive(Clone, Debug, PartialEq, Eq)]
pub struct Cut {
    pub count: usize,
    pub choices: Vec<(usize, u8)>,
}

/// "Every cut is given and none twice." The refusals are those that both calls
/// have: "1, then 14, then 17 if the tape has over 12 commands".
pub fn list(image: &[u8], tape: &[u8]) -> Result<Vec<Cut>, Refusal> {
    check_length(image)?;
    let commands = decode(tape, image.len())?;
    if commands.len() > MOST_COMMANDS {
        return refuse(17);
    }
    let mut cuts = Vec::new();
    // "Cuts rise by that count, then by the choice bytes."
    for count in 0..=commands.len() {
        for choices in all_choices(&pending(&commands[..count])) {
            cuts.push(Cut { count, choices });
        }
    }
    Ok(cuts)
}

/// The lines that have pending stores, rising, and how many each has: not more
/// than there are commands.
pub fn pending(commands: &[Command]) -> Vec<(usize, u8)> {
    let lines = Pending::after(commands).stores.into_iter();
    lines.map(|(line, stores)| (line, stores as u8)).collect()
}

/// "Compared line by line from line 0": for each choice of the first line, in
/// order, all choices of the lines after it. "A choice never exceeds the line's
/// pending stores."
fn all_choices(pending: &[(usize, u8)]) -> Vec<Vec<(usize, u8)>> {
    let Some((&(line, most), rest)) = pending.split_first() else {
        return vec![Vec::new()];
    };
    let rest = all_choices(rest);
    let mut all = Vec::new();
    for choice in 0..=most {
        for others in &rest {
            all.push([&[(line, choice)], &others[..]].concat());
        }
    }
    all
}

/// "One call gives the number of cuts."
pub fn count_cuts(image: &[u8], tape: &[u8]) -> Result<usize, Refusal> {
    Ok(list(image, tape)?.len())
}

/// "And another cut number r, from 0, as a count of commands and the choice
/// bytes."
pub fn nth_cut(image: &[u8], tape: &[u8], r: usize, choices: &mut [u8]) -> Result<usize, Refusal> {
    nth_of(&list(image, tape)?, image, r, choices)
}

/// The same with the cuts listed already: "then 16 for the choices buffer, then
/// 18 if r is not below the number".
pub fn nth_of(cuts: &[Cut], image: &[u8], r: usize, choices: &mut [u8]) -> Result<usize, Refusal> {
    if choices.len() != image.len() / LINE {
        return refuse(16);
    }
    let Some(cut) = cuts.get(r) else {
        return refuse(18);
    };
    choices.fill(0);
    for &(line, choice) in &cut.choices {
        choices[line] = choice;
    }
    Ok(cut.count)
}
