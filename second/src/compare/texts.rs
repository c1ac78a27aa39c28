//! Random cases for `encode`.

mod damage;

use super::case::Case;
use super::expected::Expected;
use super::{simulation, with_damage};
use crate::chance::Chance;
use crate::encode;
use crate::record::{MOST_MACHINES, State};

/// What `encode` is given: the word for the machine, and the text's words by line.
struct Text {
    machine: String,
    lines: Vec<Vec<String>>,
}

const VERBS: &[&str] = &["sends", "gets"];

/// A text, mostly damaged in one way or two.
pub fn random_case(chance: &mut Chance) -> Case {
    let mut text = random_text(chance);
    let mut ways: Vec<&str> = (0..*chance.pick(&[0, 0, 1, 1, 1, 2]))
        .map_while(|_| damage::random_damage(&mut text, chance))
        .collect();
    let mut written = write(&text.lines, chance);
    if chance.one_in(8) {
        ways.push("a character changed");
        written = damage::change_character(&written, chance);
    }
    let what = with_damage("a text", &ways);
    let expected = match encode::encode(text.machine.as_bytes(), written.as_bytes()) {
        Ok(record) => Expected::Record(record),
        Err(_) => Expected::Trouble,
    };
    Case::encode(&what, &text.machine, &written, expected)
}

fn random_text(chance: &mut Chance) -> Text {
    let mut text = Text {
        machine: chance.below(MOST_MACHINES.into()).to_string(),
        lines: vec![random_state(chance)],
    };
    let doings = chance.below(9);
    grow(&mut text, doings, chance);
    text
}

/// Adds doings until there are so many.
fn grow(text: &mut Text, doings: usize, chance: &mut Chance) {
    while text.lines.len() < doings + 1 {
        let mut line = random_state(chance);
        if !chance.one_in(3) {
            line.push(chance.pick(VERBS).to_string());
            let anywhere = chance.within(1..=u32::MAX);
            let letter = *chance.pick(&[1, 7, 256, u32::MAX, anywhere]);
            line.push(in_digits(letter, chance));
        }
        text.lines.push(line);
    }
}

fn random_state(chance: &mut Chance) -> Vec<String> {
    let State { sign, amount } = simulation::random_state(chance);
    let sign = if sign { "yes" } else { "no" };
    vec![sign.to_string(), in_digits(amount, chance)]
}

/// A number, sometimes with leading zeros.
fn in_digits(number: u32, chance: &mut Chance) -> String {
    let zeros = *chance.pick(&[0, 0, 0, 0, 1, 3, 25]);
    format!("{}{number}", "0".repeat(zeros))
}

/// The text of the lines, with blanks and comments strewn in.
fn write(lines: &[Vec<String>], chance: &mut Chance) -> String {
    let mut written = String::new();
    for line in lines {
        pass_over(&mut written, chance);
        written += *chance.pick(&["", "", "", " ", "\t", "   \t "]);
        for (number, word) in line.iter().enumerate() {
            if number > 0 {
                written += *chance.pick(&[" ", " ", " ", "\t", "  ", " \t  "]);
            }
            written += word;
        }
        written += *chance.pick(&["", "", "", " ", "\t", "# so", " #", " # yes 5 # no"]);
        written += "\n";
    }
    pass_over(&mut written, chance);
    if chance.one_in(3) && written.ends_with('\n') {
        written.pop();
    }
    written
}

/// Now and then a few lines that say nothing.
fn pass_over(written: &mut String, chance: &mut Chance) {
    while chance.one_in(5) {
        *written += *chance.pick(&["\n", " \t\n", "#\n", "# yes 5\n", "\t## no 1 sends 2\n"]);
    }
}
