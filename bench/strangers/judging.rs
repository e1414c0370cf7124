//! What is wrong with an answer, by docs/STATUSES.md and by what else is promised.

use crate::calls::Answer;

/// The texts that the words name, and what `tree` prints of the model where that is known; empty ones for none.
#[derive(Clone, Copy, Default)]
pub struct Named<'a> {
    pub model: &'a [u8],
    pub injections: &'a [u8],
    pub journals: &'a [u8],
    pub tree: &'a [u8],
}

fn number(word: &str) -> Option<usize> {
    let is_plain = word == "0" || (!word.starts_with('0') && word.bytes().all(|byte| byte.is_ascii_digit()));
    if is_plain { word.parse().ok() } else { None }
}

fn is_within(word: &str, least: usize, most: usize) -> bool {
    number(word).is_some_and(|number| least <= number && number <= most)
}

fn line_count(text: &[u8]) -> usize {
    text.iter().filter(|byte| **byte == b'\n').count() + 1
}

fn tells_of_the_model(told: &[&str], text: &[u8]) -> bool {
    match told {
        ["too", "long"] => text.len() > 1_048_576,
        ["byte", offset] => is_within(offset, 0, text.len().saturating_sub(1)),
        ["syntax", line] => is_within(line, 1, line_count(text)),
        ["rule", rule] => is_within(rule, 1, 31),
        ["wiring", fault] => is_within(fault, 1, 5),
        ["chart", _, fault] => is_within(fault, 1, 8),
        _ => false,
    }
}

/// Code 7 is told by those alone who judge journals.
fn tells_of_injections(told: &[&str], text: &[u8], codes: usize) -> bool {
    match told {
        ["too", "long"] => text.len() > 1_048_576,
        ["line", line, code] => is_within(line, 1, line_count(text)) && is_within(code, 1, codes),
        _ => false,
    }
}

fn is_party(word: &str) -> bool {
    word == "env" || is_within(word, 0, 31)
}

fn tells_a_verdict(told: &[&str]) -> bool {
    match told {
        ["order", party] => is_party(party),
        ["start" | "fuel", controller] => is_within(controller, 0, 31),
        ["entry", party, stamp] => is_party(party) && number(stamp).is_some(),
        ["left" | "ended"] => true,
        ["prompt", controller, stamp] => is_within(controller, 0, 31) && number(stamp).is_some(),
        _ => false,
    }
}

fn tells_of_journals(told: &[&str], text: &[u8]) -> bool {
    match told {
        ["malformed", offset] => is_within(offset, 0, text.len()),
        ["untied", controller, stamp] => is_within(controller, 0, 31) && number(stamp).is_some(),
        _ => false,
    }
}

/// Whether the notes are those of a status that may come where files can be read and written and there
/// is memory.
fn has_its_note(word: &str, answer: &Answer, status: i32, named: &Named) -> bool {
    if status == 0 || status == 4 {
        return answer.notes.is_empty();
    }
    let Some(line) = std::str::from_utf8(&answer.notes).ok().and_then(|notes| notes.strip_suffix('\n')) else {
        return false;
    };
    let words: Vec<&str> = line.split(' ').collect();
    match (status, words.as_slice()) {
        (1, ["room:", "words", "refused"]) => true,
        (2, ["room:", "model", "refused:", told @ ..]) => tells_of_the_model(told, named.model),
        (3, ["room:", "injections", "refused:", told @ ..]) => {
            tells_of_injections(told, named.injections, if word == "run" { 6 } else { 7 })
        }
        (8, ["room:", "unlawful:", told @ ..]) => tells_a_verdict(told),
        (9, ["room:", "journals", "refused:", told @ ..]) => tells_of_journals(told, named.journals),
        _ => false,
    }
}

fn may_come(word: &str, status: i32) -> bool {
    match word {
        "check" | "tree" => matches!(status, 0 | 2),
        "run" => matches!(status, 0 | 2 | 3 | 4),
        "convert" => matches!(status, 0 | 2 | 9),
        "verify" | "show" => matches!(status, 0 | 2 | 3 | 8 | 9),
        _ => matches!(status, 0..=4 | 8 | 9),
    }
}

/// What is wrong with the status, the output and the notes of an answer to words that begin so.
pub fn judge(word: &str, answer: &Answer, named: &Named) -> Option<String> {
    let Some(status) = answer.status else {
        return Some(format!("signal {}", answer.signal.unwrap_or_default()));
    };
    if !may_come(word, status) {
        Some(format!("status {status} of {word}"))
    } else if !has_its_note(word, answer, status, named) {
        Some(format!("notes of status {status}"))
    } else if status != 0 && status != 4 && !answer.out.is_empty() {
        Some(format!("output beside status {status}"))
    } else if (status == 0 || status == 4) && answer.out.is_empty() && word != "tree" {
        Some(format!("no output beside status {status}"))
    } else {
        None
    }
}
