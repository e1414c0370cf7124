//! What `show` tells of journals, beside what `verify` tells of the same ones.

use crate::calls::Answer;
use crate::judging::Named;
use crate::random::Random;
use crate::{Stranger, summary};

/// A number in digits alone, which is a stamp.
fn stamp(word: &[u8]) -> Option<i64> {
    std::str::from_utf8(word).ok().filter(|word| word.bytes().all(|byte| byte.is_ascii_digit()))?.parse().ok()
}

/// The start, the end, a stamp of the journals, or one beside it.
fn some_stamp(random: &mut Random, journals: &[u8]) -> i64 {
    let first_word = |line: &[u8]| line.split(|byte| *byte == b' ').next().and_then(stamp);
    let stamps: Vec<i64> = journals.split(|byte| *byte == b'\n').filter_map(first_word).collect();
    if stamps.is_empty() || random.percent(10) {
        return [0, i64::MAX][random.below(2)];
    }
    stamps[random.below(stamps.len())].saturating_add([-1, 0, 0, 1][random.below(4)]).max(0)
}

/// Whether the system is shown at a stamp, where `verify` told this: an entry behind it isn't judged, nor what
/// was left and how the run ended.
fn is_to_be_shown(verdict: &Answer, stamp: i64) -> bool {
    let notes = String::from_utf8_lossy(&verdict.notes);
    match notes.split_whitespace().skip(2).collect::<Vec<&str>>().as_slice() {
        ["order" | "start", ..] => false,
        ["entry", _, first] => first.parse().is_ok_and(|first: i64| first > stamp),
        _ => matches!(verdict.status, Some(0 | 8)),
    }
}

impl Stranger<'_> {
    /// Of one in three journals the system at a stamp, or what `verify` told of them.
    pub fn ask_for_system(&self, named: &Named, verdict: &Answer) {
        let mut random = Random::new(!self.search.seed, self.number);
        if !random.percent(33) {
            return;
        }
        let at = some_stamp(&mut random, named.journals);
        let answer = self.ask(&["show", "model", "inject", "journals", "--at", &at.to_string()], named);
        self.count(format!("{}, show: {}", self.kind, summary(&answer)));
        if !is_to_be_shown(verdict, at) {
            if (answer.status, &answer.notes) != (verdict.status, &verdict.notes) {
                self.tell(&format!("verify and show differ at {at}"));
            }
        } else if !answer.out.starts_with(format!("at {at}\n").as_bytes()) || !answer.out.ends_with(b"\nend\n") {
            self.tell(&format!("no system at {at}"));
        }
    }
}
