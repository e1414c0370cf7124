//! What the program of the views tells of strangers.

use crate::calls::Answer;
use crate::judging::Named;
use crate::random::Random;
use crate::{Stranger, Text};

/// A model above this length isn't asked why it is refused, since `why` tries many texts.
const MOST_OF_WHY: usize = 4_000;

/// The name behind a word of a text, one of those that stand there.
fn name_behind(random: &mut Random, word: &str, text: &[u8]) -> Option<String> {
    let text = String::from_utf8_lossy(text);
    let all: Vec<&str> = text.split_whitespace().collect();
    let names: Vec<&str> = all.windows(2).filter(|pair| pair[0] == word).map(|pair| pair[1]).collect();
    (!names.is_empty()).then(|| names[random.below(names.len())].to_string())
}

/// What is wrong with a page of a view, of which these statuses may come.
fn judge_page(word: &str, answer: &Answer, may_come: &[i32]) -> Option<String> {
    let Some(status) = answer.status else {
        return Some(format!("signal {} of a view", answer.signal.unwrap_or_default()));
    };
    // A page stands on standard output, and that the words name nothing in a note; a model may have no door.
    if !may_come.contains(&status) {
        Some(format!("status {status} of a view"))
    } else if answer.notes.is_empty() == (status == 1)
        || answer.out.is_empty() != (status == 1) && (word, status) != ("doors", 0)
    {
        Some(format!("notes of status {status} of a view"))
    } else {
        None
    }
}

/// What `why` answers of journals of which `verify` told this.
fn status_of_why(verdict: &Answer) -> i32 {
    match verdict.status {
        Some(9) => 3,
        Some(status) => status,
        None => -1,
    }
}

impl Stranger<'_> {
    /// The page for some words, which is judged.
    fn ask_for_page(&self, all: &[&str], may_come: &[i32]) -> Option<Text> {
        let views = self.lane.views.as_ref()?;
        let answer = self.call(views, &format!("views, {}", all[0]), all);
        if let Some(what) = judge_page(all[0], &answer, may_come) {
            self.tell(&format!("{what}, {}", all.join(" ")));
        }
        let status = answer.status.map_or("none".to_string(), |status| status.to_string());
        self.count(format!("views, {}: {status}", all[0]));
        Some(answer.out)
    }

    /// Of some changed journals, which stand in their file, why they aren't lawful, or what they tell.
    pub fn ask_for_views_of_journals(&self, random: &mut Random, verdict: &Answer) {
        if self.lane.views.is_none() || !random.percent(8) {
            return;
        }
        let may_come: &[i32] = match verdict.status {
            Some(2) => &[2],
            // The injections are refused, and nothing is known of the journals.
            Some(3) => &[0, 3],
            Some(9) => &[3],
            _ => &[0],
        };
        match random.below(6) {
            0 => self.ask_for_page(&["story", "model", "journals"], may_come),
            1 => self.ask_for_page(&["end", "model", "journals"], may_come),
            2 => self.ask_for_page(&["outputs", "model", "journals"], may_come),
            3 => self.ask_for_page(&["run", "model", "journals", "--svg"], may_come),
            _ => self.ask_for_page(&["why", "model", "inject", "journals"], &[status_of_why(verdict)]),
        };
    }

    /// Of some strangers a view of the model, and one of its journals: what a run printed is a run of its model.
    pub fn ask_for_views(&self, random: &mut Random, named: &Named, is_accepted: bool, journals: Option<Text>) {
        if self.lane.views.is_none() || !random.percent(8) {
            return;
        }
        self.lane.put("model", named.model);
        self.lane.put("inject", named.injections);
        if !is_accepted {
            if named.model.len() < MOST_OF_WHY {
                self.ask_for_page(&["why", "model"], &[2]);
            }
            return;
        }
        let form = random.one_of(&["--svg", "--dot", "--mermaid"]);
        let class = name_behind(random, "ActorClass", named.model).unwrap_or_default();
        match random.below(4) {
            0 => self.ask_for_page(&["lint", "model"], &[0, 1]),
            1 => self.ask_for_page(&["doors", "model"], &[0, 1]),
            2 => self.ask_for_page(&["wiring", "model", form], &[0, 1]),
            _ => self.ask_for_page(&["chart", "model", &class, form], &[0, 1]),
        };
        if let Some(journals) = journals {
            self.lane.put("journals", &journals);
            self.ask_of_run(random, form);
        }
    }

    fn ask_of_run(&self, random: &mut Random, form: &str) {
        let page = match random.below(6) {
            0 => self.ask_for_page(&["end", "model", "journals"], &[0, 1]),
            1 => self.ask_for_page(&["outputs", "model", "journals"], &[0, 1]),
            2 => self.ask_for_page(&["run", "model", "journals", form], &[0, 1]),
            3 => self.ask_for_page(&["explain", "model", "inject", "journals", "env@1"], &[0, 1]),
            _ => self.ask_for_page(&["story", "model", "journals"], &[0, 1]),
        };
        if page.is_some_and(|page| String::from_utf8_lossy(&page).contains("! not a run")) {
            self.tell("a view says that a run is none");
        }
    }
}
