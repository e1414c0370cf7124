//! What an answer may cost, in memory and in time.

use crate::calls::{Answer, Lane};
use crate::judging::Named;
use std::fmt::Write;

/// The most controllers of a model.
const MOST_CONTROLLERS: usize = 32;

/// What may be taken beyond what the smallest model takes.
const SPARE: u64 = 100_000;

/// The most bytes of memory of some commands on the same files.
struct Memory {
    run: u64,
    convert: u64,
    verify: u64,
}

/// What the smallest models take; anything may take as much.
pub struct Limits {
    /// With one controller, two, and so on.
    least: Vec<Memory>,
    microseconds: u64,
    /// How many times as long as a proved program the program may take.
    slower: u64,
}

/// A model of so many controllers, each with an actor, and a line for each of these.
fn smallest(controllers: usize) -> (String, String) {
    let mut model = "RoomModel M { LogicalSystem L { SubSystemRef s: S } SubSystemClass S {".to_string();
    let mut lines = String::new();
    for number in 0..controllers {
        let _ = write!(model, " ActorRef a{number}: A");
        let _ = writeln!(lines, "a{number}.go m");
    }
    for number in 0..controllers {
        let _ = write!(model, " LogicalThread t{number}");
    }
    for number in 0..controllers {
        let _ = write!(model, " ActorInstanceMapping a{number} -> t{number}");
    }
    model.push_str(" } ProtocolClass G { incoming { Message m() } outgoing { } } ActorClass A { Structure { Port go: G } } }");
    (model, lines)
}

/// What the smallest model of so many controllers takes, and the microseconds of its run.
fn cost_of_smallest(lane: &Lane, controllers: usize) -> (Memory, u64) {
    let (model, lines) = smallest(controllers);
    lane.put("model", model.as_bytes());
    lane.put("inject", lines.as_bytes());
    let run = lane.program.answer(&["run", "model", "inject"]);
    assert_eq!(run.status, Some(0), "the smallest model runs");
    lane.put("journals", &run.out);
    let convert = lane.program.answer(&["convert", "model", "journals"]);
    let verify = lane.program.answer(&["verify", "model", "inject", "journals"]);
    (Memory { run: run.most, convert: convert.most, verify: verify.most }, run.microseconds)
}

impl Limits {
    pub fn measure(lane: &Lane, slower: u64) -> Limits {
        let mut limits = Limits { least: Vec::new(), microseconds: 0, slower };
        for controllers in 1..=MOST_CONTROLLERS {
            let (memory, microseconds) = cost_of_smallest(lane, controllers);
            limits.least.push(memory);
            if controllers == 1 {
                limits.microseconds = microseconds * 4 + 50_000;
            }
        }
        limits
    }

    /// What the smallest model takes, with one controller, with two and with all.
    pub fn tell(&self) {
        for controllers in [1, 2, MOST_CONTROLLERS] {
            let Memory { run, convert, verify } = self.least[controllers - 1];
            println!("controllers {controllers}: bytes of run {run}, convert {convert}, verify {verify}");
        }
    }

    /// The memory for a word of a model of so many controllers, however short the texts are.
    fn least(&self, word: &str, controllers: usize) -> u64 {
        let memory = &self.least[controllers.clamp(1, MOST_CONTROLLERS) - 1];
        match word {
            "convert" => memory.convert,
            "verify" | "show" => memory.verify,
            _ => memory.run,
        }
    }
}

/// How many controllers journals have.
fn controllers_of(journals: &[u8]) -> usize {
    journals.split(|byte| *byte == b'\n').filter(|line| line.starts_with(b"controller ")).count()
}

/// What no text names one by one has a limit: places, slots, and the numbers of a class's attributes.
const MOST_PLACES: u64 = 65_536;
const MOST_SLOTS: u64 = 4_096;
const MOST_NUMBERS: u64 = 4_096;

/// The most bytes for each byte that came in or went out: 60 that are asked for, and what the allocator adds, which
/// sets 24 aside where one is asked for.
const OF_A_BYTE: u64 = 64;

/// The most bytes that each of them takes.
const OF_A_PLACE: u64 = 80;
const OF_A_SLOT: u64 = 300;
const OF_A_NUMBER: u64 = 240;

/// Numbers in brackets stand for places and slots.
fn has_a_large_number_in_brackets(text: &[u8]) -> bool {
    let mut digits = None;
    for byte in text.iter().filter(|byte| !byte.is_ascii_whitespace()) {
        digits = match (byte, digits) {
            (b'[', _) => Some(0),
            (b'0'..=b'9', Some(count)) => Some(count + 1),
            (_, Some(2..)) => return true,
            _ => None,
        };
    }
    false
}

/// What a model may take for what it stands for: references, each in an actor of another one, for slots, and these
/// for a place of each port; an attribute of a data class for its numbers.
fn of_what_it_stands_for(model: &[u8]) -> u64 {
    let references = count_of(b"ActorRef", model);
    let is_large = has_a_large_number_in_brackets(model);
    let slots = if is_large { MOST_SLOTS } else { MOST_SLOTS.min(references.pow(3)) };
    let ports = count_of(b"Port", model) + count_of(b"SAP", model) + count_of(b"SPP", model);
    let places = if is_large { MOST_PLACES } else { MOST_PLACES.min(slots * ports) };
    let with_data = count_of(b"DataClass", model) > 0;
    let numbers = if with_data { MOST_NUMBERS * count_of(b"ActorClass", model) } else { 0 };
    places * OF_A_PLACE + slots * OF_A_SLOT + numbers * OF_A_NUMBER
}

fn count_of(word: &[u8], text: &[u8]) -> u64 {
    text.windows(word.len()).filter(|window| *window == word).count() as u64
}

/// Whether an answer took more memory than 60 bytes for each byte that came in or went out, or more time than a
/// second for each 100 KB, beyond what the smallest model of as many controllers takes: a run has a mail between each
/// two of these, however little is sent. Classes that extend others stand for the text of these, and a text may stand
/// for more than it names. The time of a run depends on its actions.
pub fn judge_cost(word: &str, answer: &Answer, named: &Named, limits: &Limits) -> Option<String> {
    let given = named.model.len() + named.injections.len() + named.journals.len();
    let copies = 1 + count_of(b"extends", named.model);
    let bytes = (given + answer.out.len() + named.tree.len()) as u64 * copies;
    let controllers = controllers_of(if word == "run" { &answer.out } else { named.journals });
    let least = limits.least(word, controllers) + SPARE;
    if answer.most > OF_A_BYTE * bytes + of_what_it_stands_for(named.model) + least {
        return Some(format!("{} bytes of memory of {word} for {bytes} bytes", answer.most));
    }
    let most = limits.slower * (bytes * 10 + limits.microseconds);
    if word != "run" && answer.microseconds > most {
        return Some(format!("{} microseconds of {word} for {bytes} bytes", answer.microseconds));
    }
    None
}
