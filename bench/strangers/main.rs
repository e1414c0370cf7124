//! Strangers: texts that nobody wrote. Makes and changes models, injections and journals from a seed, calls
//! the program on them, and tells each answer that is wrong. bench/strangers.sh says what is asked of them.
//! usage: strangers PROGRAM VIEWS LIBRARY FOLDER KEPT SEED FIRST COUNT LANES SLOWER <SEEDS
//! VIEWS is the program of the views, or empty. A line of SEEDS is `model FILE`, `run MODEL INJECTIONS` or
//! `journals MODEL INJECTIONS JOURNALS`, with tabs between; the injections may be missing (`-`).

mod calls;
mod changes;
mod costs;
mod judging;
mod making;
mod random;
mod shows;
mod views;

use calls::{Answer, Lane, Server};
use costs::{Limits, judge_cost};
use judging::{Named, judge};
use random::Random;
use std::collections::BTreeMap;
use std::path::PathBuf;
use std::sync::Mutex;
use std::sync::atomic::{AtomicU64, Ordering};
use std::{env, fs, io, thread};

type Text = Vec<u8>;

/// The texts that are changed.
#[derive(Default)]
struct Seeds {
    models: Vec<Text>,
    injections: Vec<(Text, Text)>,
    /// Models, their injections, and journals.
    journals: Vec<(Text, Text, Text)>,
}

/// What is shared by all lanes.
struct Search {
    seeds: Seeds,
    seed: u64,
    limits: Limits,
    kept: PathBuf,
    /// How often each kind of stranger had each status, or another end.
    seen: Mutex<BTreeMap<String, u64>>,
    /// How many calls of each word there were, and their microseconds of processor time.
    calls: Mutex<BTreeMap<String, (u64, u64)>>,
    wrong: AtomicU64,
}

/// A stranger on its way: the lane in which its calls are made, and its number.
struct Stranger<'a> {
    search: &'a Search,
    lane: &'a Lane,
    number: u64,
    kind: &'static str,
}

fn read_seeds() -> Seeds {
    let mut seeds = Seeds::default();
    let read = |path: &str| fs::read(path).unwrap_or_default();
    for line in io::stdin().lines() {
        let line = line.expect("seeds are text");
        match line.split('\t').collect::<Vec<&str>>().as_slice() {
            ["model", model] => seeds.models.push(read(model)),
            ["run", model, injections] => seeds.injections.push((read(model), read(injections))),
            ["journals", model, injections, journals] => {
                seeds.journals.push((read(model), read(injections), read(journals)));
            }
            _ => eprintln!("a line of seeds has another form: {line}"),
        }
    }
    seeds
}

/// A status, with what its note says beside places in the text.
fn summary(answer: &Answer) -> String {
    let status = answer.status.map_or("none".to_string(), |status| status.to_string());
    let notes = String::from_utf8_lossy(&answer.notes);
    let told = notes.rsplit_once(": ").map_or("", |(_, told)| told);
    let told = match told.split_whitespace().collect::<Vec<&str>>().as_slice() {
        ["rule", number] => format!(" rule {number}"),
        ["wiring", number] => format!(" wiring {number}"),
        ["chart", _, number] => format!(" chart {number}"),
        ["line", _, code] => format!(" code {code}"),
        [what, ..] => format!(" {what}"),
        [] => String::new(),
    };
    status + &told
}

impl Stranger<'_> {
    /// Tells of something wrong, and keeps the texts.
    fn tell(&self, what: &str) {
        self.search.wrong.fetch_add(1, Ordering::Relaxed);
        println!("    stranger {} ({}): {what}", self.number, self.kind);
        let folder = self.search.kept.join(format!("{}.{}", self.number, what.replace(' ', "-")));
        let _ = fs::create_dir_all(&folder);
        for name in ["model", "inject", "journals"] {
            let _ = fs::copy(self.lane.folder.join(name), folder.join(name));
        }
    }

    fn count(&self, what: String) {
        *self.search.seen.lock().expect("nobody panicked").entry(what).or_insert(0) += 1;
    }

    /// The answer of a program to some words, which counts as one of calls with this name.
    fn call(&self, program: &Server, name: &str, all: &[&str]) -> Answer {
        let answer = program.answer(all);
        let mut calls = self.search.calls.lock().expect("nobody panicked");
        let (count, microseconds) = calls.entry(name.to_string()).or_insert((0, 0));
        *count += 1;
        *microseconds += answer.microseconds;
        answer
    }

    /// The answer to some words, which is judged alone.
    fn ask(&self, all: &[&str], named: &Named) -> Answer {
        let answer = self.call(&self.lane.program, all[0], all);
        let told = judge(all[0], &answer, named).or_else(|| judge_cost(all[0], &answer, named, &self.search.limits));
        if let Some(what) = told {
            self.tell(&what);
        }
        answer
    }

    /// What the commands answer of a model; the tree of an accepted one. They agree on a refusal.
    fn ask_of_model(&self, model: &[u8]) -> Option<Text> {
        self.lane.put("model", model);
        let named = Named { model, ..Named::default() };
        let tree = self.ask(&["tree", "model"], &named);
        let check = self.ask(&["check", "model"], &Named { tree: &tree.out, ..named });
        if check.status != tree.status || check.notes != tree.notes {
            self.tell("check and tree differ");
        }
        if check.status == Some(0) && check.out != b"ok\n" {
            self.tell("check isn't ok");
        }
        self.count(format!("{}, check: {}", self.kind, summary(&check)));
        (tree.status == Some(0)).then_some(tree.out)
    }

    /// A run, whose journals are read back as they are, and are lawful where time doesn't move. Gives these.
    fn ask_for_run(&self, model: &[u8], injections: &[u8], tree: Option<&[u8]>, fuel: usize) -> Option<Text> {
        self.lane.put("model", model);
        self.lane.put("inject", injections);
        let fuel = fuel.to_string();
        let named = Named { model, injections, tree: tree.unwrap_or_default(), ..Named::default() };
        let run = self.ask(&["run", "model", "inject", "--fuel", &fuel], &named);
        if tree.is_some() && run.status == Some(2) {
            self.tell("run refuses what tree accepts");
        }
        self.count(format!("{}, run: {}", self.kind, summary(&run)));
        if !matches!(run.status, Some(0 | 4)) {
            return None;
        }
        let convert = self.ask_for_journals(&Named { journals: &run.out, ..named }, "run, convert");
        if convert.status != Some(0) || convert.out != run.out {
            self.tell("a run's journals aren't read back");
        }
        let verdict = self.ask_for_verdict(&Named { journals: &run.out, ..named }, &fuel, "run, verify");
        match verdict.status {
            Some(0) => {}
            Some(3) if changes::moves_time(injections) => {}
            _ => self.tell("a run's journals aren't lawful"),
        }
        Some(run.out)
    }

    /// What is judged of journals, which stand in their file.
    fn ask_for_verdict(&self, named: &Named, fuel: &str, how: &str) -> Answer {
        self.lane.put("inject", named.injections);
        let answer = self.ask(&["verify", "model", "inject", "journals", "--fuel", fuel], named);
        self.count(format!("{}, {how}: {}", self.kind, summary(&answer)));
        self.ask_for_system(named, &answer);
        answer
    }

    /// What is converted of journals: those in form 2 stay as they are, and so does what comes out.
    fn ask_for_journals(&self, named: &Named, how: &str) -> Answer {
        self.lane.put("model", named.model);
        self.lane.put("journals", named.journals);
        let answer = self.ask(&["convert", "model", "journals"], named);
        self.count(format!("{}, {how}: {}", self.kind, summary(&answer)));
        if answer.status != Some(0) {
            return answer;
        }
        if named.journals.starts_with(b"room-journal 2\n") {
            if answer.out != named.journals {
                self.tell("journals in form 2 are converted to others");
            }
        } else {
            self.lane.put("journals", &answer.out);
            let again = self.ask(&["convert", "model", "journals"], &Named { journals: &answer.out, ..*named });
            if again.out != answer.out {
                self.tell("what was converted is converted to others");
            }
            self.lane.put("journals", named.journals);
        }
        answer
    }
}

fn one<'a, T>(random: &mut Random, items: &'a [T]) -> &'a T {
    &items[random.below(items.len())]
}

impl Stranger<'_> {
    /// A model that was changed, with its injections if it has some.
    fn changed_model(&mut self, random: &mut Random) {
        let seeds = &self.search.seeds;
        let (mut model, injections) = if random.percent(50) {
            (one(random, &seeds.models).clone(), Text::new())
        } else {
            one(random, &seeds.injections).clone()
        };
        let other = one(random, &seeds.models);
        let most = [20_000, 100_000, 300_000, 1_000_000][random.below(4)];
        match random.below(300) {
            0 => {
                self.kind = "grown model";
                changes::grow(random, &mut model, most);
            }
            1 => {
                self.kind = "nested model";
                changes::nest(random, &mut model, most);
            }
            _ => {
                self.kind = "changed model";
                changes::change_model(random, &mut model, other);
            }
        }
        let tree = self.ask_of_model(&model);
        let mut journals = None;
        if tree.is_some() || random.percent(5) {
            let fuel = 1 + random.below(60);
            journals = self.ask_for_run(&model, &injections, tree.as_deref(), fuel);
        }
        self.ask_for_views(random, &Named { model: &model, injections: &injections, ..Named::default() }, tree.is_some(), journals);
    }

    fn made_model(&mut self, random: &mut Random) {
        self.kind = "made model";
        let mut model = making::model(random).into_bytes();
        if random.percent(15) {
            self.kind = "made and changed model";
            let other = one(random, &self.search.seeds.models);
            changes::change_model(random, &mut model, other);
        }
        if let Some(tree) = self.ask_of_model(&model) {
            let injections = making::injections(random, &String::from_utf8_lossy(&tree));
            let fuel = 1 + random.below(60);
            let journals = self.ask_for_run(&model, injections.as_bytes(), Some(&tree), fuel);
            let named = Named { model: &model, injections: injections.as_bytes(), ..Named::default() };
            self.ask_for_views(random, &named, true, journals);
        }
    }

    fn changed_injections(&mut self, random: &mut Random) {
        self.kind = "changed injections";
        let seeds = &self.search.seeds;
        let (model, mut injections) = one(random, &seeds.injections).clone();
        let other = &one(random, &seeds.injections).1;
        changes::change_lines(random, &mut injections, other);
        let fuel = 1 + random.below(60);
        self.ask_for_run(&model, &injections, None, fuel);
    }

    fn changed_journals(&mut self, random: &mut Random) {
        self.kind = "changed journals";
        let seeds = &self.search.seeds;
        let (model, injections, mut journals) = one(random, &seeds.journals).clone();
        let other = if random.percent(50) { journals.clone() } else { one(random, &seeds.journals).2.clone() };
        changes::change_lines(random, &mut journals, &other);
        let named = Named { model: &model, injections: &injections, journals: &journals, ..Named::default() };
        let convert = self.ask_for_journals(&named, "convert");
        let verdict = self.ask_for_verdict(&named, "10000", "verify");
        // Journals that aren't tied have no form 2, and are no run's.
        let agree = match (convert.status, verdict.status) {
            (Some(0), _) => verdict.status != Some(9),
            (Some(9), Some(8)) => summary(&convert) == "9 untied",
            (Some(9), Some(9)) => convert.notes == verdict.notes,
            (_, Some(status)) => matches!(status, 2 | 3),
            _ => false,
        };
        if !agree {
            self.tell("convert and verify differ");
        }
        self.ask_for_views_of_journals(random, &verdict);
    }

    /// Words that nobody would write, over files that are there.
    fn strange_words(&mut self, random: &mut Random) {
        self.kind = "strange words";
        let (model, injections) = one(random, &self.search.seeds.injections).clone();
        self.lane.put("model", &model);
        self.lane.put("inject", &injections);
        self.lane.put("journals", b"");
        let count = 1 + random.below(6);
        let some = ["run", "check", "tree", "convert", "verify", "show", "--at", "made", "--fuel", "model", "model", "inject", "3", "0", "007", "-1", "", "--", "é", "100001"];
        let all: Vec<&str> = (0..count).map(|_| some[random.below(some.len())]).collect();
        let answer = self.call(&self.lane.program, self.kind, &all);
        let told = if all.contains(&"inject") || !matches!(answer.status, Some(1 | 6)) {
            // What the second file is can't be told here of each list of words.
            answer.signal.map(|signal| format!("signal {signal}"))
        } else if answer.status == Some(6) {
            (answer.notes != b"room: read fault\n" || !answer.out.is_empty()).then(|| "notes of status 6".to_string())
        } else {
            judge("", &answer, &Named { model: &model, injections: &injections, ..Named::default() })
        };
        if let Some(what) = told {
            self.tell(&format!("{what} of {}", all.join(" ")));
        }
        self.count(format!("{}: {}", self.kind, summary(&answer)));
    }

    fn try_out(&mut self) {
        let mut random = Random::new(self.search.seed, self.number);
        match random.below(100) {
            0..=34 => self.changed_model(&mut random),
            35..=59 => self.made_model(&mut random),
            60..=74 => self.changed_injections(&mut random),
            75..=97 => self.changed_journals(&mut random),
            _ => self.strange_words(&mut random),
        }
    }
}

/// A lane in a folder of its own, for the programs and the library of these names.
fn lane(folder: &str, number: u64, [program, views, library]: [&str; 3]) -> Lane {
    let folder = PathBuf::from(folder).join(format!("lane.{number}"));
    fs::create_dir_all(&folder).expect("the folder can be written");
    let views = (!views.is_empty()).then(|| Server::start(views, library, &folder));
    Lane { program: Server::start(program, library, &folder), views, folder }
}

impl Search {
    /// Tries strangers in a lane, each with the next number, as far as this one.
    fn work(&self, lane: &Lane, next: &AtomicU64, first: u64, end: u64) {
        loop {
            let number = next.fetch_add(1, Ordering::Relaxed);
            if number >= end {
                return;
            }
            if number > first && (number - first).is_multiple_of(10_000) {
                println!("{} so far, {} wrong", number - first, self.wrong.load(Ordering::Relaxed));
            }
            Stranger { search: self, lane, number, kind: "" }.try_out();
        }
    }

    fn tell(&self, count: u64) {
        for (what, times) in self.seen.lock().expect("nobody panicked").iter() {
            println!("{times:8} {what}");
        }
        for (word, (times, microseconds)) in self.calls.lock().expect("nobody panicked").iter() {
            println!("{times:8} calls of {word}, of {} microseconds", microseconds / times);
        }
        println!("{count} strangers of seed {}, {} wrong", self.seed, self.wrong.load(Ordering::Relaxed));
    }
}

fn main() {
    let given: Vec<String> = env::args().skip(1).collect();
    let [program, views, library, folder, kept, numbers @ ..] = given.as_slice() else {
        panic!("too few words");
    };
    let files: [&str; 3] = [program, views, library];
    let numbers: Vec<u64> = numbers.iter().map(|word| word.parse().expect("a number")).collect();
    let [seed, first, count, lanes, slower] = numbers[..] else {
        panic!("another number of numbers");
    };
    let limits = Limits::measure(&lane(folder, 0, files), slower);
    limits.tell();
    let search = Search {
        seeds: read_seeds(),
        seed,
        limits,
        kept: kept.into(),
        seen: Mutex::default(),
        calls: Mutex::default(),
        wrong: AtomicU64::new(0),
    };
    let next = AtomicU64::new(first);
    thread::scope(|scope| {
        for number in 0..lanes {
            let lane = lane(folder, number, files);
            let (search, next) = (&search, &next);
            scope.spawn(move || search.work(&lane, next, first, first + count));
        }
    });
    search.tell(count);
}
