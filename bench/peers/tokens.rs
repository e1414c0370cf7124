// The ring of bench/run.sh on one controller in plain Rust: N actors, each kicked with a number of its
// own line, pass tokens on until they are 0, or until so many turns were taken. It does what a
// controller of room does: the environment posts all lines; a step looks into each box, of one sender
// and one priority, and takes at most 64 messages from it, turns once, and posts what the turn sent;
// and each post, fetch and turn has a stamp and an entry. It keeps the journal until the run is over,
// and prints the very text that `room run` prints of this model. It reads no model, proves nothing,
// and knows one controller and these two signals alone.
// usage: tokens ACTORS INJECTIONS FUEL
use std::collections::VecDeque;
use std::fmt::{self, Display, Formatter};
use std::io::{self, BufWriter, Write};

const PRIORITIES: usize = 6;
const GENERAL: usize = 3;
/// The most messages that a step takes from one box.
const QUOTA: usize = 64;

#[derive(Clone, Copy, PartialEq)]
enum Party {
    Environment,
    Controller,
}

/// In the order in which a controller looks into their boxes.
const SENDERS: [Party; 2] = [Party::Environment, Party::Controller];

#[derive(Clone, Copy)]
enum Port {
    Go,
    Left,
    Right,
}

/// Place 0 of a port of the actor in a slot; generation 0 is whoever stands there.
#[derive(Clone, Copy)]
struct Endpoint {
    slot: usize,
    generation: u32,
    port: Port,
}

#[derive(Clone, Copy)]
enum Signal {
    Kick(i32),
    Tok(i32),
}

#[derive(Clone)]
struct Message {
    from: Party,
    stamp: u64,
    priority: usize,
    source: Option<Endpoint>,
    target: Endpoint,
    signal: Signal,
}

/// A message, named by who posted it and when.
#[derive(Clone, Copy)]
struct Name {
    from: Party,
    sent: u64,
}

#[derive(Clone, Copy)]
enum State {
    N,
}

enum Entry {
    Post(Message),
    Fetch { stamp: u64, what: Name },
    Turn { stamp: u64, what: Name, slot: usize, state: State },
}

struct Actor {
    generation: u32,
    state: State,
    /// Whom its port `right` leads to.
    right: usize,
}

/// What was posted and not yet fetched, a lane for each sender and priority.
#[derive(Default)]
struct Mail {
    lanes: [[VecDeque<Message>; SENDERS.len()]; PRIORITIES],
}

#[derive(Default)]
struct Environment {
    clock: u64,
    journal: Vec<Entry>,
}

struct Controller {
    actors: Vec<Actor>,
    clock: u64,
    turns: u64,
    fuel: u64,
    pending: [VecDeque<Message>; PRIORITIES],
    outbox: VecDeque<Message>,
    journal: Vec<Entry>,
}

impl Message {
    fn name(&self) -> Name {
        Name { from: self.from, sent: self.stamp }
    }
}

impl Mail {
    fn post(&mut self, message: Message) {
        self.lanes[message.priority][message.from as usize].push_back(message);
    }
}

impl Environment {
    fn post(&mut self, slot: usize, number: i32, mail: &mut Mail) {
        self.clock += 1;
        let message = Message {
            from: Party::Environment,
            stamp: self.clock,
            priority: GENERAL,
            source: None,
            target: Endpoint { slot, generation: 0, port: Port::Go },
            signal: Signal::Kick(number),
        };
        self.journal.push(Entry::Post(message.clone()));
        mail.post(message);
    }
}

impl Controller {
    /// Actors in a ring, each in its only state.
    fn new(actors: usize, fuel: u64) -> Controller {
        let actor = |slot| Actor { generation: 1, state: State::N, right: (slot + 1) % actors };
        Controller {
            actors: (0..actors).map(actor).collect(),
            clock: 0,
            turns: 0,
            fuel,
            pending: Default::default(),
            outbox: VecDeque::new(),
            journal: Vec::new(),
        }
    }

    fn is_spent(&self) -> bool {
        self.turns >= self.fuel
    }

    fn has_pending(&self) -> bool {
        self.pending.iter().any(|list| !list.is_empty())
    }

    fn fetch(&mut self, message: Message) {
        self.clock = self.clock.max(message.stamp) + 1;
        self.journal.push(Entry::Fetch { stamp: self.clock, what: message.name() });
        self.pending[message.priority].push_back(message);
    }

    /// Fetches at most so many messages from each box, those of the lowest urgency first.
    fn poll(&mut self, mail: &mut Mail, most: usize) {
        for priority in (0..PRIORITIES).rev() {
            for sender in SENDERS {
                let lane = &mut mail.lanes[priority][sender as usize];
                for message in lane.drain(..lane.len().min(most)) {
                    self.fetch(message);
                }
            }
        }
    }

    fn post_all(&mut self, mail: &mut Mail) {
        while let Some(mut message) = self.outbox.pop_front() {
            self.clock += 1;
            message.stamp = self.clock;
            self.journal.push(Entry::Post(message.clone()));
            mail.post(message);
        }
    }

    /// What the actor's chart does with a message: a kick goes to the right, and so does a token above 0.
    fn handle(&mut self, slot: usize, signal: Signal) {
        let number = match signal {
            Signal::Kick(number) => number,
            Signal::Tok(number) if number > 0 => number - 1,
            Signal::Tok(_) => return,
        };
        let Actor { generation, right, .. } = self.actors[slot];
        self.outbox.push_back(Message {
            from: Party::Controller,
            stamp: 0,
            priority: GENERAL,
            source: Some(Endpoint { slot, generation, port: Port::Right }),
            target: Endpoint {
                slot: right,
                generation: self.actors[right].generation,
                port: Port::Left,
            },
            signal: Signal::Tok(number),
        });
    }

    /// The most urgent message, of these the oldest, has its turn. It answers whether there was one.
    fn turn(&mut self) -> bool {
        let Some(message) = self.pending.iter_mut().find_map(VecDeque::pop_front) else {
            return false;
        };
        self.clock += 1;
        self.turns += 1;
        let slot = message.target.slot;
        self.handle(slot, message.signal);
        let state = self.actors[slot].state;
        self.journal.push(Entry::Turn { stamp: self.clock, what: message.name(), slot, state });
        true
    }

    /// Steps until nothing waits or the fuel is spent, and then fetches what the boxes still hold.
    fn run(&mut self, mail: &mut Mail) {
        while !self.is_spent() {
            self.poll(mail, QUOTA);
            if !self.turn() {
                break;
            }
            self.post_all(mail);
        }
        self.poll(mail, usize::MAX);
    }
}

/// Posts a line for each kick: `r0.go kick 7`.
fn post_lines(injections: &str, environment: &mut Environment, mail: &mut Mail) {
    for line in injections.lines() {
        let words: Vec<&str> = line.split_ascii_whitespace().collect();
        let [place, "kick", number] = words[..] else { panic!("no kick: {line}") };
        let path = place.strip_suffix(".go").expect("the port go");
        let slot = path.strip_prefix('r').and_then(|slot| slot.parse().ok()).expect("an actor");
        environment.post(slot, number.parse().expect("a number"), mail);
    }
}

impl Display for Port {
    fn fmt(&self, f: &mut Formatter) -> fmt::Result {
        f.write_str(match self {
            Port::Go => "go",
            Port::Left => "left",
            Port::Right => "right",
        })
    }
}

impl Display for Endpoint {
    fn fmt(&self, f: &mut Formatter) -> fmt::Result {
        write!(f, "r{}#{}.{}[0]", self.slot, self.generation, self.port)
    }
}

impl Display for Signal {
    fn fmt(&self, f: &mut Formatter) -> fmt::Result {
        match self {
            Signal::Kick(number) => write!(f, "kick {number}"),
            Signal::Tok(number) => write!(f, "tok {number}"),
        }
    }
}

impl Display for State {
    fn fmt(&self, f: &mut Formatter) -> fmt::Result {
        match self {
            State::N => f.write_str("N"),
        }
    }
}

impl Display for Name {
    fn fmt(&self, f: &mut Formatter) -> fmt::Result {
        match self.from {
            Party::Environment => write!(f, "env@{}", self.sent),
            Party::Controller => write!(f, "0@{}", self.sent),
        }
    }
}

/// What is told of a message behind its name: priority, ends and signal.
impl Display for Message {
    fn fmt(&self, f: &mut Formatter) -> fmt::Result {
        write!(f, "{} ", self.priority)?;
        match &self.source {
            Some(source) => write!(f, "{source}")?,
            None => f.write_str("-")?,
        }
        write!(f, " {} {}", self.target, self.signal)
    }
}

/// Writes entries in form 2, where fetches one after another are one line.
fn write_entries(out: &mut impl Write, entries: &[Entry], actors: &[Actor]) -> io::Result<()> {
    let mut in_fetches = false;
    for entry in entries {
        let is_fetch = matches!(entry, Entry::Fetch { .. });
        if in_fetches && !is_fetch {
            writeln!(out)?;
        }
        match entry {
            Entry::Post(message) => writeln!(out, "{} post 0 {message}", message.stamp)?,
            Entry::Fetch { what, .. } if in_fetches => write!(out, " {what}")?,
            Entry::Fetch { stamp, what } => write!(out, "{stamp} fetch {what}")?,
            Entry::Turn { stamp, what, slot, state } => {
                let generation = actors[*slot].generation;
                writeln!(out, "{stamp} turn {what} handled r{slot}#{generation} {state}")?;
            }
        }
        in_fetches = is_fetch;
    }
    if in_fetches {
        writeln!(out)?;
    }
    Ok(())
}

fn write_journals(
    out: &mut impl Write,
    controller: &Controller,
    environment: &Environment,
) -> io::Result<()> {
    writeln!(out, "room-journal 2\ncontroller 0 t0")?;
    for (slot, actor) in controller.actors.iter().enumerate() {
        writeln!(out, "start r{slot}#{} {}", actor.generation, actor.state)?;
    }
    write_entries(out, &controller.journal, &controller.actors)?;
    writeln!(out, "environment")?;
    write_entries(out, &environment.journal, &controller.actors)?;
    for message in controller.pending.iter().flatten() {
        writeln!(out, "left 0 pending {} {message}", message.name())?;
    }
    writeln!(out, "{}", if controller.has_pending() { "spent" } else { "done" })?;
    out.flush()
}

fn main() -> io::Result<()> {
    let words: Vec<String> = std::env::args().collect();
    let actors = words[1].parse().expect("how many actors");
    let injections = std::fs::read_to_string(&words[2])?;
    let fuel = words[3].parse().expect("how many turns");
    let mut mail = Mail::default();
    let mut environment = Environment::default();
    let mut controller = Controller::new(actors, fuel);
    post_lines(&injections, &mut environment, &mut mail);
    controller.run(&mut mail);
    let mut out = BufWriter::with_capacity(1 << 16, io::stdout().lock());
    write_journals(&mut out, &controller, &environment)
}
