// The work of bench/bodies.sh in plain Rust: a body of so many slots is created and destroyed so many
// times, with the tables that room keeps, and a journal that keeps an entry for each step and a note for
// each actor that comes up or goes down. With a third word, `boxed`, each actor has memory of its own.
// It writes no text.
// usage: bodies SLOTS TIMES [boxed]
use std::collections::VecDeque;
use std::time::Instant;

#[derive(Clone, Copy, PartialEq)]
enum Kind {
    Fixed,
    Optional,
}

struct Slot {
    parent: Option<u16>,
    kind: Kind,
    owner: u8,
    class: u16,
}

#[derive(Clone, Copy)]
struct Incarnation {
    slot: u16,
    generation: u32,
}

#[derive(Clone, Copy)]
enum Signal {
    Create,
    CreateDone,
    Created,
    Destroy,
    DestroyDone,
    Destroyed,
    Announce,
}

#[derive(Clone)]
struct Message {
    signal: Signal,
    stamp: u64,
    target: Incarnation,
    payload: [i64; 3],
}

enum Note {
    Up { who: Incarnation, state: u16 },
    Down { who: Incarnation, lost: u64 },
}

enum Entry {
    Post { stamp: u64, message: Message },
    Fetch { stamp: u64, message: Message },
    Turn { stamp: u64, sent: u64, notes: Vec<Note> },
}

struct Machine {
    state: u16,
    history: Vec<Option<u16>>,
    attributes: Vec<i64>,
}

#[derive(Default)]
enum Occupant {
    #[default]
    Nobody,
    Chartless,
    Charted(Machine),
    Boxed(Box<Machine>),
}

#[derive(Default)]
struct ActorSlot {
    occupant: Occupant,
    deferred: VecDeque<Message>,
}

#[derive(Clone, Copy, Default)]
struct Row {
    generation: u32,
    lives: bool,
}

struct Controller {
    me: u8,
    boxed: bool,
    slots: Vec<Slot>,
    ends: Vec<u32>,
    told: Vec<Vec<bool>>,
    charts: Vec<Option<u16>>,
    rows: Vec<Row>,
    plugs: Vec<Vec<Incarnation>>,
    links: Vec<Vec<Incarnation>>,
    actors: Vec<ActorSlot>,
    clock: u64,
    pending: VecDeque<Message>,
    outbox: VecDeque<Message>,
    journal: Vec<Entry>,
}

impl Controller {
    fn send(&mut self, signal: Signal, target: Incarnation) {
        let payload = [0, 0, 0];
        self.outbox.push_back(Message { signal, stamp: 0, target, payload });
    }

    fn announce(&mut self, who: Incarnation) {
        for controller in 0..self.told[who.slot as usize].len() {
            if self.told[who.slot as usize][controller] {
                self.send(Signal::Announce, who);
            }
        }
    }

    fn begin(&self, who: Incarnation) -> (Occupant, u16) {
        match self.charts[self.slots[who.slot as usize].class as usize] {
            Some(state) => {
                let machine = Machine { state, history: vec![None; 4], attributes: vec![0; 4] };
                (Occupant::Charted(machine), state)
            }
            None if self.boxed => {
                let machine = Machine { state: 65535, history: vec![], attributes: vec![] };
                (Occupant::Boxed(Box::new(machine)), 65535)
            }
            None => (Occupant::Chartless, 65535),
        }
    }

    fn create(&mut self, top: u16, notes: &mut Vec<Note>) {
        let end = self.ends[top as usize];
        let mut made = Vec::new();
        let mut next = top as u32;
        while next < end {
            let slot = next as u16;
            let row = self.rows[slot as usize];
            if self.slots[slot as usize].owner == self.me && !row.lives {
                let generation = row.generation.checked_add(1).expect("generations");
                self.rows[slot as usize] = Row { generation, lives: true };
                let who = Incarnation { slot, generation };
                self.announce(who);
                made.push(who);
            }
            next += 1;
            while next < end && self.slots[next as usize].kind != Kind::Fixed {
                next = self.ends[next as usize];
            }
        }
        for who in made {
            let (occupant, state) = self.begin(who);
            self.actors[who.slot as usize] = ActorSlot { occupant, deferred: VecDeque::new() };
            notes.push(Note::Up { who, state });
        }
    }

    fn destroy(&mut self, top: u16, notes: &mut Vec<Note>) {
        let end = self.ends[top as usize];
        let mut ended = Vec::new();
        let mut next = top as u32;
        while next < end {
            let slot = &self.slots[next as usize];
            let row = self.rows[next as usize];
            let reached = next == top as u32
                || (slot.parent.is_some() && (slot.kind == Kind::Fixed || row.lives));
            if !reached {
                next = self.ends[next as usize];
                continue;
            }
            if slot.owner == self.me && row.lives {
                ended.push(Incarnation { slot: next as u16, generation: row.generation });
            }
            next += 1;
        }
        ended.reverse();
        for who in &ended {
            for plug in std::mem::take(&mut self.plugs[who.slot as usize]) {
                self.send(Signal::Announce, plug);
            }
            self.announce(*who);
            self.rows[who.slot as usize].lives = false;
        }
        for who in ended {
            let gone = std::mem::take(&mut self.actors[who.slot as usize]);
            notes.push(Note::Down { who, lost: gone.deferred.len() as u64 });
            for link in std::mem::take(&mut self.links[who.slot as usize]) {
                self.send(Signal::Announce, link);
            }
        }
    }

    // What is sent goes to this controller itself, as in the model of the script.
    fn post_all(&mut self) {
        while let Some(mut message) = self.outbox.pop_front() {
            self.clock += 1;
            message.stamp = self.clock;
            self.journal.push(Entry::Post { stamp: self.clock, message: message.clone() });
            self.clock += 1;
            self.journal.push(Entry::Fetch { stamp: self.clock, message: message.clone() });
            self.pending.push_back(message);
        }
    }

    fn turn(&mut self, left: &mut u32) -> bool {
        let Some(message) = self.pending.pop_front() else { return false };
        self.clock += 1;
        let mut notes = Vec::new();
        let target = message.target;
        match message.signal {
            Signal::Create => {
                self.create(target.slot, &mut notes);
                self.send(Signal::CreateDone, target);
            }
            Signal::CreateDone => self.send(Signal::Created, target),
            Signal::Created => self.send(Signal::Destroy, target),
            Signal::Destroy => {
                self.destroy(target.slot, &mut notes);
                self.send(Signal::DestroyDone, target);
            }
            Signal::DestroyDone => self.send(Signal::Destroyed, target),
            Signal::Announce => {}
            Signal::Destroyed => {
                *left -= 1;
                if *left > 0 {
                    self.send(Signal::Create, target);
                }
            }
        }
        self.journal.push(Entry::Turn { stamp: self.clock, sent: message.stamp, notes });
        true
    }
}

// Slot 0 is the container, slot 1 the body, and the others stand in the body.
fn controller(slots: usize, boxed: bool) -> Controller {
    let all = slots + 1;
    let kind = |at| if at == 1 { Kind::Optional } else { Kind::Fixed };
    let parent = |at: usize| if at == 0 { None } else { Some(if at == 1 { 0 } else { 1 }) };
    Controller {
        me: 0,
        boxed,
        slots: (0..all).map(|at| Slot { parent: parent(at), kind: kind(at), owner: 0, class: 1 }).collect(),
        ends: (0..all).map(|at| if at < 2 { all as u32 } else { at as u32 + 1 }).collect(),
        told: vec![vec![false]; all],
        charts: vec![Some(0), None],
        rows: vec![Row::default(); all],
        plugs: vec![Vec::new(); all],
        links: vec![Vec::new(); all],
        actors: (0..all).map(|_| ActorSlot::default()).collect(),
        clock: 0,
        pending: VecDeque::new(),
        outbox: VecDeque::new(),
        journal: Vec::new(),
    }
}

// Reads the journal, so that nothing of it can be left out: sums of its stamps and numbers.
fn sum_of(journal: &[Entry]) -> u64 {
    let message_sum = |message: &Message| message.stamp + message.payload.iter().sum::<i64>() as u64;
    let note_sum = |note: &Note| match note {
        Note::Up { who, state } => who.generation as u64 + *state as u64,
        Note::Down { who, lost } => who.slot as u64 + lost,
    };
    journal
        .iter()
        .map(|entry| match entry {
            Entry::Post { stamp, message } | Entry::Fetch { stamp, message } => stamp + message_sum(message),
            Entry::Turn { stamp, sent, notes } => stamp + sent + notes.iter().map(note_sum).sum::<u64>(),
        })
        .sum()
}

fn occupied(actors: &[ActorSlot]) -> usize {
    actors
        .iter()
        .map(|slot| match &slot.occupant {
            Occupant::Nobody => 0,
            Occupant::Chartless => 1,
            Occupant::Charted(machine) => 1 + machine.history.len() + machine.attributes.len(),
            Occupant::Boxed(machine) => 1 + usize::from(machine.state == 0),
        })
        .sum()
}

fn main() {
    let words: Vec<String> = std::env::args().collect();
    let slots = words[1].parse().expect("how many slots");
    let times: u32 = words[2].parse().expect("how many times");
    let mut controller = controller(slots, words.get(3).is_some_and(|word| word == "boxed"));
    let began = Instant::now();
    controller.send(Signal::Create, Incarnation { slot: 1, generation: 0 });
    let mut left = times;
    controller.post_all();
    while controller.turn(&mut left) {
        controller.post_all();
    }
    let took = began.elapsed().as_micros();
    let notes: usize = controller.journal.iter().map(|entry| match entry {
        Entry::Turn { notes, .. } => notes.capacity() * std::mem::size_of::<Note>(),
        _ => 0,
    }).sum();
    println!(
        "{slots} slots, {times} times: run {took} us, {} entries, {notes} bytes of notes, sum {}",
        controller.journal.len(),
        sum_of(&controller.journal) + occupied(&controller.actors) as u64
    );
}
