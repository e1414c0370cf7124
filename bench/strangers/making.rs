//! Models and injections that are made up. They keep the rules mostly, so that most of them run.

use crate::random::Random;
use std::fmt::Write;

/// For each message of a protocol whether it carries a number: those that come in are called `a0`, `a1`, ..,
/// those that go out `b0`, `b1`, ..
struct Protocol {
    incoming: Vec<bool>,
    outgoing: Vec<bool>,
}

#[derive(Clone, PartialEq)]
enum Role {
    End,
    Relay,
    Inner,
    Access,
    Provision,
    /// An access point of the timing service.
    Timer,
}

#[derive(Clone)]
struct Port {
    name: String,
    protocol: usize,
    conjugated: bool,
    role: Role,
    bound: bool,
}

#[derive(Clone)]
struct Reference {
    name: String,
    kind: &'static str,
    class: usize,
    ports: Vec<Port>,
}

struct Class {
    ports: Vec<Port>,
    references: Vec<Reference>,
}

struct Maker<'a> {
    random: &'a mut Random,
    protocols: Vec<Protocol>,
    classes: Vec<Class>,
    text: String,
}

/// What the timing service consists of, which few models use.
const TIMING: &str = "ProtocolClass PTimer { incoming { Message startTimer(int32) Message killTimer() } outgoing { Message timeout() } }
ActorClass TimingService { Interface { SPP timer: PTimer } }
";

/// A model.
pub fn model(random: &mut Random) -> String {
    let protocols = (0..1 + random.below(3)).map(|_| protocol(random)).collect();
    let mut maker = Maker { random, protocols, classes: Vec::new(), text: String::new() };
    maker.text.push_str("RoomModel M {\nLogicalSystem L { SubSystemRef s: S }\n");
    maker.write_protocols();
    maker.text.push_str(TIMING);
    for _ in 0..2 + maker.random.below(4) {
        maker.make_class();
    }
    maker.write_subsystem();
    maker.text.push_str("}\n");
    maker.text
}

fn protocol(random: &mut Random) -> Protocol {
    let mut messages = |least| (0..least + random.below(3)).map(|_| random.percent(60)).collect::<Vec<bool>>();
    Protocol { incoming: messages(1), outgoing: messages(1) }
}

/// Injections for a model of which this is the tree: lines for its slots' ports `go`.
pub fn injections(random: &mut Random, tree: &str) -> String {
    let paths: Vec<&str> = tree.lines().filter_map(|line| line.strip_prefix("slot ")?.split(' ').nth(3)).collect();
    let mut text = String::new();
    for number in 0..random.below(12) {
        if paths.is_empty() || random.percent(15) {
            text.push_str(random.one_of(&["settle\n", "\n", "# nothing\n", "advance 1\n", "advance 5\n", "advance 9\n"]));
            continue;
        }
        let priority = random.one_of(&["", "", "", " at low", " at panic", " at high", " at background"]);
        let path = random.one_of(&paths);
        let line = if random.percent(80) { format!("a0 {number}") } else { "a1".to_string() };
        let _ = writeln!(text, "{path}.go {line}{priority}");
    }
    text
}

impl Maker<'_> {
    fn write_protocols(&mut self) {
        // The first protocol is that of `go`: its first message has a number.
        self.protocols[0].incoming = vec![true, false];
        for (number, protocol) in self.protocols.iter().enumerate() {
            let messages = |letter, numbers: &[bool]| -> String {
                let one = |(at, number): (usize, &bool)| format!(" Message {letter}{at}({})", if *number { "int32" } else { "" });
                numbers.iter().enumerate().map(one).collect()
            };
            let incoming = messages('a', &protocol.incoming);
            let outgoing = messages('b', &protocol.outgoing);
            let _ = writeln!(self.text, "ProtocolClass P{number} {{ incoming {{{incoming} }} outgoing {{{outgoing} }} }}");
        }
    }

    fn port(&mut self, name: String, role: Role) -> Port {
        let conjugated = match role {
            Role::Access => true,
            Role::Provision => false,
            _ => self.random.percent(50),
        };
        Port { name, protocol: self.random.below(self.protocols.len()), conjugated, role, bound: false }
    }

    fn make_class(&mut self) {
        let mut ports = Vec::new();
        for number in 0..self.random.below(4) {
            let role = if self.random.percent(75) { Role::End } else { Role::Relay };
            ports.push(self.port(format!("p{number}"), role));
        }
        for number in 0..self.random.below(3) {
            ports.push(self.port(format!("h{number}"), Role::Inner));
        }
        if self.random.percent(25) {
            ports.push(self.port("s".into(), Role::Access));
        }
        if self.random.percent(25) {
            ports.push(self.port("v".into(), Role::Provision));
        }
        if self.random.percent(15) {
            ports.push(Port { name: "tm".into(), protocol: 0, conjugated: true, role: Role::Timer, bound: true });
        }
        ports.push(Port { name: "go".into(), protocol: 0, conjugated: false, role: Role::Inner, bound: true });
        let references = self.references();
        let mut class = Class { ports, references };
        self.write_class(&mut class);
        self.classes.push(class);
    }

    fn references(&mut self) -> Vec<Reference> {
        let mut made = Vec::new();
        let count = if self.classes.is_empty() { 0 } else { 1 + self.random.below(4) };
        for number in 0..count {
            let class = self.random.below(self.classes.len());
            let may_be_lent = !self.classes[class].ports.iter().any(|port| matches!(port.role, Role::Relay | Role::Provision));
            let kind = self.random.one_of(&["", "", "", "optional ", "optional ", "imported ", "imported "]);
            let kind = if kind == "imported " && !may_be_lent { "" } else { kind };
            let ports = self.classes[class].ports.iter().filter(|port| port.name.starts_with('p')).cloned().collect();
            made.push(Reference { name: format!("r{number}"), kind, class, ports });
        }
        made
    }

    fn write_class(&mut self, class: &mut Class) {
        let number = self.classes.len();
        let _ = writeln!(self.text, "ActorClass A{number} {{");
        let mut interface = String::new();
        let mut structure = String::new();
        for port in &class.ports {
            let conjugated = if port.conjugated { "conjugated " } else { "" };
            let (name, protocol) = (&port.name, port.protocol);
            let _ = match port.role {
                Role::End => write!(interface, " {conjugated}Port {name}: P{protocol}")
                    .and_then(|()| write!(structure, " external Port {name}")),
                Role::Relay => write!(interface, " {conjugated}Port {name}: P{protocol}"),
                Role::Provision => write!(interface, " SPP {name}: P{protocol}"),
                Role::Inner => write!(structure, " {conjugated}Port {name}: P{protocol}"),
                Role::Access => write!(structure, " SAP {name}: P{protocol}"),
                Role::Timer => write!(structure, " SAP {name}: PTimer"),
            };
        }
        for reference in &class.references {
            let index = ["", "", "[2]", "[3]"][self.random.below(4)];
            let _ = write!(structure, " {}ActorRef {}{index}: A{}", reference.kind, reference.name, reference.class);
        }
        structure.push_str(&self.timing(class));
        let bindings = self.bindings(class);
        let _ = writeln!(self.text, "Interface {{{interface} }}\nStructure {{{structure} Attribute n: int32 Attribute m: uint8 = 3{bindings} }}");
        if self.random.percent(90) {
            self.write_chart(class);
        }
        self.text.push_str("}\n");
    }

    /// The timing service of what a class has within; what stands deeper goes without it now and then.
    fn timing(&mut self, class: &Class) -> String {
        let uses = |reference: &&Reference| self.classes[reference.class].ports.iter().any(|port| port.role == Role::Timer);
        let users: Vec<&Reference> = class.references.iter().filter(uses).filter(|user| user.kind != "imported ").collect();
        if users.is_empty() {
            return String::new();
        }
        let mut text = " ActorRef ts: TimingService".to_string();
        for user in users {
            let _ = write!(text, " LayerConnection ref {} satisfied_by ts.timer", user.name);
        }
        text
    }

    /// Bindings of ports that fit each other and aren't bound yet; hardly ever of others.
    fn bindings(&mut self, class: &mut Class) -> String {
        let mut text = String::new();
        let mut sides: Vec<(String, Port, bool)> = Vec::new();
        for port in class.ports.iter().filter(|port| matches!(port.role, Role::Inner | Role::Relay) && !port.bound) {
            sides.push((port.name.clone(), port.clone(), port.role == Role::Relay));
        }
        for reference in &class.references {
            for port in &reference.ports {
                sides.push((format!("{}.{}", reference.name, port.name), port.clone(), false));
            }
        }
        for left in 0..sides.len() {
            for right in left + 1..sides.len() {
                let (one, other) = (&sides[left], &sides[right]);
                let opposite = (one.1.conjugated != other.1.conjugated) != (one.2 != other.2);
                let fits = one.1.protocol == other.1.protocol && opposite && !one.1.bound && !other.1.bound;
                if if fits { self.random.percent(70) } else { self.random.below(2000) == 0 } {
                    let _ = write!(text, " Binding {} and {}", one.0, other.0);
                    sides[left].1.bound = true;
                    sides[right].1.bound = true;
                }
            }
        }
        text
    }

    fn write_chart(&mut self, class: &Class) {
        let states = 1 + self.random.below(3);
        let begin = self.code(class, false, 2);
        let _ = writeln!(self.text, "Behavior {{ StateMachine {{ Transition i: initial -> S0 {{ action {{ \"{begin}\" }} }}");
        for state in 0..states {
            let entry = if self.random.percent(20) { self.code(class, false, 1) } else { String::new() };
            let _ = writeln!(self.text, "State S{state} {{ entry {{ \"{entry}\" }} }}");
        }
        for number in 0..1 + self.random.below(6) {
            let from = self.random.below(states);
            let to = self.random.below(states);
            let (trigger, numbers) = self.trigger(class);
            let keep = if self.random.percent(60) && numbers > 0 { format!("n = data[{}]; ", numbers - 1) } else { String::new() };
            let code = self.code(class, true, 4);
            let guard = if self.random.percent(15) { " guard \"n < 3 || m != 0\"" } else { "" };
            let _ = writeln!(self.text, "Transition t{number}: S{from} -> S{to} {{ triggers {{ <{trigger}{guard}> }} action {{ \"{keep}{code}\" }} }}");
        }
        self.text.push_str("} }\n");
    }

    /// A message that comes in at a port, and how many numbers it carries.
    fn trigger(&mut self, class: &Class) -> (String, usize) {
        let ends: Vec<&Port> = class.ports.iter().filter(|port| port.role != Role::Relay).collect();
        if self.random.percent(25) {
            let names = ["created", "destroyed", "imported", "deported", "ended", "refused", "registered", "withdrawn", "nameRefused"];
            let at = self.random.below(names.len());
            return (format!("{}: frame", names[at]), [3, 3, 3, 3, 3, 3, 1, 1, 2][at]);
        }
        let port = ends[self.random.below(ends.len())];
        if port.role == Role::Timer {
            return ("timeout: tm".into(), 0);
        }
        let protocol = &self.protocols[port.protocol];
        let (letter, numbers) = if port.conjugated { ('b', &protocol.outgoing) } else { ('a', &protocol.incoming) };
        let at = self.random.below(numbers.len());
        (format!("{letter}{at}: {}", port.name), usize::from(numbers[at]))
    }

    /// Some statements; one that defers a message only where there is one.
    fn code(&mut self, class: &Class, has_message: bool, most: usize) -> String {
        let mut text = String::new();
        for _ in 0..self.random.below(most + 1) {
            let statement = self.statement(class, has_message);
            text.push_str(&statement);
            text.push(' ');
        }
        text
    }

    fn statement(&mut self, class: &Class, has_message: bool) -> String {
        match self.random.below(12) {
            0 => "n = n + 1;".into(),
            1 => "m = n * 3 / (n - 2) + self % 7;".into(),
            2 => format!("if (n % 2 == 0) {{ {} }} else {{ {} }}", self.send(class), self.send(class)),
            3 => format!("repeat {} {{ {} }}", 1 + self.random.below(4), self.send(class)),
            4 if has_message => self.random.one_of(&["defer;", "recall;", "recallAll;"]).into(),
            5..=7 => self.asking(class),
            _ => self.send(class),
        }
    }

    fn send(&mut self, class: &Class) -> String {
        let ends: Vec<&Port> = class.ports.iter().filter(|port| port.role != Role::Relay).collect();
        let port = ends[self.random.below(ends.len())];
        if port.role == Role::Timer {
            return self.random.one_of(&["tm.startTimer(n);", "tm.startTimer(3);", "tm.startTimer(1);", "tm.killTimer();"]).into();
        }
        let protocol = &self.protocols[port.protocol];
        let (letter, numbers) = if port.conjugated { ('a', &protocol.incoming) } else { ('b', &protocol.outgoing) };
        let at = self.random.below(numbers.len());
        let argument = if numbers[at] { self.random.one_of(&["n", "m + 1", "-7", "self"]) } else { "" };
        let place = self.random.one_of(&["", "", "", "[0]", "[n]"]);
        let priority = self.random.one_of(&["", "", "", " at high", " at panic", " at low"]);
        format!("{}{place}.{letter}{at}({argument}){priority};", port.name)
    }

    /// A statement that asks for an actor, its end, a loan or a name.
    fn asking(&mut self, class: &Class) -> String {
        let mut all = Vec::new();
        for reference in &class.references {
            let name = &reference.name;
            match reference.kind {
                "optional " => all.extend([format!("incarnate {name};"), format!("incarnate {name}[n];"), format!("destroy {name};")]),
                "imported " => all.extend([format!("import {name} = n;"), format!("deport {name};")]),
                _ => {}
            }
        }
        for port in class.ports.iter().filter(|port| matches!(port.role, Role::Access | Role::Provision)) {
            let name = &port.name;
            all.extend([format!("register {name} as x;"), format!("register {name} as y;"), format!("withdraw {name};")]);
        }
        if all.is_empty() { self.send(class) } else { all.swap_remove(self.random.below(all.len())) }
    }

    fn write_subsystem(&mut self) {
        let top = self.classes.len() - 1;
        let threads = [0, 1, 2, 2, 3, 4, 8][self.random.below(7)];
        let _ = write!(self.text, "SubSystemClass S {{ ActorRef top: A{top}");
        for thread in 0..threads {
            let _ = write!(self.text, " LogicalThread t{thread}");
        }
        for reference in &self.classes[top].references {
            if threads > 0 && reference.kind == "" && self.random.percent(60) {
                let thread = self.random.below(threads);
                let _ = write!(self.text, " ActorInstanceMapping top/{} -> t{thread}", reference.name);
            }
        }
        self.text.push_str(" }\n");
    }
}
