//! Changes of a text: of its bytes, its tokens and its parts. What is put in stems from the text itself,
//! from another one, or from a list of things that are seldom there.

use crate::random::Random;
use std::ops::Range;

/// Words and numbers at the ends of what the language allows, and some that it knows.
const RARE: &[&str] = &[
    "0", "1", "7", "-1", "127", "128", "255", "256", "4096", "4097", "60001", "65535", "65536", "2147483647",
    "4294967296", "9223372036854775807", "9223372036854775808", "99999999999999999999", "00", "frame", "data", "place", "self",
    "int8", "int32", "boolean", "imported", "optional", "fixed", "conjugated", "external", "extends", "initial", "my", "cp", "of",
    "{", "}", "(", ")", "[", "]", "<", ">", ":", ",", ".", "*", "-", "=", "|", "/", ";", "->", "==", "&&", "||", "\"", "'''", "/*",
    "*/", "//", "\"defer;\"", "\"recallAll;\"", "\"repeat 255 { repeat 255 { } }\"", "\"1 / 0\"", "settle", "advance 3", "at panic", "done", "spent",
    "environment", "env@1", "note zero", "\n", "\r\n", "\t", "\0", "\u{e9}",
];

/// The words that a part of a model begins with.
const HEADS: &[&str] = &[
    "LogicalSystem", "SubSystemClass", "ProtocolClass", "DataClass", "ActorClass", "Message", "Attribute", "Port", "SAP", "SPP",
    "ActorRef", "Binding", "LayerConnection", "LogicalThread", "ActorInstanceMapping", "State", "ChoicePoint", "TransitionPoint",
    "EntryPoint", "ExitPoint", "Transition", "RefinedState", "RefinedTransition", "external", "Interface", "Structure", "Behavior",
    "incoming", "outgoing", "triggers", "action", "entry", "exit", "subgraph",
];

type Text = Vec<u8>;

fn is_word(byte: u8) -> bool {
    byte.is_ascii_alphanumeric() || byte == b'_'
}

/// The tokens of a text: words, strings, and every other byte that is no blank.
pub fn tokens(text: &[u8]) -> Vec<Range<usize>> {
    let mut found = Vec::new();
    let mut at = 0;
    while at < text.len() {
        let start = at;
        at += 1;
        if is_word(text[start]) {
            while at < text.len() && is_word(text[at]) {
                at += 1;
            }
        } else if text[start] == b'"' {
            while at < text.len() && text[at] != b'"' && text[at] != b'\n' {
                at += 1;
            }
            at = (at + 1).min(text.len());
        } else if text[start].is_ascii_whitespace() {
            continue;
        }
        found.push(start..at);
    }
    found
}

/// The lines of a text, each with its end.
pub fn lines(text: &[u8]) -> Vec<Range<usize>> {
    let mut found = Vec::new();
    let mut start = 0;
    for line in text.split_inclusive(|byte| *byte == b'\n') {
        found.push(start..start + line.len());
        start += line.len();
    }
    found
}

/// The parts of a model: from a word that begins one to its last brace, or to the next such word.
fn parts(text: &[u8]) -> Vec<Range<usize>> {
    let tokens = tokens(text);
    let is_head = |token: &Range<usize>| HEADS.iter().any(|head| head.as_bytes() == &text[token.clone()]);
    let mut found = Vec::new();
    for (number, head) in tokens.iter().enumerate().filter(|(_, token)| is_head(token)) {
        let mut depth = 0;
        let mut end = head.end;
        for token in &tokens[number + 1..] {
            match text[token.start] {
                b'{' => depth += 1,
                b'}' if depth == 0 => break,
                b'}' => depth -= 1,
                _ if depth == 0 && is_head(token) => break,
                _ => {}
            }
            end = token.end;
            if depth == 0 && text[token.start] == b'}' {
                break;
            }
        }
        found.push(head.start..end);
    }
    found
}

fn pick(random: &mut Random, places: &[Range<usize>]) -> Range<usize> {
    if places.is_empty() { 0..0 } else { places[random.below(places.len())].clone() }
}

fn with_blanks(piece: &[u8]) -> Text {
    [b" ", piece, b" "].concat()
}

/// One of these pieces of the text is left out, doubled, exchanged, moved, or replaced by one of another.
fn change_pieces(random: &mut Random, text: &mut Text, other: &[u8], pieces: fn(&[u8]) -> Vec<Range<usize>>) {
    let own = pieces(text);
    let place = pick(random, &own);
    let elsewhere = pick(random, &own);
    let piece = text[place.clone()].to_vec();
    match random.below(6) {
        0 => drop(text.splice(place, [])),
        1 => drop(text.splice(place.end..place.end, with_blanks(&piece))),
        2 => drop(text.splice(elsewhere.start..elsewhere.start, with_blanks(&piece))),
        3 => drop(text.splice(elsewhere, piece)),
        4 => {
            let stranger = other[pick(random, &pieces(other))].to_vec();
            drop(text.splice(place, stranger));
        }
        _ => {
            let stranger = other[pick(random, &pieces(other))].to_vec();
            drop(text.splice(place.start..place.start, with_blanks(&stranger)));
        }
    }
}

/// The word that a part begins with.
fn head_of(part: &[u8]) -> &[u8] {
    part.split(|byte| !is_word(*byte)).next().unwrap_or_default()
}

/// Numbers are alike, strings, and names; every other token is like itself alone.
fn kind_of(token: &[u8]) -> &[u8] {
    match token.first() {
        Some(b'0'..=b'9') => b"0",
        Some(b'"') => b"\"",
        Some(first) if is_word(*first) && !HEADS.iter().any(|head| head.as_bytes() == token) => b"a",
        _ => token,
    }
}

/// A piece becomes one that is like it, of the text itself or of another one. Mostly it stays a model.
fn change_for_alike(
    random: &mut Random,
    text: &mut Text,
    other: &[u8],
    pieces: fn(&[u8]) -> Vec<Range<usize>>,
    like: fn(&[u8]) -> &[u8],
) {
    let own = pieces(text);
    let place = pick(random, &own);
    let kind = like(&text[place.clone()]);
    let from: &[u8] = if random.percent(70) { text } else { other };
    let alike: Vec<Range<usize>> = pieces(from).into_iter().filter(|piece| like(&from[piece.clone()]) == kind).collect();
    let piece = from[pick(random, &alike)].to_vec();
    drop(text.splice(place, piece));
}

/// A part is left out, doubled, or gets one that is like it behind it.
fn change_parts(random: &mut Random, text: &mut Text, other: &[u8]) {
    let place = pick(random, &parts(text));
    let head = head_of(&text[place.clone()]);
    let alike: Vec<Range<usize>> = parts(other).into_iter().filter(|part| head_of(&other[part.clone()]) == head).collect();
    match random.below(4) {
        0 => drop(text.splice(place, [])),
        1 => {
            let again = with_blanks(&text[place.clone()]);
            drop(text.splice(place.end..place.end, again));
        }
        2 => {
            let stranger = with_blanks(&other[pick(random, &alike)]);
            drop(text.splice(place.end..place.end, stranger));
        }
        _ => change_for_alike(random, text, other, parts, head_of),
    }
}

/// A token becomes one of the rare ones.
fn put_rare(random: &mut Random, text: &mut Text) {
    let place = pick(random, &tokens(text));
    let rare = random.one_of(RARE).as_bytes();
    if random.percent(70) {
        drop(text.splice(place, rare.iter().copied()));
    } else {
        drop(text.splice(place.start..place.start, with_blanks(rare)));
    }
}

fn change_bytes(random: &mut Random, text: &mut Text) {
    let at = random.below(text.len());
    let end = (at + 1 + random.below(40)).min(text.len());
    match random.below(6) {
        0 if at < text.len() => text[at] = random.below(256) as u8,
        1 if at < text.len() => text[at] ^= 1 << random.below(8),
        2 => text.insert(at, random.below(256) as u8),
        3 => drop(text.drain(at..end)),
        4 => {
            let again = text[at..end].to_vec();
            drop(text.splice(end..end, again));
        }
        _ => text.truncate(at),
    }
}

/// Whether a line of injections moves the time on.
pub fn moves_time(injections: &[u8]) -> bool {
    injections.split(|byte| *byte == b'\n').any(|line| line.trim_ascii_start().starts_with(b"advance"))
}

/// One part of a model again and again, each with a name of its own, until the text has so many bytes.
pub fn grow(random: &mut Random, text: &mut Text, most: usize) {
    let part = pick(random, &parts(text));
    let Some(name) = tokens(&text[part.clone()]).get(1).cloned() else {
        return;
    };
    let name = part.start + name.end;
    let mut grown = Vec::new();
    let mut number = 0;
    while text.len() + grown.len() < most && name < part.end {
        grown.extend_from_slice(&text[part.start..name]);
        grown.extend_from_slice(number.to_string().as_bytes());
        grown.extend_from_slice(&text[name..part.end]);
        grown.push(b'\n');
        number += 1;
    }
    drop(text.splice(part.start..part.start, grown));
}

/// The places between an opening byte and the one that closes it, for each pair of these.
fn insides(text: &[u8], open: u8, close: u8) -> Vec<Range<usize>> {
    let mut found = Vec::new();
    let mut opened = Vec::new();
    for (at, byte) in text.iter().enumerate() {
        if *byte == open {
            opened.push(at + 1);
        } else if *byte == close && let Some(start) = opened.pop() {
            found.push(start..at);
        }
    }
    found
}

/// What stands around a part inside of another one, again and again, until the text has so many bytes.
pub fn nest(random: &mut Random, text: &mut Text, most: usize) {
    let is_inside = |inner: &Range<usize>, outer: &Range<usize>| outer.start < inner.start && inner.end < outer.end;
    let all = parts(text);
    let outer = pick(random, &all);
    let within: Vec<Range<usize>> = all.into_iter().filter(|inner| is_inside(inner, &outer)).collect();
    let (outer, inner) = if within.is_empty() || random.percent(30) {
        let (open, close) = [(b'(', b')'), (b'{', b'}'), (b'[', b']')][random.below(3)];
        let inner = pick(random, &insides(text, open, close));
        if inner.start == 0 {
            return;
        }
        (inner.start - 1..inner.end + 1, inner)
    } else {
        (outer, pick(random, &within))
    };
    let around = (outer.end - outer.start) - (inner.end - inner.start);
    let times = most.saturating_sub(text.len()) / around;
    let ends = text[inner.end..outer.end].repeat(times);
    drop(text.splice(outer.end..outer.end, ends));
    let begins = text[outer.start..inner.start].repeat(times);
    drop(text.splice(outer.start..outer.start, begins));
}

/// A few changes of a model; the other text is a model too.
pub fn change_model(random: &mut Random, text: &mut Text, other: &[u8]) {
    for _ in 0..1 + random.below(4) {
        match random.below(20) {
            0 => change_bytes(random, text),
            1 => put_rare(random, text),
            2 => change_pieces(random, text, other, tokens),
            3 => change_pieces(random, text, other, lines),
            4 => change_pieces(random, text, other, parts),
            5..=12 => change_for_alike(random, text, other, tokens, kind_of),
            _ => change_parts(random, text, other),
        }
    }
}

/// A few changes of injections or journals; the other text is one of these too.
pub fn change_lines(random: &mut Random, text: &mut Text, other: &[u8]) {
    for _ in 0..1 + random.below(3) {
        match random.below(10) {
            0 => change_bytes(random, text),
            1 => put_rare(random, text),
            2 => change_pieces(random, text, other, tokens),
            3..=6 => change_for_alike(random, text, other, tokens, kind_of),
            _ => change_pieces(random, text, other, lines),
        }
    }
}
