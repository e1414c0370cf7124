#!/usr/bin/env bash
# How many messages a second each mailbox carries: from a controller to itself on one thread, and from
# one controller to another, each in a thread. Beside them stands a plain Rust queue behind a lock, where
# rustc is at hand. And what a mail of 1, 8 and 32 controllers costs that is set up and closed: the first
# of a program, which is given its memory by the system, and each of those that follow. Times of whole
# programs, least of five. Words: how many messages; 2,000,000 without.
set -eu
. "$(dirname "${BASH_SOURCE[0]}")/timing.sh"
count="${1:-2000000}"
mail="$top/crates/bench_mail/out/bench_mail"
[ -x "$mail" ] || (cd "$top/crates/bench_mail" && rt run) >/dev/null 2>&1 </dev/null || true

# Tells how fast a command carries the messages, under some name.
measure() {
    printf '%-28s %7s million a second\n' "$1" "$(ratio "$count" "$(best "${@:2}" "$count")")"
}

tell_load
measure 'MailLocal, to itself' "$mail" local self
measure 'MailLanes, to itself' "$mail" lanes self
measure 'MailSeg, to itself' "$mail" seg self
measure 'MailLanes, to another' "$mail" lanes other
measure 'MailSeg, to another' "$mail" seg other

for controllers in 1 8 32; do
    none="$(best "$mail" lanes "unused-$controllers" 0)"
    first="$(best "$mail" lanes "unused-$controllers" 1)"
    all="$(best "$mail" lanes "unused-$controllers" 101)"
    printf 'a mail, controllers: %s: the first %s ms, a later one %s ms\n' "$controllers" \
        "$(ratio "$((first - none))" 1000 1)" "$(ratio "$((all - first))" 100000 2)"
done

command -v rustc >/dev/null || exit 0
cat >"$work/plain.rs" <<'RUST'
use std::collections::VecDeque;
use std::hint::black_box;
use std::sync::Mutex;
use std::sync::atomic::{AtomicBool, Ordering};

#[allow(dead_code)]
struct Msg {
    from: u8,
    to: u8,
    prio: u8,
    stamp: u64,
    source: Option<[u32; 3]>,
    target: [u32; 3],
    signal: u16,
    payload: Vec<i64>,
}

fn message(number: u64) -> Msg {
    Msg { from: 0, to: 0, prio: 3, stamp: number, source: None, target: [1, 1, 0], signal: 3, payload: Vec::new() }
}

fn alone(queue: &Mutex<VecDeque<Msg>>, count: u64) -> u64 {
    let mut found = 0;
    for number in 0..count {
        queue.lock().unwrap().push_back(black_box(message(number)));
        if black_box(queue.lock().unwrap().pop_front()).is_some() {
            found += 1;
        }
    }
    found
}

fn receive(queue: &Mutex<VecDeque<Msg>>, done: &AtomicBool) -> u64 {
    let mut found = 0;
    loop {
        let last = done.load(Ordering::SeqCst);
        let some = black_box(queue.lock().unwrap().pop_front()).is_some();
        if some {
            found += 1;
        } else if last {
            return found;
        }
    }
}

fn two(queue: &Mutex<VecDeque<Msg>>, count: u64) -> u64 {
    let done = AtomicBool::new(false);
    std::thread::scope(|scope| {
        scope.spawn(|| {
            for number in 0..count {
                queue.lock().unwrap().push_back(black_box(message(number)));
            }
            done.store(true, Ordering::SeqCst);
        });
        receive(queue, &done)
    })
}

fn main() {
    let words: Vec<String> = std::env::args().collect();
    let count = words[2].parse().unwrap();
    let queue = Mutex::new(VecDeque::new());
    let came = if words[1] == "self" { alone(&queue, count) } else { two(&queue, count) };
    println!("{came} messages came");
}
RUST
rustc -O -o "$work/plain" "$work/plain.rs"
measure 'Mutex<VecDeque>, to itself' "$work/plain" self
measure 'Mutex<VecDeque>, to another' "$work/plain" other
