//! The work of the core in plain Rust over std: a yardstick, and a second opinion. With no words it runs each case once and
//! prints a digest of what it makes; with the word `time` it measures each. `cargo test` reads the vectors of frames.

mod chance;
mod md5;
#[allow(dead_code)]
mod model;
mod naive;
#[allow(dead_code)]
mod packed;
mod ring;
#[allow(dead_code)]
mod shared;
mod silence;
mod timing;
#[cfg(test)]
mod vectors;
mod world;

use model::{Endpoint, Took};
use naive::{cluster, empty, held, read, Ack, Ack2, Delta, Entry, Message, Syn, Table};
use ring::Ring;
use std::cell::RefCell;
use std::collections::BTreeMap;
use std::hint::black_box;
use std::sync::Arc;
use timing::{case, Mode};
use world::*;

fn shown(endpoints: &[Endpoint]) -> Vec<u8> {
    endpoints.iter().flat_map(|e| format!("{e}\n").into_bytes()).collect()
}

fn frames(mode: Mode, tag: &str, message: &Message) {
    let frame = naive::encode(message);
    let mut spoilt = (frame.len() as u32 - 3).to_be_bytes().to_vec();
    spoilt.extend_from_slice(&frame[4..]);
    spoilt.push(0);
    case(mode, &format!("naive_encode_{tag}"), || naive::encode(message), |b| b.clone());
    case(mode, &format!("naive_decode_{tag}"), || read(&frame), naive::encode);
    case(
        mode,
        &format!("naive_check_{tag}"),
        || naive::decode(black_box(&spoilt)).unwrap_err(),
        |fault| format!("fault 12 BadFrame {} {:?}\n", fault.place, fault.cause).into_bytes(),
    );
    case(
        mode,
        &format!("packed_check_{tag}"),
        || packed::check(black_box(&spoilt)).err().unwrap(),
        |fault| format!("fault 12 BadFrame {} {:?}\n", fault.place, fault.cause).into_bytes(),
    );
}

fn answer(mode: Mode, tag: &str, own: &Table, syn: Syn) {
    let frame = naive::encode(&Message::Syn(syn));
    case(
        mode,
        &format!("naive_answer_syn_bytes_{tag}"),
        || {
            let Message::Syn(syn) = read(&frame) else { panic!() };
            naive::encode(&Message::Ack(naive::answer_syn(own, &cluster(), &syn).unwrap()))
        },
        |b| b.clone(),
    );
    let (own, out) = (packed::of_naive(own), RefCell::new(Vec::new()));
    case(
        mode,
        &format!("packed_answer_syn_bytes_{tag}"),
        || {
            let syn = packed::check(black_box(&frame)).unwrap().unwrap();
            packed::answer_syn(&own, b"c1", syn, &mut out.borrow_mut()).unwrap();
        },
        |()| out.borrow().clone(),
    );
}

fn take(mode: Mode, tag: &str, own: &Table, ack: Ack) {
    let ack2 = Ack2 {
        deltas: ack.deltas.clone(),
    };
    let frame = naive::encode(&Message::Ack(ack));
    case(
        mode,
        &format!("naive_take_ack_bytes_{tag}"),
        || {
            let Message::Ack(ack) = read(&frame) else { panic!() };
            let (after, ack2, _) = naive::take_ack(own, &ack).unwrap();
            (after, naive::encode(&Message::Ack2(ack2)))
        },
        |(after, ack2)| [held(after), ack2.clone()].concat(),
    );
    let (table, kept) = (packed::of_naive(own), RefCell::new((Vec::new(), Vec::new())));
    case(
        mode,
        &format!("packed_take_ack_bytes_{tag}"),
        || {
            let ack = packed::check(black_box(&frame)).unwrap().unwrap();
            let (outcomes, ack2) = &mut *kept.borrow_mut();
            packed::take_ack(&table, ack, outcomes, ack2).unwrap()
        },
        |after| [packed::held(after), kept.borrow().1.clone()].concat(),
    );
    take_ack2(mode, &format!("take_ack2_{tag}"), own, ack2);
}

/// The same ACK2, taken by a table and by its shared twin.
fn take_ack2(mode: Mode, name: &str, own: &Table, ack2: Ack2) {
    case(mode, &format!("naive_{name}"), || naive::take_ack2(own, &ack2).unwrap().0, held);
    let own = shared::of_naive(own);
    let shared::Message::Ack2(ack2) = shared::read(&naive::encode(&Message::Ack2(ack2))) else { panic!() };
    case(mode, &format!("shared_{name}"), || shared::take_ack2(&own, &ack2).unwrap().0, shared::held);
}

fn exchange(mode: Mode, tag: &str, opener: &Table, answerer: &Table) {
    case(
        mode,
        &format!("naive_exchange_{tag}"),
        || naive::exchanged(opener, answerer),
        |(one, other)| [held(one), held(other)].concat(),
    );
    let tables = (packed::of_naive(opener), packed::of_naive(answerer));
    let (opener, answerer) = (shared::of_naive(opener), shared::of_naive(answerer));
    case(
        mode,
        &format!("shared_exchange_{tag}"),
        || shared::exchanged(&opener, &answerer),
        |(one, other)| [shared::held(one), shared::held(other)].concat(),
    );
    let kept = RefCell::new(packed::Kept::default());
    case(
        mode,
        &format!("packed_exchange_{tag}"),
        || packed::exchanged(black_box(&tables.0), black_box(&tables.1), &mut kept.borrow_mut()),
        |(one, other)| [packed::held(one), packed::held(other)].concat(),
    );
}

fn gossip(mode: Mode, tag: &str, states: usize, text: usize) {
    let full = table(0, 256, states, text);
    let other = table(255, 256, states, text);
    let alone = alone(0, states, text);
    let newer = beaten(other.clone(), 3, |_| true);
    let first = changed(other.clone(), 1);
    let lacking = |table: &Table| naive::answer_syn(table, &cluster(), &naive::syn(&full, &cluster())).unwrap();
    let whole = naive::answer_syn(&other, &cluster(), &empty()).unwrap();
    frames(mode, &format!("whole_{tag}"), &Message::Ack(whole.clone()));
    for (name, own) in [("equal", &other), ("beats", &newer), ("one", &first)] {
        answer(mode, &format!("{name}_{tag}"), own, naive::syn(&full, &cluster()));
    }
    answer(mode, &format!("empty_{tag}"), &other, empty());
    let beats = lacking(&newer);
    let single = Ack {
        requests: vec![],
        deltas: beats.deltas[7..8].to_vec(),
    };
    take(mode, &format!("join_{tag}"), &alone, whole);
    take(mode, &format!("beats_{tag}"), &full, beats);
    take(mode, &format!("one_{tag}"), &full, lacking(&first));
    take(mode, &format!("single_{tag}"), &full, single);
    let left = beaten(full.clone(), 3, |i| i % 2 == 0);
    let right = beaten(other.clone(), 3, |i| i % 2 == 1);
    exchange(mode, &format!("equal_{tag}"), &full, &other);
    exchange(mode, &format!("beats_{tag}"), &left, &right);
    exchange(mode, &format!("join_{tag}"), &alone, &other);
}

/// A round of heartbeats, and an exchange, at full tables.
fn wide(mode: Mode) {
    let tag = "512x16x64";
    let (full, other) = (table(0, 512, 16, 64), table(255, 512, 16, 64));
    let syn = naive::syn(&full, &cluster());
    let beats = naive::answer_syn(&beaten(other.clone(), 3, |_| true), &cluster(), &syn).unwrap();
    frames(mode, &format!("beats_{tag}"), &Message::Ack(beats.clone()));
    take(mode, &format!("beats_{tag}"), &full, beats);
    exchange(mode, &format!("equal_{tag}"), &full, &other);
}

/// An exchange of two tables that hold the same, over links in memory.
fn links(mode: Mode, tag: &str, states: usize, text: usize) {
    let mut opener = table(0, 256, states, text);
    for (number, generation) in [(0, 5), (255, 6)] {
        let bare = Entry {
            generation,
            heartbeat: 1,
            ..entry(number, 0, 0)
        };
        opener.entries.insert(Endpoint::number(number), bare);
    }
    let mut answerer = opener.clone();
    answerer.own = Endpoint::number(255);
    let (to_opener, to_answerer) = naive::inputs(&opener, &answerer);
    case(
        mode,
        &format!("naive_links_equal_{tag}"),
        || naive::linked(&opener, &answerer, &to_opener, &to_answerer),
        |(one, other)| [held(&one.0), one.1.clone(), held(&other.0), other.1.clone()].concat(),
    );
    let (opener, answerer) = (shared::of_naive(&opener), shared::of_naive(&answerer));
    case(
        mode,
        &format!("shared_links_equal_{tag}"),
        || shared::linked(&opener, &answerer, &to_opener, &to_answerer),
        |(one, other)| [shared::held(&one.0), one.1.clone(), shared::held(&other.0), other.1.clone()].concat(),
    );
}

/// The ACK that brings a whole table, read from a link in memory.
fn messages(mode: Mode, tag: &str, states: usize, text: usize) {
    let whole = naive::answer_syn(&table(255, 256, states, text), &cluster(), &empty()).unwrap();
    let frame = naive::encode(&Message::Ack(whole));
    case(
        mode,
        &format!("naive_receive_whole_{tag}"),
        || naive::received(&mut black_box(&frame[..])),
        naive::encode,
    );
}

/// Endpoint 0, just started, which has taken all that the others hold.
fn joined(n: usize, states: usize, text: usize) -> Table {
    let mut node = alone(0, 0, 0);
    node.entries.values_mut().for_each(|x| x.heartbeat = 1);
    let others = naive::answer_syn(&table(255, n, states, text), &cluster(), &empty()).unwrap();
    let deltas = others.deltas;
    naive::take_ack2(&node, &Ack2 { deltas }).unwrap().0
}

fn beat(node: &Table) -> Table {
    let mut after = node.clone();
    let own = after.entries.get_mut(&node.own).unwrap();
    own.heartbeat = own.newest() + 1;
    after
}

fn set(node: &Table, key: u8, text: &str) -> Table {
    let mut after = node.clone();
    let own = after.entries.get_mut(&node.own).unwrap();
    let version = own.newest() + 1;
    let text = Some(text.into());
    own.states.insert(key, naive::State { version, text });
    after
}

fn remove(node: &Table, key: u8) -> Table {
    let mut after = node.clone();
    let own = after.entries.get_mut(&node.own).unwrap();
    let version = own.newest() + 1;
    let removed = own.states.get_mut(&key).unwrap();
    *removed = naive::State { version, text: None };
    after
}

/// A copy of a node's table, and its work at one heartbeat of another endpoint, one of its own, one set, and the removal of what was set.
fn nodes(mode: Mode, tag: &str, states: usize, text: usize) {
    let node = joined(256, states, text);
    case(mode, &format!("naive_table_copied_{tag}"), || black_box(&node).clone(), held);
    let sharing = shared::of_naive(&node);
    case(mode, &format!("shared_table_copied_{tag}"), || black_box(&sharing).clone(), shared::held);
    let newer = beaten(table(255, 256, states, text), 3, |_| true);
    let lacking = naive::answer_syn(&newer, &cluster(), &naive::syn(&node, &cluster())).unwrap();
    let ack2 = Ack2 {
        deltas: lacking.deltas[7..8].to_vec(),
    };
    take_ack2(mode, &format!("node_heartbeat_{tag}"), &node, ack2);
    case(mode, &format!("naive_node_beat_{tag}"), || beat(black_box(&node)), held);
    case(mode, &format!("naive_node_set_{tag}"), || set(black_box(&node), 3, "1048576"), held);
    let loaded = set(&node, 3, "1048576");
    case(mode, &format!("naive_node_remove_{tag}"), || remove(black_box(&loaded), 3), held);
}

fn small(mode: Mode) {
    let full = table(0, 256, 16, 64);
    let newer = beaten(full.clone(), 3, |_| true);
    let syn = naive::syn(&full, &cluster());
    let beats = naive::answer_syn(&newer, &cluster(), &syn).unwrap();
    frames(mode, "syn_256", &Message::Syn(syn));
    frames(mode, "beats_256", &Message::Ack(beats));
    case(
        mode,
        "naive_make_syn_256",
        || naive::encode(&Message::Syn(naive::syn(black_box(&full), &cluster()))),
        |b| b.clone(),
    );
    let (full, out) = (packed::of_naive(&full), RefCell::new(Vec::new()));
    case(
        mode,
        "packed_make_syn_256",
        || packed::write_syn(black_box(&full), b"c1", &mut out.borrow_mut()),
        |()| out.borrow().clone(),
    );
}

/// Each token of a ring, with its endpoint.
fn lines(ring: &Ring) -> Vec<u8> {
    let lines = ring.positions.iter().map(|(t, e)| format!("{t:032x} {e}\n"));
    lines.collect::<String>().into_bytes()
}

/// A table, and the ring of its claims.
fn with_ring(table: Table) -> (Table, Ring) {
    let ring = Ring::of_table(&table);
    (table, ring)
}

/// A node's work where claims to tokens change: 255 owners join, its own status changes, and that of another does.
fn claims(mode: Mode) {
    let show = |(table, ring): &(Table, Ring)| [held(table), lines(ring)].concat();
    let mut node = alone(0, 0, 0);
    node.entries.values_mut().for_each(|x| x.heartbeat = 1);
    let claimed = ring_table(256);
    let mut others = naive::answer_syn(&claimed, &cluster(), &empty()).unwrap();
    others.deltas.remove(0);
    let joins = || with_ring(naive::take_ack(black_box(&node), &others).unwrap().0);
    case(mode, "naive_node_joins_256x16", joins, show);
    let tokens = claimed.entries[&node.own].states[&2].text.clone().unwrap();
    let node = set(&set(&joins().0, 2, &tokens), 1, "NORMAL");
    case(mode, "naive_node_set_status_256x16", || with_ring(set(black_box(&node), 1, "LEFT")), show);
    let text = Some("LEFT".into());
    let delta = Delta {
        generation: 5,
        above: 18,
        heartbeat: 18,
        states: vec![(1, naive::State { version: 19, text })],
    };
    let ack2 = Ack2 {
        deltas: vec![(Endpoint::number(7), delta)],
    };
    let takes = || with_ring(naive::take_ack2(black_box(&node), &ack2).unwrap().0);
    case(mode, "naive_node_takes_status_256x16", takes, show);
}

fn rings(mode: Mode) {
    let table = ring_table(256);
    let ring = Ring::of_table(&table);
    let tokens: Vec<u128> = (0..1000u32).map(|i| md5::token(&i.to_be_bytes())).collect();
    let places = || black_box(&tokens).iter().fold(0usize, |sum, token| sum.wrapping_add(ring.positions.partition_point(|p| p.0 < *token)));
    case(mode, "naive_1000_searches_4096", places, |sum| sum.to_be_bytes().to_vec());
    case(mode, "naive_ring_build_256x16", || Ring::of_table(black_box(&table)), lines);
    let mut left = ring_table(256);
    left.entries.get_mut(&Endpoint::number(7)).unwrap().states.get_mut(&1).unwrap().text = Some("LEFT".into());
    case(mode, "naive_ring_moved_256x16", || Ring::of_table(black_box(&left)), lines);
    for rf in [1, 3] {
        let all = || tokens.iter().map(|t| black_box(ring.replicas(*t, rf))).last().unwrap();
        case(mode, &format!("naive_1000_replicas_rf{rf}"), all, |e| shown(e));
    }
    let keys = || {
        let replicas = (0..1000u128).map(|key| black_box(ring.replicas(md5::token(&key.to_be_bytes()), 3)));
        replicas.last().unwrap()
    };
    case(mode, "naive_1000_keys_to_replicas_rf3", keys, |e| shown(e));
    // Each MD5 is of the one before, so that all are needed.
    let digests = || (0..1000).fold(black_box([0u8; 16]), |digest, _| md5::digest(&digest));
    case(mode, "naive_1000_digests_md5", digests, |digest| digest.to_vec());
}

/// So many texts as states have, made and dropped, put one behind the other, and each behind seven bytes. Nothing is shared
/// here: where ours shares a buffer, each text is made.
fn texts(mode: Mode, tag: &str, count: usize, text: &str) {
    let made = || (0..count).map(|_| String::from(black_box(text))).collect::<Vec<_>>();
    for how in ["made", "shared"] {
        case(mode, &format!("naive_texts_{how}_{tag}"), made, |texts| texts.concat().into_bytes());
    }
    let texts = made();
    let put = || {
        let mut all = Vec::with_capacity(count * text.len());
        for text in black_box(&texts) {
            all.extend_from_slice(text.as_bytes());
        }
        all
    };
    case(mode, &format!("naive_texts_put_{tag}"), put, |all| all.clone());
    // Each as a state has it: behind a key, a version and a length.
    let headed = || {
        let mut all = Vec::with_capacity(count * (text.len() + 7));
        for (version, text) in black_box(&texts).iter().enumerate() {
            all.push(1);
            all.extend_from_slice(&(version as u32).to_be_bytes());
            all.extend_from_slice(&(text.len() as u16).to_be_bytes());
            all.extend_from_slice(text.as_bytes());
        }
        all
    };
    case(mode, &format!("naive_texts_headed_{tag}"), headed, |all| all.clone());
}

/// The last of a thousand verdicts. The moment of each rests on the one before, so that all are needed.
fn verdicts(window: &silence::Window) -> silence::Verdict {
    let mut now = 2_000_000;
    let mut last = silence::Verdict::Unheard;
    for _ in 0..1000 {
        last = window.verdict(now);
        now += if last == silence::Verdict::Silent { 10 } else { 20 };
    }
    last
}

fn windows(mode: Mode) {
    let heard = || {
        let mut window = silence::Window::new(1000, 2000, 60000, 18421);
        (0..2000).for_each(|arrival| window.arrived(black_box(arrival * 1000)));
        window
    };
    let window = heard();
    case(
        mode,
        "naive_silence_2000_arrived_w1000",
        || heard().verdict(2_000_000),
        |v| format!("{v:?}").into_bytes(),
    );
    case(
        mode,
        "naive_silence_1000_verdicts_w1000",
        || verdicts(black_box(&window)),
        |v| format!("{v:?}").into_bytes(),
    );
}

/// The heartbeats of all others of n owners, a second apart: of this number of rounds, from the one that comes `first` seconds after all
/// was taken.
fn rounds(n: usize, first: u32, count: u32) -> Vec<(u64, Ack2)> {
    let beat = |round| Delta {
        generation: 5,
        above: 17 + round,
        heartbeat: 18 + round,
        states: vec![],
    };
    let deltas = |round| (1..n).map(|i| (Endpoint::number(i), beat(round))).collect();
    let rounds = first..first + count;
    rounds.map(|round| (1000 + 1000 * round as u64, Ack2 { deltas: deltas(round) })).collect()
}

/// A node's work at newer heartbeats of all others, whose windows are full: 64 steps.
fn beats(mode: Mode, n: usize) {
    let empty = || silence::Window::new(1000, 2000, 60000, 18421);
    let node = joined(n, 16, 64);
    let mut windows = BTreeMap::new();
    for i in 1..n {
        let window: &mut silence::Window = windows.entry(Endpoint::number(i)).or_insert_with(empty);
        (0..=1000).for_each(|round| window.arrived(1000 + 1000 * round));
    }
    let deltas = rounds(n, 1, 1000);
    let last = deltas.iter().fold(node, |node, (_, ack2)| naive::take_ack2(&node, ack2).unwrap().0);
    let coming = rounds(n, 1001, 64);
    let naive = || {
        let (mut table, mut windows) = (last.clone(), windows.clone());
        for (now, ack2) in black_box(&coming) {
            let (after, outcomes) = naive::take_ack2(&table, ack2).unwrap();
            let mut heard = windows.clone();
            for (endpoint, _) in outcomes.iter().filter(|x| x.1 == Took::Taken) {
                heard.entry(*endpoint).or_insert_with(empty).arrived(*now);
            }
            (table, windows) = (after, heard);
        }
        (table, windows)
    };
    case(mode, &format!("naive_64_node_beats_{n}_w1000"), naive, |(table, _)| held(table));
    let windows: BTreeMap<_, _> = windows.iter().map(|(e, w)| (*e, Arc::new(w.clone()))).collect();
    let last = shared::of_naive(&last);
    let coming: Vec<_> = coming
        .into_iter()
        .map(|(now, ack2)| match shared::read(&naive::encode(&Message::Ack2(ack2))) {
            shared::Message::Ack2(ack2) => (now, ack2),
            _ => panic!(),
        })
        .collect();
    let shared = || {
        let (mut table, mut windows) = (last.clone(), windows.clone());
        for (now, ack2) in black_box(&coming) {
            let (after, outcomes) = shared::take_ack2(&table, ack2).unwrap();
            let mut heard = windows.clone();
            for (endpoint, _) in outcomes.iter().filter(|x| x.1 == Took::Taken) {
                Arc::make_mut(heard.entry(*endpoint).or_insert_with(|| Arc::new(empty()))).arrived(*now);
            }
            (table, windows) = (after, heard);
        }
        (table, windows)
    };
    case(mode, &format!("shared_64_node_beats_{n}_w1000"), shared, |(table, _)| shared::held(table));
}

/// What is newer in one entry than its newest version, than the one below, and than none, a thousand times.
fn aboves(mode: Mode) {
    let plain = table(255, 256, 16, 64);
    let first = changed(plain.clone(), 1);
    for (tag, own, above) in [("newest", &first, 19), ("below", &first, 18), ("beat", &plain, 17), ("zero", &first, 0)] {
        let owner = Endpoint::number(7);
        let versions = vec![above; 1000];
        let entry = &own.entries[&owner];
        let naive = || black_box(&versions).iter().fold(None, |_, above| black_box(entry.above(*above)));
        case(mode, &format!("naive_1000_aboves_16x64_{tag}"), naive, |delta| {
            let deltas = delta.iter().map(|delta| (owner, delta.clone())).collect();
            naive::encode(&Message::Ack2(Ack2 { deltas }))
        });
        let own = shared::of_naive(own);
        let entry = &own.entries[&owner];
        let shared = || black_box(&versions).iter().fold(None, |_, above| black_box(entry.above(*above)));
        case(mode, &format!("shared_1000_aboves_16x64_{tag}"), shared, |delta| {
            let deltas = delta.iter().map(|delta| (owner, delta.clone())).collect();
            shared::encode(&shared::Message::Ack2(shared::Ack2 { deltas }))
        });
    }
}

/// Bytes copied, for the least that any check or encoding of so many bytes costs.
fn limits(mode: Mode) {
    for size in [290_000, 4_230_000] {
        let source = vec![7u8; size];
        let kept = RefCell::new(vec![0u8; size]);
        case(
            mode,
            &format!("limit_memcpy_{size}"),
            || kept.borrow_mut().copy_from_slice(black_box(&source)),
            |()| vec![],
        );
        case(mode, &format!("limit_memcpy_fresh_{size}"), || black_box(&source[..]).to_vec(), |b| b.clone());
    }
}

fn main() {
    let mode = if std::env::args().nth(1).as_deref() == Some("time") { Mode::Timed } else { Mode::Once };
    limits(mode);
    small(mode);
    for (tag, states, text) in [("1x200", 1, 200), ("16x64", 16, 64), ("16x1024", 16, 1024)] {
        gossip(mode, tag, states, text);
        nodes(mode, tag, states, text);
    }
    wide(mode);
    claims(mode);
    beats(mode, 256);
    beats(mode, 512);
    rings(mode);
    let digits = "0123456789".repeat(20);
    texts(mode, "256x200", 256, &digits);
    texts(mode, "4096x64", 4096, &digits[..64]);
    texts(mode, "4096x1024", 4096, &digits[..64].repeat(16));
    windows(mode);
    aboves(mode);
    links(mode, "16x64", 16, 64);
    messages(mode, "16x1024", 16, 1024);
}
