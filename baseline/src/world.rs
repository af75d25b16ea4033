//! Tables to measure with: 256 endpoints whose entries have the same shape.

use crate::chance::Chance;
use crate::model::*;
use crate::naive::*;
use std::collections::BTreeMap;

/// An entry at generation 5 whose states have the versions 2 and up and a text of `text` bytes.
pub fn entry(i: usize, states: usize, text: usize) -> Entry {
    let mut chance = Chance(i as u64);
    let states: BTreeMap<u8, State> = (1..=states as u8)
        .map(|key| {
            let text = (0..text).map(|_| (33 + chance.below(90)) as u8 as char).collect();
            (
                key,
                State {
                    version: key as u32 + 1,
                    text: Some(text),
                },
            )
        })
        .collect();
    Entry {
        generation: 5,
        heartbeat: 18,
        states,
    }
}

/// A table of the endpoints 0 to n - 1, as endpoint `own` holds it.
pub fn table(own: usize, n: usize, states: usize, text: usize) -> Table {
    Table {
        own: Endpoint::number(own),
        entries: (0..n).map(|i| (Endpoint::number(i), entry(i, states, text))).collect(),
    }
}

pub fn alone(own: usize, states: usize, text: usize) -> Table {
    Table {
        own: Endpoint::number(own),
        entries: BTreeMap::from([(Endpoint::number(own), entry(own, states, text))]),
    }
}

/// The heartbeats of the endpoints that `which` names are `by` greater.
pub fn beaten(mut table: Table, by: u32, which: impl Fn(usize) -> bool) -> Table {
    for (i, x) in table.entries.values_mut().enumerate() {
        if which(i) {
            x.heartbeat += by;
        }
    }
    table
}

/// One state of each endpoint has a new version.
pub fn changed(mut table: Table, key: u8) -> Table {
    for x in table.entries.values_mut() {
        let newest = x.newest();
        if let Some(s) = x.states.get_mut(&key) {
            s.version = newest + 1;
        }
    }
    table
}

/// STATUS and TOKENS for a ring: 16 tokens an endpoint.
pub fn ring_table(n: usize) -> Table {
    let mut t = table(0, n, 2, 0);
    for (i, x) in t.entries.values_mut().enumerate() {
        let mut tokens: Vec<u128> = (0..16)
            .map(|j| crate::md5::token(format!("{i}/{j}").as_bytes()))
            .collect();
        tokens.sort();
        let text: Vec<String> = tokens.iter().map(|t| format!("{t:032x}")).collect();
        x.states.get_mut(&1).unwrap().text = Some("NORMAL".into());
        x.states.get_mut(&2).unwrap().text = Some(text.join(","));
    }
    t
}
