//! Tokens, ring and replicas.

use crate::model::Endpoint;
use crate::naive;
use std::collections::BTreeMap;

pub const GREATEST: u128 = 1 << 127;

fn claims(status: &str) -> bool {
    matches!(status.split(',').next(), Some("NORMAL") | Some("LEAVING"))
}

/// 1 to 16 tokens, each 32 lower-case hexadecimal digits, strictly rising.
pub fn read_tokens(text: &str) -> Option<Vec<u128>> {
    let mut tokens: Vec<u128> = Vec::new();
    for word in text.split(',') {
        if word.len() != 32 || !word.bytes().all(|b| matches!(b, b'0'..=b'9' | b'a'..=b'f')) {
            return None;
        }
        let token = u128::from_str_radix(word, 16).ok()?;
        if token > GREATEST || tokens.last().is_some_and(|t| *t >= token) || tokens.len() == 16 {
            return None;
        }
        tokens.push(token);
    }
    Some(tokens)
}

pub struct Ring {
    pub positions: Vec<(u128, Endpoint)>,
}

impl Ring {
    pub fn of_table(table: &naive::Table) -> Ring {
        let mut owners: BTreeMap<u128, (u32, Endpoint)> = BTreeMap::new();
        for (endpoint, x) in &table.entries {
            let text = |key| x.states.get(key).and_then(|s| s.text.as_deref());
            if !text(&1).is_some_and(claims) {
                continue;
            }
            let Some(tokens) = text(&2).and_then(read_tokens) else { continue };
            for token in tokens {
                let owner = owners.entry(token).or_insert((x.generation, *endpoint));
                if x.generation > owner.0 {
                    *owner = (x.generation, *endpoint);
                }
            }
        }
        Ring {
            positions: owners.into_iter().map(|(t, (_, e))| (t, e)).collect(),
        }
    }

    pub fn replicas(&self, token: u128, rf: usize) -> Vec<Endpoint> {
        let start = self.positions.partition_point(|p| p.0 < token);
        let mut found = Vec::new();
        for i in 0..self.positions.len() {
            if found.len() == rf {
                break;
            }
            let endpoint = self.positions[(start + i) % self.positions.len()].1;
            if !found.contains(&endpoint) {
                found.push(endpoint);
            }
        }
        found
    }
}
