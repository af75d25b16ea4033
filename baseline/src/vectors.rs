//! The vectors of frames: what both readers find in them, what is written again, and what tables take of them.

use crate::model::*;
use crate::naive::{self, Message};
use crate::packed;
use crate::world::alone;
use std::fmt::Write;

fn bytes_of(digits: &str) -> Vec<u8> {
    let pairs = (0..digits.len() / 2).map(|i| &digits[2 * i..2 * i + 2]);
    pairs.map(|pair| u8::from_str_radix(pair, 16).unwrap()).collect()
}

fn digits(bytes: &[u8]) -> String {
    match bytes {
        [] => "-".into(),
        _ => bytes.iter().map(|byte| format!("{byte:02x}")).collect(),
    }
}

fn put_digests(out: &mut String, word: &str, digests: &[naive::Digest]) {
    for d in digests {
        write!(out, " {word} {} {} {}", d.endpoint, d.generation, d.version).unwrap();
    }
}

fn put_deltas(out: &mut String, deltas: &[(Endpoint, naive::Delta)]) {
    for (endpoint, d) in deltas {
        write!(out, " delta {endpoint} {} {} {}", d.generation, d.above, d.heartbeat).unwrap();
        for (key, state) in &d.states {
            match &state.text {
                None => write!(out, " removed {key} {}", state.version).unwrap(),
                Some(text) => write!(out, " state {key} {} {}", state.version, digits(text.as_bytes())).unwrap(),
            }
        }
    }
}

fn words(message: &Message) -> String {
    let mut out = String::new();
    match message {
        Message::Syn(m) => {
            write!(out, "syn {} {}", digits(m.cluster.name.as_bytes()), m.cluster.partitioner).unwrap();
            put_digests(&mut out, "digest", &m.digests);
        }
        Message::Ack(m) => {
            out.push_str("ack");
            put_digests(&mut out, "request", &m.requests);
            put_deltas(&mut out, &m.deltas);
        }
        Message::Ack2(m) => {
            out.push_str("ack2");
            put_deltas(&mut out, &m.deltas);
        }
    }
    out
}

/// What a table takes of an ACK2, in both representations.
fn takes(message: &Message, frame: &[u8]) {
    let Message::Ack2(ack2) = message else { return };
    let before = alone(0, 2, 3);
    let after = naive::take_ack2(&before, ack2).map(|(table, outcomes)| (naive::held(&table), outcomes));
    let (checked, mut outcomes) = (packed::check(frame).unwrap().unwrap(), Vec::new());
    let packed = packed::take_ack2(&packed::of_naive(&before), checked, &mut outcomes);
    assert_eq!(packed.map(|table| (packed::held(&table), outcomes)), after);
}

fn read(mut rest: &[u8]) -> String {
    let mut found = Vec::new();
    while !rest.is_empty() {
        match (naive::decode(rest), packed::check(rest)) {
            (Ok(Some((message, size))), Ok(Some(checked))) => {
                assert_eq!(checked.length, size);
                let mut frame = rest[..size].to_vec();
                frame[4] = WRITTEN;
                assert_eq!(naive::encode(&message), frame);
                takes(&message, &rest[..size]);
                found.push(words(&message));
                rest = &rest[size..];
            }
            (Ok(None), Ok(None)) => {
                let head = rest.first_chunk().map(|head| u32::from_be_bytes(*head) as usize);
                found.push(format!("partial {}", head.map_or(4, |length| 4 + length) - rest.len()));
                break;
            }
            (Err(fault), Err(same)) => {
                assert_eq!(fault, same);
                found.push(format!("fault 12 BadFrame {} {:?}", fault.place, fault.cause));
                break;
            }
            _ => panic!("one reader finds a message and one a fault"),
        }
    }
    found.join(" ")
}

#[test]
fn frames_are_read_as_expected() {
    let path = concat!(env!("CARGO_MANIFEST_DIR"), "/../crates/cg_vectors/data/frames.txt");
    let text = std::fs::read_to_string(path).unwrap();
    let lines = text.lines().filter_map(|line| line.split_once(" = "));
    let vectors: Vec<_> = lines.filter(|(given, _)| !given.starts_with('#')).collect();
    assert!(vectors.len() > 400);
    for (given, expected) in vectors {
        assert_eq!(read(&bytes_of(given)), expected, "{given}");
    }
}
