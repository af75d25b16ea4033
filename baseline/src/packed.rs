//! The optimised implementation. An entry keeps its states in wire form, with a mark (key, version, place)
//! for each; entries are shared between tables; frames are checked in one pass that takes no memory and are
//! read where they lie; answers are written straight into a buffer that the caller keeps.

use crate::model::*;
use std::sync::Arc;

#[derive(Clone, Copy, Default)]
struct Mark {
    version: u32,
    start: u16,
    key: u8,
}

#[derive(Clone)]
pub struct Entry {
    pub generation: u32,
    pub heartbeat: u32,
    newest: u32,
    count: u8,
    marks: [Mark; STATES],
    packed: Arc<[u8]>,
}

impl Entry {
    fn of_states(generation: u32, heartbeat: u32, count: u8, packed: Arc<[u8]>) -> Entry {
        let mut marks = [Mark::default(); STATES];
        let mut newest = heartbeat;
        let mut at = 0;
        for mark in marks.iter_mut().take(count as usize) {
            let version = u32_at(&packed, at + 1);
            *mark = Mark {
                version,
                start: at as u16,
                key: packed[at],
            };
            newest = newest.max(version);
            at += size_at(&packed, at);
        }
        Entry {
            generation,
            heartbeat,
            newest,
            count,
            marks,
            packed,
        }
    }

    fn marks(&self) -> &[Mark] {
        &self.marks[..self.count as usize]
    }

    fn end(&self, i: usize) -> usize {
        if i + 1 < self.count as usize {
            self.marks[i + 1].start as usize
        } else {
            self.packed.len()
        }
    }

    fn write_head(&self, out: &mut Vec<u8>, endpoint: Endpoint, above: u32, count: u8) {
        let mut head = [0; 19];
        head[..6].copy_from_slice(&endpoint.to_bytes());
        head[6..10].copy_from_slice(&self.generation.to_be_bytes());
        head[10..14].copy_from_slice(&above.to_be_bytes());
        head[14..18].copy_from_slice(&self.heartbeat.to_be_bytes());
        head[18] = count;
        out.extend_from_slice(&head);
    }

    /// Writes the delta above `above`; false where there is none.
    fn write_above(&self, out: &mut Vec<u8>, endpoint: Endpoint, above: u32) -> bool {
        if self.newest <= above {
            return false;
        }
        if above == 0 {
            self.write_head(out, endpoint, 0, self.count);
            out.extend_from_slice(&self.packed);
            return true;
        }
        let count = self.marks().iter().filter(|m| m.version > above).count();
        self.write_head(out, endpoint, above, count as u8);
        if count > 0 {
            for (i, m) in self.marks().iter().enumerate() {
                if m.version > above {
                    out.extend_from_slice(&self.packed[m.start as usize..self.end(i)]);
                }
            }
        }
        true
    }
}

#[derive(Clone)]
pub struct Table {
    pub own: Endpoint,
    pub slots: Vec<(Endpoint, Arc<Entry>)>,
}

fn u16_at(b: &[u8], at: usize) -> u16 {
    u16::from_be_bytes(b[at..at + 2].try_into().unwrap())
}

fn u32_at(b: &[u8], at: usize) -> u32 {
    u32::from_be_bytes(b[at..at + 4].try_into().unwrap())
}

/// The size of the state at a place: of a tombstone its head alone.
fn size_at(b: &[u8], at: usize) -> usize {
    match u16_at(b, at + 5) {
        TOMBSTONE => 7,
        length => 7 + length as usize,
    }
}

// Frames.

/// A frame that was found whole and without fault.
#[derive(Clone, Copy)]
pub struct Checked<'a> {
    pub cluster: &'a [u8],
    pub partitioner: u8,
    digests: &'a [u8],
    deltas: &'a [u8],
    pub length: usize,
}

#[derive(Clone, Copy)]
pub struct DigestView {
    pub endpoint: Endpoint,
    pub generation: u32,
    pub version: u32,
}

#[derive(Clone, Copy)]
pub struct DeltaView<'a> {
    pub endpoint: Endpoint,
    pub generation: u32,
    pub above: u32,
    pub heartbeat: u32,
    pub count: u8,
    pub states: &'a [u8],
}

impl<'a> Checked<'a> {
    pub fn digests(&self) -> impl Iterator<Item = DigestView> + 'a {
        self.digests.chunks_exact(14).map(|b| DigestView {
            endpoint: Endpoint::from_bytes(b),
            generation: u32_at(b, 6),
            version: u32_at(b, 10),
        })
    }

    pub fn deltas(&self) -> Deltas<'a> {
        Deltas { rest: self.deltas }
    }
}

pub struct Deltas<'a> {
    rest: &'a [u8],
}

impl<'a> Iterator for Deltas<'a> {
    type Item = DeltaView<'a>;

    fn next(&mut self) -> Option<DeltaView<'a>> {
        let b = self.rest;
        if b.is_empty() {
            return None;
        }
        let count = b[18];
        let mut end = 19;
        for _ in 0..count {
            end += size_at(b, end);
        }
        self.rest = &b[end..];
        Some(DeltaView {
            endpoint: Endpoint::from_bytes(b),
            generation: u32_at(b, 6),
            above: u32_at(b, 10),
            heartbeat: u32_at(b, 14),
            count,
            states: &b[19..end],
        })
    }
}

fn is_plain(bytes: &[u8]) -> bool {
    // One pass that the compiler turns into vector instructions; the slow path only with bytes over 127.
    let (control, high) = bytes.iter().fold((0u8, 0u8), |(c, h), b| {
        (c | (*b < 32) as u8 | (*b == 127) as u8, h | *b)
    });
    control == 0 && (high < 128 || std::str::from_utf8(bytes).is_ok())
}

struct Walk<'a> {
    frame: &'a [u8],
    place: usize,
    layout: Layout,
}

impl<'a> Walk<'a> {
    #[inline(always)]
    fn field<const N: usize>(&mut self) -> Result<&'a [u8; N], BadFrame> {
        match self.frame.get(self.place..).and_then(|r| r.first_chunk::<N>()) {
            None => bad(self.place, Cause::Short),
            Some(b) => {
                self.place += N;
                Ok(b)
            }
        }
    }

    #[inline(always)]
    fn number(&mut self, least: u32, cause: Cause) -> Result<u32, BadFrame> {
        let value = u32::from_be_bytes(*self.field::<4>()?);
        if value < least || value > MOST {
            return bad(self.place - 4, cause);
        }
        Ok(value)
    }

    /// The endpoint as a number that has the same order; 0 stands before all.
    #[inline(always)]
    fn endpoint(&mut self, before: u64) -> Result<u64, BadFrame> {
        let b = self.field::<6>()?;
        let value = u64::from_be_bytes([0, 0, b[0], b[1], b[2], b[3], b[4], b[5]]);
        if value & 0xffff == 0 {
            return bad(self.place - 6, Cause::Endpoint);
        }
        if value <= before {
            return bad(self.place - 6, Cause::Order);
        }
        Ok(value)
    }

    fn count(&mut self) -> Result<usize, BadFrame> {
        let count = u16::from_be_bytes(*self.field::<2>()?) as usize;
        if count > self.layout.members {
            return bad(self.place - 2, Cause::Count);
        }
        Ok(count)
    }

    fn digests(&mut self, least: u32) -> Result<&'a [u8], BadFrame> {
        let count = self.count()?;
        let start = self.place;
        let mut before = 0;
        for _ in 0..count {
            before = self.endpoint(before)?;
            self.number(1, Cause::Generation)?;
            self.number(least, Cause::Version)?;
        }
        Ok(&self.frame[start..self.place])
    }

    fn deltas(&mut self) -> Result<&'a [u8], BadFrame> {
        let count = self.count()?;
        let start = self.place;
        let mut before = 0;
        for _ in 0..count {
            let first = self.place;
            before = self.endpoint(before)?;
            self.number(1, Cause::Generation)?;
            let above = self.number(0, Cause::Above)?;
            let heartbeat = self.number(1, Cause::Heartbeat)?;
            let [states] = *self.field::<1>()?;
            if states as usize > STATES {
                return bad(self.place - 1, Cause::Count);
            }
            let mut last = 0;
            for _ in 0..states {
                let [key] = *self.field::<1>()?;
                if key == 0 || key as usize > STATES {
                    return bad(self.place - 1, Cause::Key);
                }
                if key <= last {
                    return bad(self.place - 1, Cause::Order);
                }
                last = key;
                self.number(above + 1, Cause::Version)?;
                let length = u16::from_be_bytes(*self.field::<2>()?);
                if length as usize > self.layout.text {
                    if length == TOMBSTONE && self.layout.tombstones {
                        continue;
                    }
                    return bad(self.place - 2, Cause::Text);
                }
                let length = length as usize;
                let Some(text) = self.frame.get(self.place..self.place + length) else {
                    return bad(self.place, Cause::Short);
                };
                if !is_plain(text) {
                    return bad(self.place, Cause::Text);
                }
                self.place += length;
            }
            if states == 0 && heartbeat <= above {
                return bad(first, Cause::Empty);
            }
        }
        Ok(&self.frame[start..self.place])
    }
}

pub fn check(bytes: &[u8]) -> Result<Option<Checked<'_>>, BadFrame> {
    let Some(head) = bytes.first_chunk::<4>() else {
        return Ok(None);
    };
    let length = u32::from_be_bytes(*head);
    let named = bytes.get(4).and_then(|byte| layout_of(*byte));
    let layout = named.unwrap_or(WIDEST);
    if length > layout.length {
        return bad(0, Cause::Length);
    }
    let end = 4 + length as usize;
    let Some(frame) = bytes.get(..end) else { return Ok(None) };
    let mut w = Walk { frame, place: 4, layout };
    w.field::<1>()?;
    if named.is_none() {
        return bad(4, Cause::Layout);
    }
    let [kind] = *w.field::<1>()?;
    let mut found = Checked {
        cluster: &[],
        partitioner: 0,
        digests: &[],
        deltas: &[],
        length: end,
    };
    match kind {
        1 => {
            let [length] = *w.field::<1>()?;
            if length == 0 || length > 48 {
                return bad(6, Cause::Name);
            }
            let Some(name) = frame.get(7..7 + length as usize) else {
                return bad(7, Cause::Short);
            };
            if !is_plain(name) {
                return bad(7, Cause::Name);
            }
            w.place = 7 + length as usize;
            found.cluster = name;
            [found.partitioner] = *w.field::<1>()?;
            found.digests = w.digests(1)?;
        }
        2 => {
            found.digests = w.digests(0)?;
            found.deltas = w.deltas()?;
        }
        3 => found.deltas = w.deltas()?,
        _ => return bad(5, Cause::Kind),
    }
    if w.place < end {
        return bad(w.place, Cause::Rest);
    }
    Ok(Some(found))
}

fn begin(out: &mut Vec<u8>, kind: u8) {
    out.clear();
    out.extend_from_slice(&[0, 0, 0, 0, WRITTEN, kind]);
}

fn finish(out: &mut [u8]) {
    let length = (out.len() - 4) as u32;
    out[..4].copy_from_slice(&length.to_be_bytes());
}

fn put_digest(out: &mut Vec<u8>, endpoint: Endpoint, generation: u32, version: u32) {
    let mut b = [0; 14];
    b[..6].copy_from_slice(&endpoint.to_bytes());
    b[6..10].copy_from_slice(&generation.to_be_bytes());
    b[10..].copy_from_slice(&version.to_be_bytes());
    out.extend_from_slice(&b);
}

pub fn write_syn(table: &Table, cluster: &[u8], out: &mut Vec<u8>) {
    begin(out, 1);
    out.push(cluster.len() as u8);
    out.extend_from_slice(cluster);
    out.push(1);
    out.extend_from_slice(&(table.slots.len() as u16).to_be_bytes());
    for (e, x) in &table.slots {
        put_digest(out, *e, x.generation, x.newest);
    }
    finish(out);
}

/// The answer of a SYN's receiver about one endpoint.
enum Due {
    Nothing,
    Ask(u32),
    Send(u32),
}

fn due(x: &Entry, d: &DigestView) -> Due {
    if d.generation > x.generation {
        Due::Ask(0)
    } else if d.generation < x.generation {
        Due::Send(0)
    } else if d.version > x.newest {
        Due::Ask(x.newest)
    } else if d.version < x.newest {
        Due::Send(d.version)
    } else {
        Due::Nothing
    }
}

pub fn answer_syn(table: &Table, cluster: &[u8], syn: Checked<'_>, out: &mut Vec<u8>) -> Result<(), Refusal> {
    if syn.cluster != cluster || syn.partitioner != 1 {
        return Err(Refusal::OtherCluster);
    }
    begin(out, 2);
    // Requests come first in the frame and deltas after them: those due are noted on the way.
    let mut sends = [(0u16, 0u32); ENDPOINTS];
    let mut sending = 0;
    let mut send = |slot: usize, above: u32| {
        sends[sending] = (slot as u16, above);
        sending += 1;
    };
    let place = out.len();
    out.extend_from_slice(&[0, 0]);
    let mut slot = 0;
    for d in syn.digests() {
        while slot < table.slots.len() && table.slots[slot].0 < d.endpoint {
            send(slot, 0);
            slot += 1;
        }
        let mut ask = None;
        if slot < table.slots.len() && table.slots[slot].0 == d.endpoint {
            match due(&table.slots[slot].1, &d) {
                Due::Nothing => {}
                Due::Ask(version) => ask = Some(version),
                Due::Send(above) => send(slot, above),
            }
            slot += 1;
        } else {
            ask = Some(0);
        }
        if let Some(version) = ask {
            put_digest(out, d.endpoint, d.generation, version);
        }
    }
    while slot < table.slots.len() {
        send(slot, 0);
        slot += 1;
    }
    let asked = ((out.len() - place - 2) / 14) as u16;
    out[place..place + 2].copy_from_slice(&asked.to_be_bytes());
    out.extend_from_slice(&(sending as u16).to_be_bytes());
    for (slot, above) in &sends[..sending] {
        let (endpoint, x) = &table.slots[*slot as usize];
        x.write_above(out, *endpoint, *above);
    }
    finish(out);
    Ok(())
}

fn absorb(x: &Entry, d: &DeltaView<'_>) -> Result<Entry, Took> {
    if d.generation < x.generation {
        return Err(Took::Old);
    }
    if d.generation > x.generation {
        return if d.above > 0 { Err(Took::Gap) } else { Ok(fresh(d)) };
    }
    let mut greatest = d.heartbeat;
    let mut at = 0;
    for _ in 0..d.count {
        greatest = greatest.max(u32_at(d.states, at + 1));
        at += size_at(d.states, at);
    }
    if greatest <= x.newest {
        return Err(Took::Old);
    }
    if d.above > x.newest {
        return Err(Took::Gap);
    }
    if d.count == 0 {
        let mut entry = x.clone();
        entry.heartbeat = d.heartbeat;
        entry.newest = x.marks().iter().map(|m| m.version).fold(d.heartbeat, u32::max);
        return Ok(entry);
    }
    let mut packed = Vec::with_capacity(x.packed.len() + d.states.len());
    let mut count = 0;
    let (mut i, mut at) = (0, 0);
    while i < x.count as usize || at < d.states.len() {
        let held = if i < x.count as usize { x.marks[i].key } else { u8::MAX };
        let given = if at < d.states.len() { d.states[at] } else { u8::MAX };
        if given <= held {
            let end = at + size_at(d.states, at);
            packed.extend_from_slice(&d.states[at..end]);
            at = end;
            i += (given == held) as usize;
        } else {
            packed.extend_from_slice(&x.packed[x.marks[i].start as usize..x.end(i)]);
            i += 1;
        }
        count += 1;
    }
    Ok(Entry::of_states(x.generation, d.heartbeat, count, packed.into()))
}

fn fresh(d: &DeltaView<'_>) -> Entry {
    Entry::of_states(d.generation, d.heartbeat, d.count, d.states.into())
}

fn put_all(table: &Table, frame: Checked<'_>, outcomes: &mut Vec<Outcome>) -> Result<Table, Refusal> {
    outcomes.clear();
    let mut slot = 0;
    let mut more = 0;
    for d in frame.deltas() {
        while slot < table.slots.len() && table.slots[slot].0 < d.endpoint {
            slot += 1;
        }
        let held = slot < table.slots.len() && table.slots[slot].0 == d.endpoint;
        more += (!held && d.above == 0) as usize;
    }
    if table.slots.len() + more > ENDPOINTS {
        return Err(Refusal::TableFull);
    }
    let mut slots = Vec::with_capacity(table.slots.len() + more);
    let mut slot = 0;
    for d in frame.deltas() {
        while slot < table.slots.len() && table.slots[slot].0 < d.endpoint {
            slots.push(table.slots[slot].clone());
            slot += 1;
        }
        let held = slot < table.slots.len() && table.slots[slot].0 == d.endpoint;
        let took = if d.endpoint == table.own {
            slots.push(table.slots[slot].clone());
            Took::Own
        } else if held {
            match absorb(&table.slots[slot].1, &d) {
                Ok(entry) => {
                    slots.push((d.endpoint, Arc::new(entry)));
                    Took::Taken
                }
                Err(took) => {
                    slots.push(table.slots[slot].clone());
                    took
                }
            }
        } else if d.above == 0 {
            slots.push((d.endpoint, Arc::new(fresh(&d))));
            Took::Taken
        } else {
            Took::Gap
        };
        slot += held as usize;
        outcomes.push((d.endpoint, took));
    }
    slots.extend_from_slice(&table.slots[slot..]);
    Ok(Table { own: table.own, slots })
}

pub fn take_ack(
    table: &Table,
    ack: Checked<'_>,
    outcomes: &mut Vec<Outcome>,
    out: &mut Vec<u8>,
) -> Result<Table, Refusal> {
    let new = put_all(table, ack, outcomes)?;
    begin(out, 3);
    let place = out.len();
    out.extend_from_slice(&[0, 0]);
    let mut count = 0u16;
    let mut slot = 0;
    for r in ack.digests() {
        while slot < new.slots.len() && new.slots[slot].0 < r.endpoint {
            slot += 1;
        }
        if slot < new.slots.len() && new.slots[slot].0 == r.endpoint {
            let x = &new.slots[slot].1;
            let above = match x.generation.cmp(&r.generation) {
                std::cmp::Ordering::Less => continue,
                std::cmp::Ordering::Equal => r.version,
                std::cmp::Ordering::Greater => 0,
            };
            count += x.write_above(out, r.endpoint, above) as u16;
        }
    }
    out[place..place + 2].copy_from_slice(&count.to_be_bytes());
    finish(out);
    Ok(new)
}

pub fn take_ack2(table: &Table, ack2: Checked<'_>, outcomes: &mut Vec<Outcome>) -> Result<Table, Refusal> {
    put_all(table, ack2, outcomes)
}

/// All that a table holds, as the frame of the ACK that brings it.
pub fn held(table: &Table) -> Vec<u8> {
    let (mut asked, mut out) = (Vec::new(), Vec::new());
    let none = Table {
        own: table.own,
        slots: vec![],
    };
    write_syn(&none, b"c1", &mut asked);
    answer_syn(table, b"c1", check(&asked).unwrap().unwrap(), &mut out).unwrap();
    out
}

/// The frames of an exchange and what each side took, kept from one exchange to the next.
#[derive(Default)]
pub struct Kept {
    syn: Vec<u8>,
    ack: Vec<u8>,
    ack2: Vec<u8>,
    outcomes: Vec<Outcome>,
}

/// Both tables after an exchange, from frame to frame.
pub fn exchanged(opener: &Table, answerer: &Table, kept: &mut Kept) -> (Table, Table) {
    write_syn(opener, b"c1", &mut kept.syn);
    answer_syn(answerer, b"c1", check(&kept.syn).unwrap().unwrap(), &mut kept.ack).unwrap();
    let opener = take_ack(opener, check(&kept.ack).unwrap().unwrap(), &mut kept.outcomes, &mut kept.ack2).unwrap();
    let answerer = take_ack2(answerer, check(&kept.ack2).unwrap().unwrap(), &mut kept.outcomes).unwrap();
    (opener, answerer)
}

/// The same table in the other representation.
pub fn of_naive(table: &crate::naive::Table) -> Table {
    let slots = table
        .entries
        .iter()
        .map(|(e, x)| {
            let mut packed = Vec::new();
            for (key, s) in &x.states {
                packed.push(*key);
                packed.extend_from_slice(&s.version.to_be_bytes());
                crate::naive::put_text(&mut packed, s.text.as_deref());
            }
            (
                *e,
                Arc::new(Entry::of_states(
                    x.generation,
                    x.heartbeat,
                    x.states.len() as u8,
                    packed.into(),
                )),
            )
        })
        .collect();
    Table { own: table.own, slots }
}
