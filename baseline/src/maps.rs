// The straightforward implementation: owned messages and maps. A table is copied before it is changed, as the calls
// answer a new table. `naive` and `shared` take this file in with their own `Text`, `Held`, `hold` and `edit`.

use crate::model::*;
use std::collections::BTreeMap;

#[derive(Clone, PartialEq, Eq, Debug)]
pub struct State {
    pub version: u32,
    /// Nothing of a tombstone.
    pub text: Option<Text>,
}

#[derive(Clone, PartialEq, Eq, Debug)]
pub struct Entry {
    pub generation: u32,
    pub heartbeat: u32,
    pub states: BTreeMap<u8, State>,
}

#[derive(Clone, PartialEq, Eq, Debug)]
pub struct Delta {
    pub generation: u32,
    pub above: u32,
    pub heartbeat: u32,
    pub states: Vec<(u8, State)>,
}

impl Entry {
    pub fn newest(&self) -> u32 {
        self.states.values().map(|s| s.version).fold(self.heartbeat, u32::max)
    }

    pub fn above(&self, above: u32) -> Option<Delta> {
        if self.newest() <= above {
            return None;
        }
        let states = self
            .states
            .iter()
            .filter(|(_, s)| s.version > above)
            .map(|(k, s)| (*k, s.clone()))
            .collect();
        Some(Delta {
            generation: self.generation,
            above,
            heartbeat: self.heartbeat,
            states,
        })
    }

    fn whole(&self) -> Delta {
        self.above(0).expect("a heartbeat is at least 1")
    }
}

impl Delta {
    fn greatest(&self) -> u32 {
        self.states
            .iter()
            .map(|(_, s)| s.version)
            .fold(self.heartbeat, u32::max)
    }

    fn entry(&self) -> Entry {
        Entry {
            generation: self.generation,
            heartbeat: self.heartbeat,
            states: self.states.iter().cloned().collect(),
        }
    }
}

#[derive(Clone, PartialEq, Eq, Debug)]
pub struct Cluster {
    pub name: String,
    pub partitioner: u8,
}

#[derive(Clone, Copy, PartialEq, Eq, Debug)]
pub struct Digest {
    pub endpoint: Endpoint,
    pub generation: u32,
    pub version: u32,
}

#[derive(Clone, PartialEq, Eq, Debug)]
pub struct Syn {
    pub cluster: Cluster,
    pub digests: Vec<Digest>,
}

/// `requests` are digests whose version may be 0.
#[derive(Clone, PartialEq, Eq, Debug, Default)]
pub struct Ack {
    pub requests: Vec<Digest>,
    pub deltas: Vec<(Endpoint, Delta)>,
}

#[derive(Clone, PartialEq, Eq, Debug, Default)]
pub struct Ack2 {
    pub deltas: Vec<(Endpoint, Delta)>,
}

#[derive(Clone, PartialEq, Eq, Debug)]
pub enum Message {
    Syn(Syn),
    Ack(Ack),
    Ack2(Ack2),
}

#[derive(Clone, PartialEq, Eq, Debug)]
pub struct Table {
    pub own: Endpoint,
    pub entries: BTreeMap<Endpoint, Held>,
}

pub fn syn(table: &Table, cluster: &Cluster) -> Syn {
    let digests = table
        .entries
        .iter()
        .map(|(e, x)| Digest {
            endpoint: *e,
            generation: x.generation,
            version: x.newest(),
        })
        .collect();
    Syn {
        cluster: cluster.clone(),
        digests,
    }
}

pub fn answer_syn(table: &Table, cluster: &Cluster, syn: &Syn) -> Result<Ack, Refusal> {
    if syn.cluster != *cluster {
        return Err(Refusal::OtherCluster);
    }
    let mut requests = Vec::new();
    let mut deltas = BTreeMap::new();
    let mut named = std::collections::BTreeSet::new();
    for d in &syn.digests {
        named.insert(d.endpoint);
        let ask = |version| Digest {
            endpoint: d.endpoint,
            generation: d.generation,
            version,
        };
        match table.entries.get(&d.endpoint) {
            None => requests.push(ask(0)),
            Some(x) if d.generation > x.generation => requests.push(ask(0)),
            Some(x) if d.generation < x.generation => {
                deltas.insert(d.endpoint, x.whole());
            }
            Some(x) if d.version > x.newest() => requests.push(ask(x.newest())),
            Some(x) => {
                if let Some(delta) = x.above(d.version) {
                    deltas.insert(d.endpoint, delta);
                }
            }
        }
    }
    for (endpoint, x) in &table.entries {
        if !named.contains(endpoint) {
            deltas.insert(*endpoint, x.whole());
        }
    }
    Ok(Ack {
        requests,
        deltas: deltas.into_iter().collect(),
    })
}

fn answer_request(table: &Table, r: &Digest) -> Option<Delta> {
    let x = table.entries.get(&r.endpoint)?;
    if x.generation < r.generation {
        None
    } else if x.generation == r.generation {
        x.above(r.version)
    } else {
        Some(x.whole())
    }
}

impl Table {
    fn put(&mut self, endpoint: Endpoint, delta: &Delta) -> Took {
        if endpoint == self.own {
            return Took::Own;
        }
        match self.entries.get_mut(&endpoint) {
            None if delta.above > 0 => Took::Gap,
            None => {
                self.entries.insert(endpoint, hold(delta.entry()));
                Took::Taken
            }
            Some(x) if delta.generation < x.generation => Took::Old,
            Some(x) if delta.generation > x.generation => {
                if delta.above > 0 {
                    return Took::Gap;
                }
                *x = hold(delta.entry());
                Took::Taken
            }
            Some(x) if delta.greatest() <= x.newest() => Took::Old,
            Some(x) if delta.above > x.newest() => Took::Gap,
            Some(x) => {
                let x = edit(x);
                x.heartbeat = delta.heartbeat;
                for (key, state) in &delta.states {
                    x.states.insert(*key, state.clone());
                }
                Took::Taken
            }
        }
    }

    pub fn put_all(&mut self, deltas: &[(Endpoint, Delta)]) -> Result<Vec<Outcome>, Refusal> {
        let fresh = deltas
            .iter()
            .filter(|(e, d)| d.above == 0 && !self.entries.contains_key(e))
            .count();
        if self.entries.len() + fresh > ENDPOINTS {
            return Err(Refusal::TableFull);
        }
        Ok(deltas.iter().map(|(e, d)| (*e, self.put(*e, d))).collect())
    }
}

pub fn take_ack_in_place(table: &mut Table, ack: &Ack) -> Result<(Ack2, Vec<Outcome>), Refusal> {
    let outcomes = table.put_all(&ack.deltas)?;
    let deltas = ack
        .requests
        .iter()
        .filter_map(|r| Some((r.endpoint, answer_request(table, r)?)))
        .collect();
    Ok((Ack2 { deltas }, outcomes))
}

pub fn take_ack(table: &Table, ack: &Ack) -> Result<(Table, Ack2, Vec<Outcome>), Refusal> {
    let mut new = table.clone();
    let (ack2, outcomes) = take_ack_in_place(&mut new, ack)?;
    Ok((new, ack2, outcomes))
}

pub fn take_ack2(table: &Table, ack2: &Ack2) -> Result<(Table, Vec<Outcome>), Refusal> {
    let mut new = table.clone();
    let outcomes = new.put_all(&ack2.deltas)?;
    Ok((new, outcomes))
}

// Frames.

fn put_digests(out: &mut Vec<u8>, digests: &[Digest]) {
    out.extend_from_slice(&(digests.len() as u16).to_be_bytes());
    for d in digests {
        out.extend_from_slice(&d.endpoint.to_bytes());
        out.extend_from_slice(&d.generation.to_be_bytes());
        out.extend_from_slice(&d.version.to_be_bytes());
    }
}

/// A text behind its length, or a tombstone.
pub fn put_text(out: &mut Vec<u8>, text: Option<&str>) {
    match text {
        None => out.extend_from_slice(&TOMBSTONE.to_be_bytes()),
        Some(text) => {
            out.extend_from_slice(&(text.len() as u16).to_be_bytes());
            out.extend_from_slice(text.as_bytes());
        }
    }
}

fn put_deltas(out: &mut Vec<u8>, deltas: &[(Endpoint, Delta)]) {
    out.extend_from_slice(&(deltas.len() as u16).to_be_bytes());
    for (endpoint, d) in deltas {
        out.extend_from_slice(&endpoint.to_bytes());
        out.extend_from_slice(&d.generation.to_be_bytes());
        out.extend_from_slice(&d.above.to_be_bytes());
        out.extend_from_slice(&d.heartbeat.to_be_bytes());
        out.push(d.states.len() as u8);
        for (key, s) in &d.states {
            out.push(*key);
            out.extend_from_slice(&s.version.to_be_bytes());
            put_text(out, s.text.as_deref());
        }
    }
}

pub fn encode(message: &Message) -> Vec<u8> {
    let mut out = vec![0, 0, 0, 0, WRITTEN];
    match message {
        Message::Syn(m) => {
            out.push(1);
            out.push(m.cluster.name.len() as u8);
            out.extend_from_slice(m.cluster.name.as_bytes());
            out.push(m.cluster.partitioner);
            put_digests(&mut out, &m.digests);
        }
        Message::Ack(m) => {
            out.push(2);
            put_digests(&mut out, &m.requests);
            put_deltas(&mut out, &m.deltas);
        }
        Message::Ack2(m) => {
            out.push(3);
            put_deltas(&mut out, &m.deltas);
        }
    }
    let length = (out.len() - 4) as u32;
    out[..4].copy_from_slice(&length.to_be_bytes());
    out
}

pub fn is_plain(bytes: &[u8]) -> bool {
    std::str::from_utf8(bytes).is_ok() && bytes.iter().all(|b| *b >= 32 && *b != 127)
}

struct Reader<'a> {
    frame: &'a [u8],
    place: usize,
    layout: Layout,
}

impl<'a> Reader<'a> {
    fn take(&mut self, count: usize) -> Result<&'a [u8], BadFrame> {
        match self.frame.get(self.place..self.place + count) {
            None => bad(self.place, Cause::Short),
            Some(bytes) => {
                self.place += count;
                Ok(bytes)
            }
        }
    }

    fn u8(&mut self) -> Result<u8, BadFrame> {
        Ok(self.take(1)?[0])
    }

    fn u16(&mut self) -> Result<u16, BadFrame> {
        Ok(u16::from_be_bytes(self.take(2)?.try_into().unwrap()))
    }

    fn number(&mut self, least: u32, cause: Cause) -> Result<u32, BadFrame> {
        let place = self.place;
        let value = u32::from_be_bytes(self.take(4)?.try_into().unwrap());
        if value < least || value > MOST {
            return bad(place, cause);
        }
        Ok(value)
    }

    fn endpoint(&mut self, before: Option<Endpoint>) -> Result<Endpoint, BadFrame> {
        let place = self.place;
        let endpoint = Endpoint::from_bytes(self.take(6)?);
        if endpoint.port == 0 {
            return bad(place, Cause::Endpoint);
        }
        if before.is_some_and(|b| b >= endpoint) {
            return bad(place, Cause::Order);
        }
        Ok(endpoint)
    }

    fn count(&mut self) -> Result<usize, BadFrame> {
        let place = self.place;
        let count = self.u16()? as usize;
        if count > self.layout.members {
            return bad(place, Cause::Count);
        }
        Ok(count)
    }

    fn digests(&mut self, least: u32) -> Result<Vec<Digest>, BadFrame> {
        let count = self.count()?;
        let mut digests: Vec<Digest> = Vec::new();
        for _ in 0..count {
            let endpoint = self.endpoint(digests.last().map(|d| d.endpoint))?;
            let generation = self.number(1, Cause::Generation)?;
            let version = self.number(least, Cause::Version)?;
            digests.push(Digest {
                endpoint,
                generation,
                version,
            });
        }
        Ok(digests)
    }

    fn deltas(&mut self) -> Result<Vec<(Endpoint, Delta)>, BadFrame> {
        let count = self.count()?;
        let mut deltas: Vec<(Endpoint, Delta)> = Vec::new();
        for _ in 0..count {
            let start = self.place;
            let endpoint = self.endpoint(deltas.last().map(|d| d.0))?;
            let generation = self.number(1, Cause::Generation)?;
            let above = self.number(0, Cause::Above)?;
            let heartbeat = self.number(1, Cause::Heartbeat)?;
            let place = self.place;
            let count = self.u8()? as usize;
            if count > STATES {
                return bad(place, Cause::Count);
            }
            let mut states: Vec<(u8, State)> = Vec::new();
            for _ in 0..count {
                states.push(self.state(above, states.last().map(|s| s.0))?);
            }
            if states.is_empty() && heartbeat <= above {
                return bad(start, Cause::Empty);
            }
            deltas.push((
                endpoint,
                Delta {
                    generation,
                    above,
                    heartbeat,
                    states,
                },
            ));
        }
        Ok(deltas)
    }

    fn state(&mut self, above: u32, before: Option<u8>) -> Result<(u8, State), BadFrame> {
        let place = self.place;
        let key = self.u8()?;
        if key == 0 || key as usize > STATES {
            return bad(place, Cause::Key);
        }
        if before.is_some_and(|b| b >= key) {
            return bad(place, Cause::Order);
        }
        let version = self.number(above + 1, Cause::Version)?;
        let text = self.text()?;
        Ok((key, State { version, text }))
    }

    fn text(&mut self) -> Result<Option<Text>, BadFrame> {
        let place = self.place;
        let length = self.u16()?;
        if length == TOMBSTONE && self.layout.tombstones {
            return Ok(None);
        }
        if length as usize > self.layout.text {
            return bad(place, Cause::Text);
        }
        let place = self.place;
        let bytes = self.take(length as usize)?;
        if !is_plain(bytes) {
            return bad(place, Cause::Text);
        }
        Ok(Some(Text::from(std::str::from_utf8(bytes).unwrap())))
    }
}

pub fn decode(bytes: &[u8]) -> Result<Option<(Message, usize)>, BadFrame> {
    let Some(head) = bytes.get(..4) else { return Ok(None) };
    let length = u32::from_be_bytes(head.try_into().unwrap());
    let named = bytes.get(4).and_then(|byte| layout_of(*byte));
    let layout = named.unwrap_or(WIDEST);
    if length > layout.length {
        return bad(0, Cause::Length);
    }
    let end = 4 + length as usize;
    let Some(frame) = bytes.get(..end) else { return Ok(None) };
    let mut r = Reader { frame, place: 4, layout };
    r.u8()?;
    if named.is_none() {
        return bad(4, Cause::Layout);
    }
    let message = match r.u8()? {
        1 => {
            let length = r.u8()? as usize;
            if length == 0 || length > 48 {
                return bad(6, Cause::Name);
            }
            let name = r.take(length)?;
            if !is_plain(name) {
                return bad(7, Cause::Name);
            }
            let name = String::from_utf8(name.to_vec()).unwrap();
            let partitioner = r.u8()?;
            Message::Syn(Syn {
                cluster: Cluster { name, partitioner },
                digests: r.digests(1)?,
            })
        }
        2 => Message::Ack(Ack {
            requests: r.digests(0)?,
            deltas: r.deltas()?,
        }),
        3 => Message::Ack2(Ack2 { deltas: r.deltas()? }),
        _ => return bad(5, Cause::Kind),
    };
    if r.place < end {
        return bad(r.place, Cause::Rest);
    }
    Ok(Some((message, end)))
}

pub fn cluster() -> Cluster {
    Cluster {
        name: "c1".into(),
        partitioner: 1,
    }
}

/// The SYN of a member that holds nothing.
pub fn empty() -> Syn {
    Syn {
        cluster: cluster(),
        digests: vec![],
    }
}

/// All that a table holds, as the frame of the ACK that brings it.
pub fn held(table: &Table) -> Vec<u8> {
    encode(&Message::Ack(answer_syn(table, &cluster(), &empty()).unwrap()))
}

/// The message that a frame spells.
pub fn read(frame: &[u8]) -> Message {
    decode(frame).unwrap().unwrap().0
}

/// Both tables after an exchange, from frame to frame.
pub fn exchanged(opener: &Table, answerer: &Table) -> (Table, Table) {
    let frame = encode(&Message::Syn(syn(opener, &cluster())));
    let Message::Syn(m) = read(&frame) else { panic!() };
    let frame = encode(&Message::Ack(answer_syn(answerer, &cluster(), &m).unwrap()));
    let Message::Ack(m) = read(&frame) else { panic!() };
    let (opener, m, _) = take_ack(opener, &m).unwrap();
    let frame = encode(&Message::Ack2(m));
    let Message::Ack2(m) = read(&frame) else { panic!() };
    (opener, take_ack2(answerer, &m).unwrap().0)
}

/// One side of an exchange over links after it, and the bytes that it wrote.
pub type Part = (Table, Vec<u8>);

/// The opener's part: it reads the frame of an ACK.
fn opened(own: &Table, mut input: &[u8]) -> Part {
    let mut written = encode(&Message::Syn(syn(own, &cluster())));
    let Message::Ack(m) = received(&mut input) else { panic!() };
    let (after, m, _) = take_ack(own, &m).unwrap();
    written.extend(encode(&Message::Ack2(m)));
    (after, written)
}

/// The answerer's part: it reads the frames of a SYN and an ACK2.
fn answered(own: &Table, mut input: &[u8]) -> Part {
    let Message::Syn(m) = received(&mut input) else { panic!() };
    let written = encode(&Message::Ack(answer_syn(own, &cluster(), &m).unwrap()));
    let Message::Ack2(m) = received(&mut input) else { panic!() };
    (take_ack2(own, &m).unwrap().0, written)
}

/// The bytes that each side reads in an exchange: the opener the ACK, the answerer the SYN and the ACK2.
pub fn inputs(opener: &Table, answerer: &Table) -> (Vec<u8>, Vec<u8>) {
    let m = syn(opener, &cluster());
    let ack = answer_syn(answerer, &cluster(), &m).unwrap();
    let (_, ack2, _) = take_ack(opener, &ack).unwrap();
    let to_answerer = [encode(&Message::Syn(m)), encode(&Message::Ack2(ack2))].concat();
    (encode(&Message::Ack(ack)), to_answerer)
}

/// Both parts of an exchange, each over a link in memory.
pub fn linked(opener: &Table, answerer: &Table, to_opener: &[u8], to_answerer: &[u8]) -> (Part, Part) {
    (opened(opener, to_opener), answered(answerer, to_answerer))
}

/// One message of a reader, read in pieces of at most 4,096 bytes.
pub fn received(reader: &mut impl std::io::Read) -> Message {
    let mut frame = vec![0; 4];
    reader.read_exact(&mut frame).unwrap();
    let end = 4 + u32::from_be_bytes(frame[..4].try_into().unwrap()) as usize;
    let mut piece = [0; 4096];
    while frame.len() < end {
        let room = (end - frame.len()).min(piece.len());
        let count = reader.read(&mut piece[..room]).unwrap();
        frame.extend_from_slice(&piece[..count]);
    }
    read(&frame)
}
