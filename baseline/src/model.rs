//! Words and limits.

pub const MOST: u32 = 2_147_483_647;
pub const ENDPOINTS: usize = 512;
pub const STATES: usize = 16;

/// The most members of a list, the most bytes of a text, the most after a length, and whether there are tombstones, as a
/// layout of frames has them.
#[derive(Clone, Copy)]
pub struct Layout {
    pub members: usize,
    pub text: usize,
    pub length: u32,
    pub tombstones: bool,
}

/// What a tombstone, the state of a removed text, has for the length of a text.
pub const TOMBSTONE: u16 = 65_535;

/// The byte of the layout that is written, and the layout: no frames are longer.
pub const WRITTEN: u8 = 3;
pub const WIDEST: Layout = Layout {
    members: 512,
    text: 4096,
    length: 40_000_000,
    tombstones: true,
};

/// The layout that a byte names.
pub fn layout_of(byte: u8) -> Option<Layout> {
    match byte {
        1 => Some(Layout {
            members: 256,
            text: 1024,
            length: 5_000_000,
            tombstones: false,
        }),
        2 => Some(Layout {
            tombstones: false,
            ..WIDEST
        }),
        WRITTEN => Some(WIDEST),
        _ => None,
    }
}

#[derive(Clone, Copy, PartialEq, Eq, PartialOrd, Ord, Hash, Debug)]
pub struct Endpoint {
    pub address: [u8; 4],
    pub port: u16,
}

impl Endpoint {
    pub fn number(i: usize) -> Endpoint {
        Endpoint {
            address: [10, 0, (i >> 8) as u8, i as u8],
            port: 7000,
        }
    }

    pub fn from_bytes(b: &[u8]) -> Endpoint {
        Endpoint {
            address: [b[0], b[1], b[2], b[3]],
            port: u16::from_be_bytes([b[4], b[5]]),
        }
    }

    pub fn to_bytes(self) -> [u8; 6] {
        let [a, b, c, d] = self.address;
        let [e, f] = self.port.to_be_bytes();
        [a, b, c, d, e, f]
    }
}

impl std::fmt::Display for Endpoint {
    fn fmt(&self, f: &mut std::fmt::Formatter<'_>) -> std::fmt::Result {
        let [a, b, c, d] = self.address;
        write!(f, "{a}.{b}.{c}.{d}:{}", self.port)
    }
}

#[derive(Clone, Copy, PartialEq, Eq, Debug)]
pub enum Cause {
    Length,
    Short,
    Layout,
    Kind,
    Name,
    Count,
    Endpoint,
    Order,
    Generation,
    Version,
    Above,
    Heartbeat,
    Key,
    Text,
    Empty,
    Rest,
}

#[derive(Clone, Copy, PartialEq, Eq, Debug)]
pub struct BadFrame {
    pub place: usize,
    pub cause: Cause,
}

pub fn bad<T>(place: usize, cause: Cause) -> Result<T, BadFrame> {
    Err(BadFrame { place, cause })
}

#[derive(Clone, Copy, PartialEq, Eq, Debug)]
pub enum Took {
    Taken,
    Old,
    Gap,
    Own,
}

pub type Outcome = (Endpoint, Took);

#[derive(Clone, Copy, PartialEq, Eq, Debug)]
pub enum Refusal {
    TableFull,
    OtherCluster,
}
