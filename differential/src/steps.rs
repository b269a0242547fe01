//! What a run is made of: the sizes of a box, and its steps. Both are lines of text, so that a run can be kept and run again.
use std::fmt::{self, Display, Formatter};
use std::str::{FromStr, SplitAsciiWhitespace};

pub type Hash = [u8; 32];

#[derive(Clone, Debug, PartialEq)]
pub struct Insert {
    pub hash: Hash,
    pub idx: u64,
    pub born_round: u32,
    pub cell: Vec<u8>,
}

#[derive(Clone, Debug, Default, PartialEq)]
pub struct Delta {
    pub inserts: Vec<Insert>,
    pub removes: Vec<Hash>,
}

/// How much output the port is lent: more than the answer takes, just as much, or a byte less.
#[derive(Clone, Copy, Debug, PartialEq)]
pub enum Room {
    More,
    Exact,
    Less,
}

/// The sizes of the port's tables, the original's stripes, the next index at the start, and which form of the port's calls is used.
#[derive(Clone, Copy, Debug)]
pub struct Sizes {
    pub next: u64,
    pub counts: usize,
    pub entries: usize,
    pub waiting: usize,
    pub cells: usize,
    pub stripes: usize,
    pub held: bool,
}

#[derive(Clone, Debug)]
pub enum Step {
    /// Fresh counters.
    New(u64),
    Allocate,
    Batch(Vec<[u64; 3]>),
    Get(u64),
    /// Sets the figures of maintenance on both sides, where no call of use in a test would bring them.
    Figures([u64; 10]),
    Shrink(u64),
    ShouldShrink([u64; 3]),
    Adjust([u64; 2]),
    Snapshot(Room),
    /// The port goes on from the original's snapshot, the original from the port's.
    ReadBack,
    /// Both read these bytes; where they are taken they are the new state. With fewer cells than counts it is what the port loads of them.
    Read(Vec<u8>),
    /// An empty nursery.
    Empty,
    Delta(Delta),
    Drain(u32, Room),
    Lookup(Hash),
    Listing(Room),
    Encode(u64, Delta, Room),
    Decode(Vec<u8>),
    /// The journal so far, cut at a byte, with more bytes behind it, and with a bit changed (places are taken modulo the length), read into
    /// an empty nursery; and whether that is the nursery from here on.
    Journal {
        cut: u64,
        more: Vec<u8>,
        flip: Option<u64>,
        keep: bool,
    },
    Hash(Vec<u8>),
}

pub const KINDS: [&str; 20] = [
    "new",
    "allocate",
    "batch",
    "get",
    "figures",
    "shrink",
    "should_shrink",
    "adjust",
    "snapshot",
    "read_back",
    "read",
    "empty",
    "delta",
    "drain",
    "lookup",
    "listing",
    "encode",
    "decode",
    "journal",
    "hash",
];

impl Step {
    pub fn kind(&self) -> usize {
        match self {
            Step::New(_) => 0,
            Step::Allocate => 1,
            Step::Batch(_) => 2,
            Step::Get(_) => 3,
            Step::Figures(_) => 4,
            Step::Shrink(_) => 5,
            Step::ShouldShrink(_) => 6,
            Step::Adjust(_) => 7,
            Step::Snapshot(_) => 8,
            Step::ReadBack => 9,
            Step::Read(_) => 10,
            Step::Empty => 11,
            Step::Delta(_) => 12,
            Step::Drain(..) => 13,
            Step::Lookup(_) => 14,
            Step::Listing(_) => 15,
            Step::Encode(..) => 16,
            Step::Decode(_) => 17,
            Step::Journal { .. } => 18,
            Step::Hash(_) => 19,
        }
    }
}

pub struct Hex<'a>(pub &'a [u8]);

impl Display for Hex<'_> {
    fn fmt(&self, f: &mut Formatter<'_>) -> fmt::Result {
        if self.0.is_empty() {
            return f.write_str("-");
        }
        self.0.iter().try_for_each(|b| write!(f, "{b:02x}"))
    }
}

impl Display for Room {
    fn fmt(&self, f: &mut Formatter<'_>) -> fmt::Result {
        f.write_str(match self {
            Room::More => "more",
            Room::Exact => "exact",
            Room::Less => "less",
        })
    }
}

impl Display for Delta {
    fn fmt(&self, f: &mut Formatter<'_>) -> fmt::Result {
        for i in &self.inserts {
            write!(f, " i {} {} {} {}", Hex(&i.hash), i.idx, i.born_round, Hex(&i.cell))?;
        }
        self.removes.iter().try_for_each(|h| write!(f, " r {}", Hex(h)))
    }
}

impl Display for Sizes {
    fn fmt(&self, f: &mut Formatter<'_>) -> fmt::Result {
        let s = self;
        write!(f, "box {} {} {} {} {} {} {}", s.next, s.counts, s.entries, s.waiting, s.cells, s.stripes, u8::from(s.held))
    }
}

impl Display for Step {
    fn fmt(&self, f: &mut Formatter<'_>) -> fmt::Result {
        f.write_str(KINDS[self.kind()])?;
        let mut numbers = |all: &[u64]| all.iter().try_for_each(|n| write!(f, " {n}"));
        match self {
            Step::Allocate | Step::ReadBack | Step::Empty => Ok(()),
            Step::New(n) | Step::Get(n) | Step::Shrink(n) => numbers(&[*n]),
            Step::Batch(all) => all.iter().try_for_each(|t| numbers(t)),
            Step::Figures(all) => numbers(all),
            Step::ShouldShrink(all) => numbers(all),
            Step::Adjust(all) => numbers(all),
            Step::Snapshot(room) | Step::Listing(room) => write!(f, " {room}"),
            Step::Read(bytes) | Step::Decode(bytes) | Step::Hash(bytes) => write!(f, " {}", Hex(bytes)),
            Step::Delta(delta) => write!(f, "{delta}"),
            Step::Drain(round, room) => write!(f, " {round} {room}"),
            Step::Lookup(hash) => write!(f, " {}", Hex(hash)),
            Step::Encode(id, delta, room) => write!(f, " {id} {room}{delta}"),
            Step::Journal { cut, more, flip, keep } => {
                write!(f, " {cut} {} {} {}", u8::from(*keep), flip.map_or("-".into(), |x| x.to_string()), Hex(more))
            }
        }
    }
}

struct Words<'a>(SplitAsciiWhitespace<'a>);

impl Words<'_> {
    fn word(&mut self) -> Result<&str, String> {
        self.0.next().ok_or("a word is missing".to_string())
    }

    fn number<T: FromStr>(&mut self) -> Result<T, String> {
        let word = self.word()?;
        word.parse().map_err(|_| format!("no number: {word}"))
    }

    fn numbers<const N: usize>(&mut self) -> Result<[u64; N], String> {
        let mut all = [0; N];
        for n in &mut all {
            *n = self.number()?;
        }
        Ok(all)
    }

    fn bytes(&mut self) -> Result<Vec<u8>, String> {
        let word = self.word()?;
        if word == "-" {
            return Ok(Vec::new());
        }
        let byte = |pair: &[u8]| u8::from_str_radix(std::str::from_utf8(pair).ok()?, 16).ok();
        let all: Option<Vec<u8>> = word.as_bytes().chunks(2).map(byte).collect();
        all.ok_or(format!("no bytes: {word}"))
    }

    fn hash(&mut self) -> Result<Hash, String> {
        self.bytes()?.try_into().map_err(|_| "a hash has 32 bytes".to_string())
    }

    fn room(&mut self) -> Result<Room, String> {
        match self.word()? {
            "more" => Ok(Room::More),
            "exact" => Ok(Room::Exact),
            "less" => Ok(Room::Less),
            word => Err(format!("no room: {word}")),
        }
    }

    fn delta(&mut self) -> Result<Delta, String> {
        let mut delta = Delta::default();
        while let Some(word) = self.0.next() {
            if word == "i" {
                let (hash, idx, born_round) = (self.hash()?, self.number()?, self.number()?);
                delta.inserts.push(Insert { hash, idx, born_round, cell: self.bytes()? });
            } else {
                delta.removes.push(self.hash()?);
            }
        }
        Ok(delta)
    }

    fn batch(&mut self) -> Result<Vec<[u64; 3]>, String> {
        let mut all = Vec::new();
        while let Some(word) = self.0.next() {
            let idx = word.parse().map_err(|_| format!("no index: {word}"))?;
            let [old, new] = self.numbers()?;
            all.push([idx, old, new]);
        }
        Ok(all)
    }
}

/// A run from its lines: the sizes, then a step each.
pub fn parse(text: &str) -> Result<(Sizes, Vec<Step>), String> {
    let mut lines = text.lines().filter(|l| !l.is_empty() && !l.starts_with('#'));
    let mut w = Words(lines.next().ok_or("no sizes")?.split_ascii_whitespace());
    if w.word()? != "box" {
        return Err("the first line begins with 'box'".into());
    }
    let [next, counts, entries, waiting, cells, stripes, held] = w.numbers()?.map(|n| n);
    let sizes = Sizes {
        next,
        counts: counts as usize,
        entries: entries as usize,
        waiting: waiting as usize,
        cells: cells as usize,
        stripes: stripes as usize,
        held: held != 0,
    };
    Ok((sizes, lines.map(parse_step).collect::<Result<_, _>>()?))
}

fn parse_step(line: &str) -> Result<Step, String> {
    let mut w = Words(line.split_ascii_whitespace());
    Ok(match w.word()? {
        "new" => Step::New(w.number()?),
        "allocate" => Step::Allocate,
        "batch" => Step::Batch(w.batch()?),
        "get" => Step::Get(w.number()?),
        "figures" => Step::Figures(w.numbers()?),
        "shrink" => Step::Shrink(w.number()?),
        "should_shrink" => Step::ShouldShrink(w.numbers()?),
        "adjust" => Step::Adjust(w.numbers()?),
        "snapshot" => Step::Snapshot(w.room()?),
        "read_back" => Step::ReadBack,
        "read" => Step::Read(w.bytes()?),
        "empty" => Step::Empty,
        "delta" => Step::Delta(w.delta()?),
        "drain" => Step::Drain(w.number()?, w.room()?),
        "lookup" => Step::Lookup(w.hash()?),
        "listing" => Step::Listing(w.room()?),
        "encode" => {
            let (id, room) = (w.number()?, w.room()?);
            Step::Encode(id, w.delta()?, room)
        }
        "decode" => Step::Decode(w.bytes()?),
        "journal" => {
            let [cut, keep] = w.numbers()?;
            let flip = w.word()?.parse().ok();
            Step::Journal { cut, more: w.bytes()?, flip, keep: keep != 0 }
        }
        "hash" => Step::Hash(w.bytes()?),
        word => return Err(format!("no step: {word}")),
    })
}
