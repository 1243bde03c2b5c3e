//! How a container is read in a call: audio, key, fallback name, and the room for what comes of it.

use std::fmt;

use super::exports::{How, KeyBytes, ReadingBytes};
use crate::hex::hex;
use crate::random::Random;

/// The bits of a key that count are 0 to 35 and 40 to 55.
const IDLE: u64 = 0xFF00_00F0_0000_0000;

/// The choices of `Call::every`. The fourth and fifth key are equal in the bits that count; the last two are random.
const KEYS: [Option<u64>; 7] = [
    None,
    Some(0),
    Some(u64::MAX),
    Some(0x0012_3456_789A_BCDE),
    Some(0x0012_3456_789A_BCDE ^ IDLE),
    Some(0x8F3A_51C6_D2E7_940B),
    Some(0x27D4_EB2F_1656_67C5),
];
const FALLBACKS: [usize; 3] = [0, 1, 300];
const ROOMS: [Room; 4] = [Room::Exact, Room::OneLong, Room::OneShort, Room::Empty];
const EVERY: usize = 2 * KEYS.len() * FALLBACKS.len() * ROOMS.len() * ROOMS.len();

#[derive(Clone)]
pub struct Call {
    /// Audio is taken, where it is not 0.
    pub audio: u8,
    /// Channel, payloads and tables of the reading. The first is not looked at; of the others 1 is, and is given as 0.
    pub unread: [u8; 3],
    /// The key counts, where it is not 0.
    pub keyed: u8,
    pub key: u64,
    /// Bits of the key that do not count: the call is made again with them turned, and must do the same.
    pub idle: u64,
    pub fallback: Vec<u8>,
    pub video_room: Room,
    pub audio_room: Room,
    pub list_room: Room,
}

/// How much room there is for what needs some.
#[derive(Clone, Copy, PartialEq, Eq)]
pub enum Room {
    Exact,
    OneLong,
    OneShort,
    Empty,
}

impl Room {
    pub fn of(self, needed: usize) -> usize {
        match self {
            Room::Exact => needed,
            Room::OneLong => needed + 1,
            Room::OneShort => needed.saturating_sub(1),
            Room::Empty => 0,
        }
    }

    fn any(random: &mut Random) -> Room {
        random.pick(&[Room::Exact, Room::Exact, Room::Exact, Room::OneLong, Room::OneLong, Room::OneShort, Room::Empty])
    }
}

impl fmt::Display for Room {
    fn fmt(&self, f: &mut fmt::Formatter) -> fmt::Result {
        f.write_str(match self {
            Room::Exact => "exact",
            Room::OneLong => "one too long",
            Room::OneShort => "one too short",
            Room::Empty => "none",
        })
    }
}

impl Call {
    /// The plainest call: no key, no fallback name, just enough room.
    pub fn plain(audio: u8) -> Call {
        Call {
            audio,
            unread: [0; 3],
            keyed: 0,
            key: 0,
            idle: 0,
            fallback: Vec::new(),
            video_room: Room::Exact,
            audio_room: Room::Exact,
            list_room: Room::Exact,
        }
    }

    /// Any call.
    pub fn any(audio: u8, random: &mut Random) -> Call {
        let (keyed, key) = key(random);
        Call {
            audio,
            unread: random.number().to_le_bytes()[..3].try_into().expect("three of eight bytes"),
            keyed,
            key,
            idle: if random.one_in(4) { random.number() & IDLE } else { 0 },
            fallback: fallback(random),
            video_room: Room::any(random),
            audio_room: Room::any(random),
            list_room: Room::any(random),
        }
    }

    /// Calls of both audio choices; in the first both outputs have the room they need.
    pub fn some(random: &mut Random) -> Vec<Call> {
        let chosen = random.pick(&[1, 1, 1, 3, 255]);
        let roomy = Call { video_room: Room::Exact, audio_room: Room::OneLong, ..Call::any(chosen, random) };
        vec![roomy, Call::any(chosen, random), Call::any(0, random)]
    }

    /// Audio chosen and not, each key, each fallback name, each room for video and each for audio: each with each.
    /// The list, which is made by a call of its own, has the room of the video.
    pub fn every() -> Vec<Call> {
        (0..EVERY).map(Call::numbered).collect()
    }

    fn numbered(number: usize) -> Call {
        let mut rest = number;
        let mut choice = |of: usize| {
            let choice = rest % of;
            rest /= of;
            choice
        };
        let key = KEYS[choice(KEYS.len())];
        let video = ROOMS[choice(ROOMS.len())];
        Call {
            audio: choice(2) as u8,
            unread: [number as u8; 3],
            keyed: key.is_some().into(),
            key: key.unwrap_or(u64::MAX),
            idle: 0,
            fallback: vec![b'f'; FALLBACKS[choice(FALLBACKS.len())]],
            video_room: video,
            audio_room: ROOMS[choice(ROOMS.len())],
            list_room: video,
        }
    }

    pub fn takes_audio(&self) -> bool {
        self.audio != 0
    }

    /// The key that counts, if one does.
    pub fn key(&self) -> Option<u64> {
        (self.keyed != 0).then_some(self.key)
    }

    pub fn reading(&self) -> ReadingBytes {
        let [channel, payloads, tables] = self.unread;
        let not_one = |number| if number == 1 { 0 } else { number };
        ReadingBytes { audio: self.audio, channel, payloads: not_one(payloads), tables: not_one(tables) }
    }

    /// The same call as the export takes it; and once more where bits that do not count are turned.
    pub fn ways(&self) -> Vec<How<'_>> {
        let key = |number| KeyBytes { number, given: self.keyed };
        let how = |number| How { reading: self.reading(), key: key(number), fallback: &self.fallback };
        let mut ways = vec![how(self.key)];
        if self.idle != 0 {
            ways.push(how(self.key ^ self.idle));
        }
        ways
    }
}

/// No key (with a number that is not to be looked at), key 0, all ones, random ones.
fn key(random: &mut Random) -> (u8, u64) {
    let keyed = random.pick(&[1, 1, 2, 255]);
    match random.within(0..8) {
        0 | 1 => (0, random.number()),
        2 => (keyed, 0),
        3 => (keyed, u64::MAX),
        4 => (keyed, 0x0000_1234_5678_9ABC),
        _ => (keyed, random.number()),
    }
}

fn fallback(random: &mut Random) -> Vec<u8> {
    let length = random.pick(&[0, 1, 1, 300]);
    random.bytes(length)
}

/// The arguments, without those that a plain call has.
impl fmt::Display for Call {
    fn fmt(&self, f: &mut fmt::Formatter) -> fmt::Result {
        write!(f, "audio {}", self.audio)?;
        match self.keyed {
            0 => write!(f, ", no key")?,
            keyed => write!(f, ", keyed {keyed}, key {:016X}", self.key)?,
        }
        if self.idle != 0 {
            write!(f, " and {:016X}", self.key ^ self.idle)?;
        }
        if !self.fallback.is_empty() {
            write!(f, ", fallback name {}", hex(&self.fallback))?;
        }
        for (what, room) in [("video", self.video_room), ("audio", self.audio_room), ("the list", self.list_room)] {
            if room != Room::Exact {
                write!(f, ", room for {what}: {room}")?;
            }
        }
        if self.unread != [0; 3] {
            write!(f, ", fields that are not looked at {:?}", self.unread)?;
        }
        Ok(())
    }
}
