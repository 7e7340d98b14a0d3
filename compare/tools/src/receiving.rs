//! Receiving with the reference.

use reference::{read, Event, Kind, Receiver, Setting, PACKET_BYTES};
use std::fmt;

/// How often each event came that ends a frame, and what the first wrong CRC
/// left that dropped one: the remainder, and the number of its packet from 0.
#[derive(Clone, Copy, Debug, Default, PartialEq, Eq)]
pub struct Counts {
    pub ready: usize,
    pub short: usize,
    pub jump: usize,
    pub long: usize,
    pub broken: usize,
    pub first_remainder: Option<(u32, usize)>,
}

/// As the programs say it.
impl fmt::Display for Counts {
    fn fmt(&self, f: &mut fmt::Formatter) -> fmt::Result {
        let Counts {
            ready,
            short,
            jump,
            long,
            broken,
            first_remainder,
        } = self;
        write!(
            f,
            "frames ready {ready}; dropped: short {short}, jump {jump}, long {long}, broken {broken}"
        )?;
        if let Some((remainder, packet)) = first_remainder {
            write!(f, " (first remainder {remainder:08x} at packet {packet})")?;
        }
        Ok(())
    }
}

impl Counts {
    /// What a packet did, the first being 0.
    fn count(&mut self, packet: usize, event: Event) {
        match event {
            Event::Nothing | Event::Stored | Event::Opened => (),
            Event::Ready => self.ready += 1,
            Event::Short => self.short += 1,
            Event::Jump => self.jump += 1,
            Event::Long => self.long += 1,
            Event::Broken { .. } => self.broken += 1,
        }
        if self.first_remainder.is_none() && event.remainder() != 0 {
            self.first_remainder = Some((event.remainder(), packet));
        }
    }
}

/// A stream, by its number or by its identifiers.
#[derive(Clone, Copy, Debug, PartialEq, Eq)]
pub enum Choice {
    Number(u8),
    Pair(u16, u16),
}

/// As the programs take it.
impl fmt::Display for Choice {
    fn fmt(&self, f: &mut fmt::Formatter) -> fmt::Result {
        match self {
            Choice::Number(r) => write!(f, "{r}"),
            Choice::Pair(ts_id, original_network_id) => write!(f, "{ts_id}:{original_network_id}"),
        }
    }
}

impl Choice {
    /// The stream's number in the frame of a header, if it has one.
    fn number_in(self, header: &Setting) -> Option<u8> {
        match self {
            Choice::Number(r) => Some(r),
            Choice::Pair(ts_id, original_network_id) => (1..=15).find(|&r| {
                let at = usize::from(r) - 1;
                header.is_available(r.into())
                    && header.ts_id[at] == ts_id
                    && header.original_network_id[at] == original_network_id
            }),
        }
    }
}

/// A frame that became ready, and the receiver as it was then.
pub struct Frame {
    pub header: Setting,
    receiver: Receiver,
    pub store: Vec<u8>,
}

impl Frame {
    pub fn packets(&self, choice: Choice) -> Vec<u8> {
        let mut out = vec![0; self.store.len()];
        let packets = choice.number_in(&self.header).map_or(0, |r| {
            let handed = self.receiver.hand_out(&self.store, r, &mut out);
            handed.expect("a frame is ready and there is room")
        });
        out.truncate(PACKET_BYTES * packets);
        out
    }
}

/// What became of an input.
#[derive(Default)]
pub struct Received {
    pub counts: Counts,
    /// All good headers.
    pub headers: Vec<Setting>,
    pub frames: Vec<Frame>,
}

impl Received {
    pub fn stream(&self, choice: Choice) -> Vec<u8> {
        let frames = self.frames.iter();
        frames.flat_map(|frame| frame.packets(choice)).collect()
    }
}

pub fn receive(bytes: &[u8], pid: u16, kind: Kind) -> Received {
    let (_, mut receiver) = Receiver::start(pid, kind);
    let mut store = vec![0; kind.size().store_bytes()];
    let mut received = Received::default();
    for (number, packet) in bytes.chunks_exact(PACKET_BYTES).enumerate() {
        let event = receiver.receive(&mut store, packet);
        let event = event.expect("no packet is refused");
        received.counts.count(number, event);
        if event == Event::Ready {
            received.frames.push(Frame {
                header: received.headers[received.headers.len() - 1].clone(),
                receiver: receiver.clone(),
                store: store.clone(),
            });
        }
        received.headers.extend(read(packet, pid, kind));
    }
    received
}
