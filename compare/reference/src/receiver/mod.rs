//! The receiver. A frame is handed out only after the next header has vouched
//! for it: with a packet lost, later slots would slide into other streams.

mod state;

use crate::layout::{LAST_COUNTER, PACKET_BYTES};
use crate::packet::{fits_a_slot, place, Places};
use crate::read::read;
use crate::refusal::Refusal;
use crate::rules::{fixed_length, stream_number, unless, Checked};
use crate::setting::Setting;
pub use state::{Receiver, Standing};

/// What an accepted packet did.
#[derive(Clone, Copy, Debug, PartialEq, Eq)]
pub enum Event {
    Nothing,
    Stored,
    Opened,
    Ready,
    Short,
    Jump,
    Long,
    /// Beside it stands the remainder of a header that was refused by 7, and 0
    /// for any other cause.
    Broken {
        remainder: u32,
    },
}

impl Event {
    /// 0 beside every event but one.
    pub fn remainder(self) -> u32 {
        match self {
            Event::Broken { remainder } => remainder,
            _ => 0,
        }
    }
}

impl Receiver {
    pub fn receive(&mut self, store: &mut [u8], packet: &[u8]) -> Result<Event, u8> {
        fixed_length(store.len(), self.kind.size().store_bytes())?;
        let packet = packet.try_into().map_err(|_| 1)?;
        self.check_pid_and_numbers()?;
        // What fits a slot bears another PID than a header.
        if fits_a_slot(packet, self.pid) {
            return Ok(self.take_ordinary(store, packet));
        }
        Ok(match read(packet, self.pid, self.kind) {
            Ok(header) => self.take_header(&header),
            Err(Refusal { remainder, .. }) => self.drop_frame(Event::Broken { remainder }),
        })
    }

    /// A good header always opens a frame; the event tells the old one's lot.
    fn take_header(&mut self, header: &Setting) -> Event {
        let continuity_counter = header.continuity_counter;
        let event = match self.open_frame() {
            None => Event::Opened,
            Some((_, stored)) if stored < self.kind.size().slots => Event::Short,
            Some((old, _)) if step(old, continuity_counter) != 1 => Event::Jump,
            Some(_) => Event::Ready,
        };
        self.standing = match event {
            Event::Ready => Standing::Ready { continuity_counter },
            _ => Standing::Open {
                continuity_counter,
                stored: 0,
            },
        };
        self.relative_ts_number_before = self.relative_ts_number;
        self.relative_ts_number = header.relative_ts_number;
        event
    }

    fn take_ordinary(&mut self, store: &mut [u8], packet: &[u8; PACKET_BYTES]) -> Event {
        let Some((continuity_counter, stored)) = self.open_frame() else {
            return Event::Nothing;
        };
        if stored == self.kind.size().slots {
            return self.drop_frame(Event::Long);
        }
        store[place(stored)].copy_from_slice(packet);
        self.standing = Standing::Open {
            continuity_counter,
            stored: stored + 1,
        };
        Event::Stored
    }

    fn drop_frame(&mut self, event: Event) -> Event {
        if self.standing == Standing::Waiting {
            return Event::Nothing;
        }
        self.standing = Standing::Waiting;
        event
    }

    /// The ready frame's packets of one stream to the front of the buffer.
    pub fn hand_out(
        &self,
        store: &[u8],
        relative_ts_number: u8,
        buffer: &mut [u8],
    ) -> Result<usize, u8> {
        self.check_hand_out(store.len(), relative_ts_number)?;
        let numbers = &self.relative_ts_number_before;
        let places = Places::where_is(|place| numbers[place] == relative_ts_number);
        let (packets, _) = buffer.as_chunks_mut::<PACKET_BYTES>();
        unless(packets.len() >= places.count(), 15)?;
        for (packet, from) in packets.iter_mut().zip(places) {
            packet.copy_from_slice(&store[place(from)]);
        }
        Ok(places.count())
    }

    /// All but 15, for which the packets have to be counted.
    fn check_hand_out(&self, store_length: usize, relative_ts_number: u8) -> Checked {
        fixed_length(store_length, self.kind.size().store_bytes())?;
        self.check_pid_and_numbers()?;
        stream_number(self.kind.size(), relative_ts_number)?;
        unless(self.is_ready(), 16)
    }
}

/// How far the counter went, modulo 16.
fn step(from: u8, to: u8) -> u8 {
    to.wrapping_sub(from) % (LAST_COUNTER + 1)
}
