//! The rows of frames, with plain or short headers: each side composes and
//! receives over what it was lent.

use super::inputs::{counted_headers, setting, stream, streams, PID};
use super::measure::{copy, measure, Row};
use crate::archive;
use crate::coding::{kind_byte, setting_bytes, COMPOSER_BYTES, RECEIVER_BYTES};
use reference::{Composer, Event, Kind, Receiver, PACKET_BYTES};
use std::hint::black_box;
use std::ops::RangeInclusive;

const READY: u8 = 3;

/// Begin, a put for each stream with a packet for each of its slots, close.
pub fn compose(name: &str, kind: Kind) -> Row {
    let setting = setting(kind);
    let bytes = setting_bytes(&setting);
    let streams = streams(kind);
    let mut state = [0; COMPOSER_BYTES];
    let refusal = archive::composer_start(&mut state, PID, kind_byte(kind));
    assert_eq!(refusal, 0);
    let (_, mut composer) = Composer::start(PID, kind);
    let mut archives = vec![0; kind.size().frame_bytes()];
    let mut ours = archives.clone();
    let source = stream(kind.size().slots);
    let mut target = source.clone();
    measure(
        name,
        || {
            let (state, frame) = (black_box(&mut state), black_box(&mut archives[..]));
            assert_eq!(archive::composer_begin(state, frame, &bytes), 0);
            for (r, stream) in (1..).zip(&streams) {
                let answer = archive::composer_put(state, frame, stream, r);
                assert_eq!(answer, (0, stream.len() / PACKET_BYTES));
            }
            assert_eq!(archive::composer_close(state, frame), 0);
        },
        || {
            let (composer, frame) = (black_box(&mut composer), black_box(&mut ours[..]));
            assert!(composer.begin(frame, &setting).is_ok());
            for (r, stream) in (1..).zip(&streams) {
                let placed = composer.put(frame, r, stream).placed;
                assert_eq!(placed, Ok(stream.len() / PACKET_BYTES));
            }
            assert!(composer.close(frame).is_ok());
        },
        || copy(&source, &mut target),
    )
}

/// What a frame is received from: its packets, and all headers that may come
/// behind it.
struct Received {
    packets: Vec<u8>,
    headers: Vec<[u8; PACKET_BYTES]>,
}

/// A receiver of either side, its store, and what is handed out. The counter
/// is that of the last header.
struct Lent<S> {
    state: S,
    kind: Kind,
    counter: usize,
    store: Vec<u8>,
    out: Vec<u8>,
}

impl<S> Lent<S> {
    fn new(state: S, kind: Kind) -> Lent<S> {
        let store = vec![0; kind.size().store_bytes()];
        Lent {
            state,
            kind,
            counter: 0,
            out: store.clone(),
            store,
        }
    }

    /// The numbers of all streams.
    fn streams(&self) -> RangeInclusive<u8> {
        1..=self.kind.size().streams as u8
    }
}

impl Lent<[u8; RECEIVER_BYTES]> {
    fn frame(&mut self, received: &Received) {
        let streams = self.streams();
        let (state, store) = (black_box(&mut self.state), black_box(&mut self.store[..]));
        for packet in received.packets.chunks_exact(PACKET_BYTES) {
            archive::receiver_receive(state, packet, store);
        }
        self.counter = (self.counter + 1) % received.headers.len();
        let header = &received.headers[self.counter];
        let answer = archive::receiver_receive(state, header, store);
        assert_eq!(answer, (0, READY, 0));
        let mut taken = 0;
        for r in streams {
            let out = black_box(&mut self.out[taken..]);
            let (_, packets) = archive::receiver_hand_out(state, store, out, r);
            taken += PACKET_BYTES * packets;
        }
        assert_eq!(taken, self.store.len());
    }
}

impl Lent<Receiver> {
    fn frame(&mut self, received: &Received) {
        let streams = self.streams();
        let (state, store) = (black_box(&mut self.state), black_box(&mut self.store[..]));
        for packet in received.packets.chunks_exact(PACKET_BYTES) {
            let _ = state.receive(store, packet);
        }
        self.counter = (self.counter + 1) % received.headers.len();
        let header = &received.headers[self.counter];
        assert_eq!(state.receive(store, header), Ok(Event::Ready));
        let mut taken = 0;
        for r in streams {
            let out = black_box(&mut self.out[taken..]);
            let packets = state.hand_out(store, r, out);
            taken += PACKET_BYTES * packets.unwrap_or(0);
        }
        assert_eq!(taken, self.store.len());
    }
}

/// A packet for each slot and the next header, and then every stream handed
/// out.
pub fn receive(name: &str, kind: Kind) -> Row {
    let received = Received {
        packets: stream(kind.size().slots),
        headers: counted_headers(kind),
    };
    let mut archives = Lent::new([0; RECEIVER_BYTES], kind);
    let refusal = archive::receiver_start(&mut archives.state, PID, kind_byte(kind));
    assert_eq!(refusal, 0);
    let first = &received.headers[0];
    archive::receiver_receive(&mut archives.state, first, &mut archives.store);
    let mut ours = Lent::new(Receiver::start(PID, kind).1, kind);
    assert!(ours.state.receive(&mut ours.store, first).is_ok());
    let [mut store, mut out] = [received.packets.clone(), received.packets.clone()];
    measure(
        name,
        || archives.frame(&received),
        || ours.frame(&received),
        || {
            copy(&received.packets, &mut store);
            copy(&store, &mut out);
        },
    )
}
