//! What mux writes, received with the reference.

use cases::generator::Generator;
use reference::{null_packet, Kind, Setting, PACKET_BYTES};
use tools::program::{option, Folder};
use tools::receiving::{receive, Choice, Received};
use tools::streams::stream;

/// A stream: its slots in a frame, its packets, and its identifiers.
struct Stream {
    slots: usize,
    packets: Vec<u8>,
    ts_id: u16,
    original_network_id: u16,
}

/// Streams with so many slots and packets. Each identifier comes twice, but
/// no pair.
fn streams(generator: &mut Generator, pid: u16, sizes: &[(usize, usize)]) -> Vec<Stream> {
    let drawn = sizes
        .iter()
        .enumerate()
        .map(|(k, &(slots, packets))| Stream {
            slots,
            packets: stream(generator, packets, pid),
            ts_id: 0xFFFF - (k / 2) as u16,
            original_network_id: (k % 2) as u16,
        });
    drawn.collect()
}

fn mux(kind: Kind, pid: u16, streams: &[Stream]) -> Vec<u8> {
    let folder = Folder::new();
    let mut words = format!("{}{pid}", option(kind));
    for (k, stream) in streams.iter().enumerate() {
        folder.write(&format!("stream{k}"), &stream.packets);
        let Stream { slots, ts_id, .. } = stream;
        let network = stream.original_network_id;
        words += &format!(" {slots} {ts_id} {network:#x} stream{k}");
    }
    let said = folder.run("mux", &words);
    assert_eq!(said.err, "");
    said.out
}

/// How many slots of a header have the number.
fn slots_of(header: &Setting, r: u8) -> usize {
    let numbers = header.relative_ts_number.iter();
    numbers.filter(|&&number| number == r).count()
}

/// The slots of stream r, counted from 0 on, and their gaps around a frame of
/// so many slots.
fn gaps(header: &Setting, all: usize, r: u8) -> Vec<usize> {
    let slots: Vec<usize> = (0..all)
        .filter(|&slot| header.relative_ts_number[slot] == r)
        .collect();
    let next = slots.iter().cycle().skip(1);
    slots
        .iter()
        .zip(next)
        .map(|(&slot, &next)| (next + all - slot - 1) % all + 1)
        .collect()
}

/// For n of N slots an even gap is N/n. One stream alone has no other gaps than
/// this, rounded up or down. Streams that want the same slot make way for each
/// other: for any numbers of slots there is a plan in whose every beginning of
/// m slots each stream has n m/N of them, off by less than 1, and not always
/// a better one. So the j-th slot of a stream comes less than one even gap too
/// early or late, and no gap is as long as two even ones.
fn assert_even(header: &Setting, all: usize, r: u8, alone: bool) {
    let gaps = gaps(header, all, r);
    let n = gaps.len();
    for gap in gaps {
        assert!(gap * n < 2 * all, "stream {r}: a gap of {gap}");
        assert!(
            !alone || (gap * n).abs_diff(all) < n,
            "alone: a gap of {gap}"
        );
    }
}

fn assert_headers(received: &Received, all: usize, streams: &[Stream]) {
    for (number, header) in received.headers.iter().enumerate() {
        assert_eq!(usize::from(header.continuity_counter), number % 16);
        assert_eq!(header.version_number, 0);
        assert_eq!(header.available_streams(), streams.len());
        for (k, stream) in streams.iter().enumerate() {
            assert_eq!(header.ts_id[k], stream.ts_id);
            assert_eq!(header.original_network_id[k], stream.original_network_id);
            let packets = stream.packets.len() / PACKET_BYTES;
            let left = packets.saturating_sub(number * stream.slots);
            let r = k as u8 + 1;
            assert_eq!(slots_of(header, r), left.min(stream.slots));
            if left >= stream.slots {
                assert_even(header, all, r, streams.len() == 1);
            }
        }
    }
}

/// Slots of no stream hold null packets.
fn assert_nulls(received: &Received) {
    for frame in &received.frames {
        let packets = frame.store.chunks_exact(PACKET_BYTES);
        for (packet, number) in packets.zip(frame.header.relative_ts_number) {
            assert!(number != 0 || packet == null_packet());
        }
    }
}

fn check(seed: u32, pid: u16, sizes: &[(usize, usize)]) {
    check_kind(Kind::Plain, seed, pid, sizes);
}

fn check_kind(kind: Kind, seed: u32, pid: u16, sizes: &[(usize, usize)]) {
    let size = kind.size();
    let streams = streams(&mut Generator::new(seed), pid, sizes);
    let bytes = mux(kind, pid, &streams);
    let frames = sizes.iter().map(|(slots, n)| n.div_ceil(*slots)).max();
    let frames = frames.expect("a stream");
    assert_eq!(bytes.len(), size.frame_bytes() * frames + PACKET_BYTES);
    let received = receive(&bytes, pid, kind);
    assert_eq!(received.headers.len(), frames + 1);
    assert_eq!(received.frames.len(), frames);
    assert_headers(&received, size.slots, &streams);
    assert_nulls(&received);
    for (stream, r) in streams.iter().zip(1..) {
        assert!(received.stream(Choice::Number(r)) == stream.packets);
    }
}

#[test]
fn one_stream_of_any_slots() {
    for kind in [Kind::Plain, Kind::Short] {
        for slots in 1..=kind.size().slots {
            check_kind(kind, 1, 0x1FF0, &[(slots, 3 * slots + slots / 2)]);
        }
    }
}

#[test]
fn several_streams() {
    check(2, 16, &[(26, 2600), (26, 2601)]);
    check(3, 8190, &[(10, 1000), (20, 1999), (8, 801)]);
    check(4, 0x1FF0, &[(1, 40), (49, 1000), (2, 1)]);
    check(5, 0x1FF0, &[(3, 100), (7, 0), (5, 500)]);
    check(6, 0x100, &[(3, 200); 15]);
    check(7, 0x100, &[(38, 800), (1, 20)]);
}

#[test]
fn several_streams_in_short_frames() {
    let check = |seed, pid, sizes| check_kind(Kind::Short, seed, pid, sizes);
    check(2, 16, &[(20, 2000), (20, 2001)]);
    check(3, 8190, &[(10, 1000), (20, 1999), (8, 801)]);
    check(4, 0x1FF0, &[(1, 40), (37, 1000), (2, 1)]);
    check(5, 0x1FF0, &[(3, 100), (7, 0), (5, 500)]);
    check(6, 0x100, &[(5, 200); 7]);
    check(7, 0x100, &[(28, 800), (1, 20)]);
}

#[test]
fn any_plan() {
    let mut generator = Generator::new(8);
    for seed in 9..60 {
        for kind in [Kind::Plain, Kind::Short] {
            let size = kind.size();
            let mut left = size.slots as u16;
            let mut sizes = Vec::new();
            while left > 0 && sizes.len() < seed as usize % size.streams + 1 {
                let slots = 1 + generator.below(left.min(12));
                left -= slots;
                sizes.push((slots.into(), generator.below(20 * slots).into()));
            }
            check_kind(kind, seed, 0x1FF0, &sizes);
        }
    }
}

#[test]
fn nothing_but_a_header_for_no_packets() {
    check(60, 0x1FF0, &[(10, 0)]);
    check(61, 0x1FF0, &[(10, 0), (1, 0)]);
    check_kind(Kind::Short, 61, 0x1FF0, &[(10, 0), (1, 0)]);
}

#[test]
fn a_stream_from_a_pipe() {
    let folder = Folder::new();
    let packets = stream(&mut Generator::new(62), 5000, 0x1FF0);
    for kind in [Kind::Plain, Kind::Short] {
        let words = format!("{}0x1FF0 {} 1 1 -", option(kind), kind.size().slots);
        let said = folder.pipe("mux", &words, &packets);
        assert_eq!(said.err, "");
        let received = receive(&said.out, 0x1FF0, kind);
        assert!(received.stream(Choice::Number(1)) == packets);
    }
}

/// A stream may own null packets.
#[test]
fn null_packets_alone_are_a_stream() {
    let folder = Folder::new();
    let nulls = null_packet().repeat(60);
    folder.write("nulls", &nulls);
    folder.write("frames", &folder.run("mux", "16 52 0 0 nulls").out);
    assert!(folder.run("demux", "16 0:0 frames").out == nulls);
    let short = folder.run("mux", "--short 16 40 0 0 nulls").out;
    folder.write("frames", &short);
    assert!(folder.run("demux", "--short 16 0:0 frames").out == nulls);
}
