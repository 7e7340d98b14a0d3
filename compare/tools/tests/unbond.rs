//! What unbond writes: the packets of those super frames that arrived whole
//! in all carriers. Which these are is told from the damage alone.

use cases::generator::Generator;
use reference::{Kind, PACKET_BYTES};
use tools::damage::{Lot, Lots, FRAME_PACKETS};
use tools::group::{bond, file, packets_of_super, supers_in, unbond, Carrier, PID};
use tools::program::{part, Folder, Said};
use tools::receiving::receive;
use tools::streams::{padded, stream};

const PAIR: [Carrier; 2] = [(3, 52), (4, 20)];
const EIGHT: [Carrier; 8] = [
    (4, 52),
    (3, 7),
    (3, 52),
    (4, 1),
    (4, 26),
    (3, 51),
    (4, 13),
    (3, 2),
];

/// A bonded stream, and the lots of its carriers' packets.
struct Sent {
    folder: Folder,
    group: Vec<Carrier>,
    stream: Vec<u8>,
    supers: usize,
    files: Vec<Vec<u8>>,
    lots: Vec<Lots>,
}

impl Sent {
    /// The last super frame ends in null packets.
    fn new(seed: u32, group: &[Carrier], supers: usize) -> Sent {
        let folder = Folder::new();
        let packets = packets_of_super(group) * supers - packets_of_super(group) / 3;
        let stream = stream(&mut Generator::new(seed), packets, PID);
        folder.write("stream", &stream);
        assert_eq!(bond(&folder, group).err, "");
        let files: Vec<Vec<u8>> = (0..group.len()).map(|c| folder.read(&file(c))).collect();
        assert_eq!(supers_in(&files[0], &group[0]), supers);
        Sent {
            folder,
            group: group.to_vec(),
            stream: padded(&stream, packets_of_super(group)),
            supers,
            lots: files.iter().map(|bytes| Lots::whole(bytes)).collect(),
            files,
        }
    }

    /// The lots of some frames of carrier c, from 0, with their packets.
    fn frames(&mut self, c: usize, first: usize, frames: usize) -> &mut [Lot] {
        &mut self.lots[c].0[FRAME_PACKETS * first..FRAME_PACKETS * (first + frames)]
    }

    /// Whether all packets of a super frame arrive, and the header behind it.
    fn is_whole(&self, number: usize) -> bool {
        self.group
            .iter()
            .zip(&self.lots)
            .all(|((frames, _), lots)| {
                let packets = FRAME_PACKETS * frames;
                let lots = &lots.0[packets * number..=packets * (number + 1)];
                lots.iter().all(|&lot| lot == Lot::Whole)
            })
    }

    /// The packets of the super frames of such numbers.
    fn packets(&self, numbers: impl Fn(usize) -> bool) -> Vec<u8> {
        let bytes = PACKET_BYTES * packets_of_super(&self.group);
        let supers = self.stream.chunks(bytes).enumerate();
        let chosen = supers.filter(|&(number, _)| numbers(number));
        chosen.flat_map(|(_, packets)| packets).copied().collect()
    }

    fn arrived(&self) -> Vec<Vec<u8>> {
        let files = self.files.iter().zip(&self.lots);
        files.map(|(bytes, lots)| lots.arrive(bytes)).collect()
    }

    fn unbond(&self, arrived: &[Vec<u8>]) -> Said {
        for (c, bytes) in arrived.iter().enumerate() {
            self.folder.write(&file(c), bytes);
        }
        unbond(&self.folder, arrived.len())
    }

    /// What comes out and is said. Answers how many super frames come out.
    fn check(&self) -> usize {
        let arrived = self.arrived();
        let said = self.unbond(&arrived);
        let expected = self.packets(|number| self.is_whole(number));
        assert!(said.out == expected);
        let packets = expected.len() / PACKET_BYTES;
        let out = packets / packets_of_super(&self.group);
        let dropped = self.supers - out;
        let mut summary: String = (1..)
            .zip(&arrived)
            .map(|(c, bytes)| {
                let counts = receive(bytes, PID, Kind::Extended).counts;
                format!("carrier {c}: {counts}\n")
            })
            .collect();
        summary += &format!("super frames out {out}; dropped {dropped}; packets out {packets}\n");
        assert_eq!(said.err, summary);
        out
    }
}

#[test]
fn nothing_lost() {
    assert_eq!(Sent::new(1, &[(3, 52)], 40).check(), 40);
    assert_eq!(Sent::new(2, &[(4, 9)], 40).check(), 40);
    assert_eq!(Sent::new(3, &PAIR, 40).check(), 40);
    assert_eq!(Sent::new(4, &EIGHT, 10).check(), 10);
}

#[test]
fn packets_lost_from_single_carriers() {
    for c in 0..PAIR.len() {
        let mut sent = Sent::new(5, &PAIR, 60);
        sent.lots[c].some(&mut Generator::new(6), 1000, Lot::Lost);
        assert!((10..60).contains(&sent.check()));
    }
    for c in 0..EIGHT.len() {
        let mut sent = Sent::new(7, &EIGHT, 20);
        sent.lots[c].some(&mut Generator::new(8 + c as u32), 500, Lot::Lost);
        assert!((1..20).contains(&sent.check()));
    }
}

#[test]
fn packets_lost_from_all_carriers() {
    let mut sent = Sent::new(16, &EIGHT, 30);
    let mut generator = Generator::new(17);
    for lots in &mut sent.lots {
        lots.some(&mut generator, 3000, Lot::Lost);
    }
    assert!((1..30).contains(&sent.check()));
    // So many that none is left.
    for lots in &mut sent.lots {
        lots.some(&mut generator, 50, Lot::Lost);
    }
    assert_eq!(sent.check(), 0);
}

#[test]
fn headers_spoiled() {
    for c in 0..PAIR.len() {
        let mut sent = Sent::new(18, &PAIR, 60);
        sent.lots[c].spoil_headers(&mut Generator::new(19), Kind::Extended, 12);
        assert!((10..60).contains(&sent.check()));
    }
    let mut sent = Sent::new(20, &EIGHT, 30);
    let mut generator = Generator::new(21);
    for lots in &mut sent.lots {
        lots.spoil_headers(&mut generator, Kind::Extended, 100);
        lots.some(&mut generator, 5000, Lot::Spoiled(0));
    }
    assert!((1..30).contains(&sent.check()));
}

/// Each carrier's line has the remainder of its own first wrong CRC, counted in
/// its own packets; one without keeps its line. All bits of the last byte turned
/// leave the last entry of the CRC's published table.
#[test]
fn wrong_crcs_of_single_carriers() {
    let wrong = [(0, 5, 7), (1, 4, 9)];
    for shown in [&wrong[..1], &wrong[1..], &wrong] {
        let mut sent = Sent::new(31, &PAIR, 6);
        let mut expected = [None; 2];
        for &(c, first, second) in shown {
            sent.frames(c, first, 1)[0] = Lot::Spoiled(187);
            sent.frames(c, second, 1)[0] = Lot::Spoiled(100);
            expected[c] = Some((0xB1F7_40B4, FRAME_PACKETS * first));
        }
        assert!(sent.check() < 6);
        for (bytes, expected) in sent.arrived().iter().zip(expected) {
            let counts = receive(bytes, PID, Kind::Extended).counts;
            assert_eq!(counts.first_remainder, expected);
        }
    }
}

/// Another maker's are as spoiled ones.
#[test]
fn headers_with_a_reserved_bit_at_zero() {
    for c in 0..PAIR.len() {
        let mut sent = Sent::new(29, &PAIR, 60);
        sent.lots[c].make_headers_foreign(&mut Generator::new(30), Kind::Extended, 12);
        assert!((10..60).contains(&sent.check()));
    }
}

/// One packet after another is lost, alone, in the middle of the run; where
/// an emulator takes its time, one in so many, and each header.
#[test]
fn any_single_packet() {
    let group = [(3, 2), (4, 3)];
    let mut sent = Sent::new(22, &group, 4);
    for (c, (frames, _)) in group.iter().enumerate() {
        let packets = FRAME_PACKETS * frames;
        let chosen = |at: &usize| at % part() == 0 || at.is_multiple_of(FRAME_PACKETS);
        for at in (packets..=2 * packets).filter(chosen) {
            for lot in [Lot::Lost, Lot::Spoiled(0)] {
                sent.lots[c].0[at] = lot;
                let shared = at == packets || at == 2 * packets;
                assert_eq!(sent.check(), if shared { 2 } else { 3 });
            }
            sent.lots[c].0[at] = Lot::Whole;
        }
    }
}

/// Up to fifteen headers in a row, wherever they stand.
#[test]
fn frames_lost_in_a_row() {
    for c in 0..PAIR.len() {
        for (first, frames) in [
            (0, 1),
            (0, 15),
            (1, 15),
            (5, 15),
            (16, 15),
            (7, 12),
            (20, 14),
        ] {
            let mut sent = Sent::new(23, &PAIR, 20);
            sent.frames(c, first, frames).fill(Lot::Lost);
            sent.check();
        }
    }
}

/// Different ones in each carrier, so that they are never level.
#[test]
fn frames_lost_in_both_carriers() {
    let mut sent = Sent::new(24, &PAIR, 40);
    sent.frames(0, 10, 15).fill(Lot::Lost);
    sent.frames(1, 2, 15).fill(Lot::Lost);
    sent.frames(1, 60, 15).fill(Lot::Lost);
    sent.frames(0, 110, 9).fill(Lot::Lost);
    assert!(sent.check() > 10);
}

/// Nothing of the super frame in which it ends comes out, and nothing later.
/// An emulator tries one carrier in so many.
#[test]
fn one_carrier_cut_short() {
    let sent = Sent::new(25, &EIGHT, 6);
    for c in (0..EIGHT.len()).step_by(part()) {
        for bytes_behind in [0, 1, 187] {
            let mut arrived = sent.arrived();
            let packets = FRAME_PACKETS * EIGHT[c].0 * 4;
            for (left, supers) in [(packets, 3), (packets + 1, 4), (packets / 2, 1), (0, 0)] {
                arrived[c] = sent.files[c][..left * PACKET_BYTES + bytes_behind].to_vec();
                let said = sent.unbond(&arrived);
                assert!(said.out == sent.packets(|number| number < supers));
                let tail = format!(
                    "{bytes_behind} bytes behind the last whole packet: \
                     not cut on packet borders (refusal 1)\n"
                );
                assert_eq!(said.err.contains(&tail), bytes_behind > 0);
                let summary = format!("super frames out {supers}; dropped ");
                assert!(said.err.contains(&summary), "{}", said.err);
            }
        }
    }
}

/// Slots are doubled, or null packets come between.
#[test]
fn packets_too_many() {
    for lot in [Lot::Doubled, Lot::Followed] {
        let mut sent = Sent::new(26, &PAIR, 60);
        let mut generator = Generator::new(27);
        for lots in &mut sent.lots {
            lots.some(&mut generator, 1000, lot);
            let headers = lots.0.iter_mut().step_by(FRAME_PACKETS);
            headers.for_each(|header| *header = Lot::Whole);
        }
        assert!((10..60).contains(&sent.check()));
    }
}

/// Behind a doubled header, too, super frames of the stream come out, in
/// their order and each from all carriers.
#[test]
fn a_doubled_header_mixes_nothing() {
    for c in 0..PAIR.len() {
        for frame in [0, 1, 12, 24] {
            let mut sent = Sent::new(28, &PAIR, 20);
            sent.frames(c, frame, 1)[0] = Lot::Doubled;
            let out = sent.unbond(&sent.arrived()).out;
            let bytes = PACKET_BYTES * packets_of_super(&PAIR);
            let mut supers = sent.stream.chunks(bytes);
            for part in out.chunks(bytes) {
                assert!(
                    supers.any(|packets| packets == part),
                    "carrier {} with header {frame} doubled",
                    c + 1
                );
            }
        }
    }
}
