//! What bond writes, gathered with the reference.

use cases::generator::Generator;
use reference::{read, Kind, Setting, FRAME_BYTES, PACKET_BYTES};
use tools::group::{
    bond, file, gathered, packets_of_super, supers_in, Carrier, GROUP_ID, NETWORK_ID, PID, TS_ID,
};
use tools::program::Folder;
use tools::streams::{padded, stream};

fn assert_header(header: &Setting, number: usize, c: usize, group: &[Carrier]) {
    let (frames, slots) = group[c];
    assert_eq!(usize::from(header.continuity_counter), number % 16);
    assert_eq!(header.version_number, 0);
    assert_eq!(header.group_id, GROUP_ID);
    assert_eq!(usize::from(header.number_of_carriers), group.len());
    assert_eq!(usize::from(header.carrier_sequence), c + 1);
    assert_eq!(usize::from(header.number_of_frames), frames);
    assert_eq!(usize::from(header.frame_position), number % frames + 1);
    assert_eq!(header.available_streams(), 1);
    assert_eq!(
        (header.ts_id[0], header.original_network_id[0]),
        (TS_ID, NETWORK_ID)
    );
    let bonded = header.relative_ts_number.iter().filter(|&&r| r == 1);
    assert_eq!(bonded.count(), slots);
}

/// Whole super frames, and a header behind them.
fn assert_carrier(bytes: &[u8], supers: usize, c: usize, group: &[Carrier]) {
    let (frames, _) = group[c];
    assert_eq!(bytes.len(), FRAME_BYTES * frames * supers + PACKET_BYTES);
    for (number, frame) in bytes.chunks(FRAME_BYTES).enumerate() {
        let header = read(&frame[..PACKET_BYTES], PID, Kind::Extended);
        assert_header(&header.expect("a good header"), number, c, group);
    }
}

fn check(seed: u32, group: &[Carrier], packets: usize) {
    let folder = Folder::new();
    let stream = stream(&mut Generator::new(seed), packets, PID);
    folder.write("stream", &stream);
    let said = bond(&folder, group);
    assert_eq!((said.out, said.err), (vec![], String::new()));
    let files: Vec<Vec<u8>> = (0..group.len()).map(|c| folder.read(&file(c))).collect();
    let supers = packets.div_ceil(packets_of_super(group));
    for (c, bytes) in files.iter().enumerate() {
        assert_carrier(bytes, supers, c, group);
        assert_eq!(supers_in(bytes, &group[c]), supers);
    }
    let all = (0..supers).flat_map(|number| gathered(&files, group, number));
    let all: Vec<u8> = all.collect();
    assert!(all == padded(&stream, packets_of_super(group)));
}

#[test]
fn one_carrier() {
    check(1, &[(3, 52)], 156 * 40);
    check(2, &[(4, 1)], 157);
    check(3, &[(4, 52)], 1);
}

#[test]
fn two_carriers() {
    check(4, &[(3, 52), (4, 52)], 364 * 20 + 1);
    check(5, &[(3, 10), (4, 33)], 4000);
    check(6, &[(4, 52), (3, 1)], 4000);
}

#[test]
fn eight_carriers() {
    check(7, &[(4, 52); 8], 1664 * 10 - 1);
    let mixed = [
        (3, 52),
        (4, 7),
        (4, 52),
        (3, 1),
        (3, 26),
        (4, 51),
        (3, 13),
        (4, 2),
    ];
    check(8, &mixed, 10_000);
}

#[test]
fn nothing_but_headers_for_no_packets() {
    check(9, &[(3, 10), (4, 20)], 0);
}
