//! A group of carriers: how it is asked for, and what its files hold.

use crate::program::{Folder, Said};
use reference::{gather, Asked, FRAME_BYTES, PACKET_BYTES};

pub const PID: u16 = 0x1FF0;
pub const TS_ID: u16 = 0x1234;
pub const NETWORK_ID: u16 = 0x5678;
pub const GROUP_ID: u8 = 200;

/// The frames of a super frame, and the slots of each frame.
pub type Carrier = (usize, usize);

/// How many packets a super frame of the group carries.
pub fn packets_of_super(group: &[Carrier]) -> usize {
    group.iter().map(|(frames, slots)| frames * slots).sum()
}

/// The file of carrier c, from 0.
pub fn file(c: usize) -> String {
    format!("carrier{}", c + 1)
}

/// Bonds the folder's file `stream`.
pub fn bond(folder: &Folder, group: &[Carrier]) -> Said {
    let mut words = format!("{PID} {GROUP_ID} {TS_ID:#x} {NETWORK_ID:#x} stream");
    for (c, (frames, slots)) in group.iter().enumerate() {
        words += &format!(" {frames} {slots} {}", file(c));
    }
    folder.run("bond", &words)
}

/// Takes the folder's carriers apart again.
pub fn unbond(folder: &Folder, carriers: usize) -> Said {
    let files: Vec<String> = (0..carriers).map(file).collect();
    let files = files.join(" ");
    folder.run("unbond", &format!("{PID} {TS_ID} {NETWORK_ID} {files}"))
}

/// The bytes of a carrier's super frame.
fn bytes_of(&(frames, _): &Carrier) -> usize {
    FRAME_BYTES * frames
}

/// How many super frames a carrier's bytes hold.
pub fn supers_in(bytes: &[u8], carrier: &Carrier) -> usize {
    bytes.len() / bytes_of(carrier)
}

/// The packets of one super frame, gathered with the reference.
pub fn gathered(files: &[Vec<u8>], group: &[Carrier], number: usize) -> Vec<u8> {
    let parts = files.iter().zip(group).flat_map(|(file, carrier)| {
        let bytes = bytes_of(carrier);
        &file[number * bytes..(number + 1) * bytes]
    });
    let joined: Vec<u8> = parts.copied().collect();
    let asked = Asked {
        carriers: group.len() as u8,
        pid: PID,
        ts_id: TS_ID,
        original_network_id: NETWORK_ID,
    };
    let mut out = vec![0; PACKET_BYTES * packets_of_super(group)];
    let packets = gather(&joined, &asked, &mut out).expect("a whole group");
    assert_eq!(packets * PACKET_BYTES, out.len());
    out
}
