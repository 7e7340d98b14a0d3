//! Groups of bonded carriers in which the bonded stream has no slots, and frames
//! on their way to a receiver.

use crate::settings::{good, set};
use crate::table::{Kind, Table, EXTENDED};
use board::archive;
use reference::Asked;

/// What is asked of a group: the first stream of a good setting.
pub fn asked(carriers: u8, pid: u16) -> Asked {
    Asked {
        carriers,
        pid,
        ts_id: 100,
        original_network_id: 200,
    }
}

/// The super frames of so many carriers, of 3 frames each.
pub fn group(table: &Table, carriers: u8, pid: u16) -> Vec<u8> {
    let mut group = Vec::new();
    for sequence in 1..=carriers {
        for position in 1..=3 {
            let mut setting = good(table, EXTENDED);
            set(
                table,
                &mut setting,
                "number_of_carriers",
                0,
                carriers.into(),
            );
            set(table, &mut setting, "carrier_sequence", 0, sequence.into());
            set(table, &mut setting, "number_of_frames", 0, 3);
            set(table, &mut setting, "frame_position", 0, position);
            let mut frame = table.zeros("frame");
            let packet = table.zeros("packet").len();
            let header = &mut frame[..packet];
            let refusal = archive::header_write(header, pid, EXTENDED.number, &setting);
            assert_eq!(refusal, 0, "a header of a group");
            group.extend(frame);
        }
    }
    group
}

/// A composer's state with an open frame, and the frame.
pub fn open_frame(table: &Table, kind: Kind, pid: u16) -> (Vec<u8>, Vec<u8>) {
    let (mut state, mut frame) = (table.zeros("composer"), table.zeros_of(kind, "frame"));
    let refusal = archive::composer_start(&mut state, pid, kind.number);
    assert_eq!(refusal, 0, "a start");
    let setting = good(table, kind);
    let refusal = archive::composer_begin(&mut state, &mut frame, &setting);
    assert_eq!(refusal, 0, "a begin");
    (state, frame)
}

/// A receiver's state with a ready frame, and its store.
pub fn ready_frame(table: &Table, kind: Kind, pid: u16) -> (Vec<u8>, Vec<u8>) {
    let (mut composer, mut frame) = open_frame(table, kind, pid);
    let (mut state, mut store) = (table.zeros("receiver"), table.zeros_of(kind, "store"));
    let refusal = archive::receiver_start(&mut state, pid, kind.number);
    assert_eq!(refusal, 0, "a start");
    let first_and_header = table.last(kind, "slot") + 2;
    let packet = table.zeros("packet").len();
    let mut events = Vec::new();
    for _ in 0..2 {
        assert_eq!(archive::composer_close(&mut composer, &mut frame), 0);
        for packet in frame.chunks(packet) {
            events.push(archive::receiver_receive(&mut state, packet, &mut store));
            if events.len() == first_and_header {
                break;
            }
        }
        let setting = good(table, kind);
        archive::composer_begin(&mut composer, &mut frame, &setting);
    }
    assert_eq!(events.last(), Some(&(0, 3, 0)), "the first frame is ready");
    (state, store)
}
