use cases::lister::{write_recording, FRAME_PACKETS};
use reference::list;

fn listed(packets: u64) -> String {
    let mut recording = Vec::new();
    write_recording(&mut recording, packets).unwrap();
    assert_eq!(recording.len() as u64, 188 * packets);
    list(&recording)
}

#[test]
fn every_frame_starts_with_a_header() {
    let packets = 20 * FRAME_PACKETS + 1;
    let text = listed(packets);
    assert_eq!(text.lines().count() as u64, packets);
    for (number, line) in (0..).zip(text.lines()) {
        if number % FRAME_PACKETS == 0 {
            let frame = number / FRAME_PACKETS;
            let [counter, version] = [frame % 16, frame / 16 % 8];
            let streams = frame.count_ones();
            assert_eq!(
                line,
                format!("{number} header {counter} {version} {streams}")
            );
        } else {
            assert_eq!(line, format!("{number} refused 4"));
        }
    }
}

#[test]
fn a_longer_recording_begins_with_a_shorter_one() {
    assert_eq!(listed(0), "");
    assert!(listed(300).starts_with(&listed(107)));
}
