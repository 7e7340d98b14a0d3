//! The lister's cases.

mod damage;
mod many;
mod packets;
mod recording;

use crate::generator::Generator;
pub use recording::{write_recording, FRAME_PACKETS};
use reference::list;

pub struct Case {
    pub name: &'static str,
    pub input: Vec<u8>,
    pub expected: String,
}

/// The output that the documents give for the example, whole.
pub const EXAMPLE: &str = "0 refused 3\n1 refused 4\ntail 1\n";

pub fn cases() -> Vec<Case> {
    let cases = vec![
        case("example", example()),
        case("many", many::input()),
        case("tail1", tail_of_one()),
        case("empty", Vec::new()),
    ];
    assert_eq!(cases[0].expected, EXAMPLE);
    assert_eq!(cases[3].expected, "");
    cases
}

fn case(name: &'static str, input: Vec<u8>) -> Case {
    let expected = list(&input);
    Case {
        name,
        input,
        expected,
    }
}

fn example() -> Vec<u8> {
    let mut input = vec![0; 188];
    input.extend(packets::null());
    input.push(0);
    input
}

/// The byte left over looks like the start of a packet.
fn tail_of_one() -> Vec<u8> {
    let mut generator = Generator::new(3);
    let mut input = Vec::new();
    input.extend(packets::good(&mut generator, 40));
    input.extend(packets::ordinary(&mut generator));
    input.extend(packets::good(&mut generator, 41));
    input.push(0x47);
    input
}
