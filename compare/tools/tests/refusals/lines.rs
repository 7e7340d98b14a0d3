//! The lines that are said.

pub const MUX_USAGE: &str =
    "usage: mux [--short] PID SLOTS TS_ID NETWORK_ID FILE [SLOTS TS_ID NETWORK_ID FILE].. > FRAMES\n";
pub const DEMUX_USAGE: &str = "usage: demux [--short] PID STREAM [FILE] > STREAM; \
     STREAM is a number from 1 to 15, with --short from 1 to 7, or TS_ID:NETWORK_ID\n";
pub const BOND_USAGE: &str = "usage: bond PID GROUP TS_ID NETWORK_ID FILE \
     FRAMES SLOTS CARRIER_FILE [FRAMES SLOTS CARRIER_FILE]..\n";
pub const UNBOND_USAGE: &str = "usage: unbond PID TS_ID NETWORK_ID CARRIER_FILE.. > STREAM; \
     the files in the carriers' order\n";
pub const NO_TOOL: &str =
    "usage: mux | demux | bond | unbond ARGUMENTS; each of them alone says which\n";

pub const USAGES: [&str; 4] = [MUX_USAGE, DEMUX_USAGE, BOND_USAGE, UNBOND_USAGE];

pub const BAD_PID: &str = "PID: expected a number from 16 to 8190 (refusal 2)\n";
pub const BAD_SLOTS: &str = "SLOTS: expected a number from 1 to 52 (refusal 17)\n";
pub const BAD_SUM: &str =
    "SLOTS of all streams together: expected a number from 1 to 52 (refusal 17)\n";
pub const BAD_SHORT_SLOTS: &str = "SLOTS: expected a number from 1 to 40 (refusal 17)\n";
pub const BAD_SHORT_SUM: &str =
    "SLOTS of all streams together: expected a number from 1 to 40 (refusal 17)\n";
pub const BAD_TS_ID: &str = "TS_ID: expected a number from 0 to 65535 (refusal 17)\n";
pub const BAD_NETWORK_ID: &str = "NETWORK_ID: expected a number from 0 to 65535 (refusal 17)\n";
pub const BAD_STREAM: &str = "STREAM: expected a number from 1 to 15 (refusal 17)\n";
pub const BAD_STREAMS: &str = "streams: expected a number from 1 to 15 (refusal 17)\n";
pub const BAD_SHORT_STREAM: &str = "STREAM: expected a number from 1 to 7 (refusal 17)\n";
pub const BAD_SHORT_STREAMS: &str = "streams: expected a number from 1 to 7 (refusal 17)\n";
pub const BAD_GROUP: &str = "GROUP: expected a number from 0 to 255 (refusal 17)\n";
pub const BAD_FRAMES: &str = "FRAMES: expected a number from 3 to 4 (refusal 17)\n";
pub const BAD_CARRIERS: &str = "carriers: expected a number from 1 to 8 (refusal 17)\n";
pub const SAME: &str = "streams: two streams have the same identifiers (refusal 10)\n";
pub const MISSING: &str = "missing: No such file or directory\n";
pub const NO_SLOTS_PACKET: &str =
    "input: a packet lacks 0x47 at its start or bears the header PID (refusal 12)\n";
pub const TAIL: &str =
    "100 bytes behind the last whole packet: not cut on packet borders (refusal 1)\n";

pub const RESERVED: &str = "a reserved bit is 0, from another maker or of another kind";
