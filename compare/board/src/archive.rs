//! The calls of niranbok.h in the product's archive, over slices. This is the
//! only file that has to trust what it calls.
#![allow(unsafe_code)]

use reference::Asked;

/// Numbers that a call has to write stand so before it, and would show.
const UNWRITTEN: usize = 0xA5A5_A5A5;
const UNWRITTEN_BYTE: u8 = 0xA5;
const UNWRITTEN_REMAINDER: u32 = 0xA5A5_A5A5;

extern "C" {
    fn niranbok_crc(bytes: *const u8, length: usize) -> u32;
    fn niranbok_pid_allowed(pid: u16) -> bool;
    fn niranbok_slot(n: u8) -> u8;
    fn niranbok_relative_number(n: u8) -> u8;
    fn niranbok_frame_position(n: u8) -> u8;
    fn niranbok_is_available(r: u8, availability: u16) -> bool;
    fn niranbok_count_available(availability: u16) -> u32;
    fn niranbok_setting_blank(setting: *mut u8, setting_length: usize) -> u8;
    fn niranbok_setting_widths(setting: *const u8, setting_length: usize, kind: u8) -> u8;
    fn niranbok_setting_rules(setting: *const u8, setting_length: usize, kind: u8) -> u8;
    fn niranbok_header_write(
        packet: *mut u8,
        packet_length: usize,
        pid: u16,
        kind: u8,
        setting: *const u8,
        setting_length: usize,
    ) -> u8;
    fn niranbok_header_read(
        packet: *const u8,
        packet_length: usize,
        pid: u16,
        kind: u8,
        setting: *mut u8,
        setting_length: usize,
        remainder: *mut u32,
    ) -> u8;
    fn niranbok_place_refusal(packet: *const u8, packet_length: usize, pid: u16) -> u8;
    fn niranbok_composer_start(state: *mut u8, state_length: usize, pid: u16, kind: u8) -> u8;
    fn niranbok_composer_begin(
        state: *mut u8,
        state_length: usize,
        frame: *mut u8,
        frame_length: usize,
        setting: *const u8,
        setting_length: usize,
    ) -> u8;
    fn niranbok_composer_put(
        state: *mut u8,
        state_length: usize,
        frame: *mut u8,
        frame_length: usize,
        stream: *const u8,
        stream_length: usize,
        r: u8,
        placed: *mut usize,
    ) -> u8;
    fn niranbok_composer_rest(stream: *const u8, stream_length: usize, placed: usize) -> usize;
    fn niranbok_composer_close(
        state: *mut u8,
        state_length: usize,
        frame: *mut u8,
        frame_length: usize,
    ) -> u8;
    fn niranbok_receiver_start(state: *mut u8, state_length: usize, pid: u16, kind: u8) -> u8;
    fn niranbok_receiver_receive(
        state: *mut u8,
        state_length: usize,
        packet: *const u8,
        packet_length: usize,
        store: *mut u8,
        store_length: usize,
        event: *mut u8,
        remainder: *mut u32,
    ) -> u8;
    fn niranbok_receiver_hand_out(
        state: *const u8,
        state_length: usize,
        store: *const u8,
        store_length: usize,
        out: *mut u8,
        out_length: usize,
        r: u8,
        packets: *mut usize,
    ) -> u8;
    fn niranbok_read_headers(
        group: *const u8,
        group_length: usize,
        carriers: u8,
        pid: u16,
        ts_id: u16,
        original_network_id: u16,
        is_carried: *mut u8,
        packets: *mut usize,
        remainder: *mut u32,
    ) -> u8;
    fn niranbok_spread(
        group: *mut u8,
        group_length: usize,
        stream: *const u8,
        stream_length: usize,
        carriers: u8,
        pid: u16,
        ts_id: u16,
        original_network_id: u16,
        packets: *mut usize,
        remainder: *mut u32,
    ) -> u8;
    fn niranbok_gather(
        group: *const u8,
        group_length: usize,
        out: *mut u8,
        out_length: usize,
        carriers: u8,
        pid: u16,
        ts_id: u16,
        original_network_id: u16,
        packets: *mut usize,
        remainder: *mut u32,
    ) -> u8;
}

pub fn crc(bytes: &[u8]) -> u32 {
    unsafe { niranbok_crc(bytes.as_ptr(), bytes.len()) }
}

pub fn pid_allowed(pid: u16) -> bool {
    unsafe { niranbok_pid_allowed(pid) }
}

pub fn slot(n: u8) -> u8 {
    unsafe { niranbok_slot(n) }
}

pub fn relative_number(n: u8) -> u8 {
    unsafe { niranbok_relative_number(n) }
}

pub fn frame_position(n: u8) -> u8 {
    unsafe { niranbok_frame_position(n) }
}

pub fn is_available(r: u8, availability: u16) -> bool {
    unsafe { niranbok_is_available(r, availability) }
}

pub fn count_available(availability: u16) -> u32 {
    unsafe { niranbok_count_available(availability) }
}

pub fn setting_blank(setting: &mut [u8]) -> u8 {
    unsafe { niranbok_setting_blank(setting.as_mut_ptr(), setting.len()) }
}

pub fn setting_widths(setting: &[u8], kind: u8) -> u8 {
    unsafe { niranbok_setting_widths(setting.as_ptr(), setting.len(), kind) }
}

pub fn setting_rules(setting: &[u8], kind: u8) -> u8 {
    unsafe { niranbok_setting_rules(setting.as_ptr(), setting.len(), kind) }
}

pub fn header_write(packet: &mut [u8], pid: u16, kind: u8, setting: &[u8]) -> u8 {
    let (bytes, length) = (packet.as_mut_ptr(), packet.len());
    unsafe { niranbok_header_write(bytes, length, pid, kind, setting.as_ptr(), setting.len()) }
}

/// The refusal, and the remainder.
pub fn header_read(packet: &[u8], pid: u16, kind: u8, setting: &mut [u8]) -> (u8, u32) {
    let mut remainder = UNWRITTEN_REMAINDER;
    let refusal = unsafe {
        niranbok_header_read(
            packet.as_ptr(),
            packet.len(),
            pid,
            kind,
            setting.as_mut_ptr(),
            setting.len(),
            &mut remainder,
        )
    };
    (refusal, remainder)
}

pub fn place_refusal(packet: &[u8], pid: u16) -> u8 {
    unsafe { niranbok_place_refusal(packet.as_ptr(), packet.len(), pid) }
}

pub fn composer_start(state: &mut [u8], pid: u16, kind: u8) -> u8 {
    unsafe { niranbok_composer_start(state.as_mut_ptr(), state.len(), pid, kind) }
}

pub fn composer_begin(state: &mut [u8], frame: &mut [u8], setting: &[u8]) -> u8 {
    unsafe {
        niranbok_composer_begin(
            state.as_mut_ptr(),
            state.len(),
            frame.as_mut_ptr(),
            frame.len(),
            setting.as_ptr(),
            setting.len(),
        )
    }
}

/// The refusal, and how many packets were placed.
pub fn composer_put(state: &mut [u8], frame: &mut [u8], stream: &[u8], r: u8) -> (u8, usize) {
    let mut placed = UNWRITTEN;
    let refusal = unsafe {
        niranbok_composer_put(
            state.as_mut_ptr(),
            state.len(),
            frame.as_mut_ptr(),
            frame.len(),
            stream.as_ptr(),
            stream.len(),
            r,
            &mut placed,
        )
    };
    (refusal, placed)
}

pub fn composer_rest(stream: &[u8], placed: usize) -> usize {
    unsafe { niranbok_composer_rest(stream.as_ptr(), stream.len(), placed) }
}

pub fn composer_close(state: &mut [u8], frame: &mut [u8]) -> u8 {
    let (bytes, length) = (state.as_mut_ptr(), state.len());
    unsafe { niranbok_composer_close(bytes, length, frame.as_mut_ptr(), frame.len()) }
}

pub fn receiver_start(state: &mut [u8], pid: u16, kind: u8) -> u8 {
    unsafe { niranbok_receiver_start(state.as_mut_ptr(), state.len(), pid, kind) }
}

/// The refusal, the event, and the remainder.
pub fn receiver_receive(state: &mut [u8], packet: &[u8], store: &mut [u8]) -> (u8, u8, u32) {
    let mut event = UNWRITTEN_BYTE;
    let mut remainder = UNWRITTEN_REMAINDER;
    let refusal = unsafe {
        niranbok_receiver_receive(
            state.as_mut_ptr(),
            state.len(),
            packet.as_ptr(),
            packet.len(),
            store.as_mut_ptr(),
            store.len(),
            &mut event,
            &mut remainder,
        )
    };
    (refusal, event, remainder)
}

/// The refusal, and how many packets were copied.
pub fn receiver_hand_out(state: &[u8], store: &[u8], out: &mut [u8], r: u8) -> (u8, usize) {
    let mut packets = UNWRITTEN;
    let refusal = unsafe {
        niranbok_receiver_hand_out(
            state.as_ptr(),
            state.len(),
            store.as_ptr(),
            store.len(),
            out.as_mut_ptr(),
            out.len(),
            r,
            &mut packets,
        )
    };
    (refusal, packets)
}

/// The refusal, whether the stream is carried, how many slots it has, and the
/// remainder.
pub fn read_headers(group: &[u8], asked: &Asked) -> (u8, u8, usize, u32) {
    let mut is_carried = UNWRITTEN_BYTE;
    let mut packets = UNWRITTEN;
    let mut remainder = UNWRITTEN_REMAINDER;
    let refusal = unsafe {
        niranbok_read_headers(
            group.as_ptr(),
            group.len(),
            asked.carriers,
            asked.pid,
            asked.ts_id,
            asked.original_network_id,
            &mut is_carried,
            &mut packets,
            &mut remainder,
        )
    };
    (refusal, is_carried, packets, remainder)
}

/// The refusal, how many packets were written, and the remainder.
pub fn spread(group: &mut [u8], stream: &[u8], asked: &Asked) -> (u8, usize, u32) {
    let mut packets = UNWRITTEN;
    let mut remainder = UNWRITTEN_REMAINDER;
    let refusal = unsafe {
        niranbok_spread(
            group.as_mut_ptr(),
            group.len(),
            stream.as_ptr(),
            stream.len(),
            asked.carriers,
            asked.pid,
            asked.ts_id,
            asked.original_network_id,
            &mut packets,
            &mut remainder,
        )
    };
    (refusal, packets, remainder)
}

/// The refusal, how many packets were copied, and the remainder.
pub fn gather(group: &[u8], out: &mut [u8], asked: &Asked) -> (u8, usize, u32) {
    let mut packets = UNWRITTEN;
    let mut remainder = UNWRITTEN_REMAINDER;
    let refusal = unsafe {
        niranbok_gather(
            group.as_ptr(),
            group.len(),
            out.as_mut_ptr(),
            out.len(),
            asked.carriers,
            asked.pid,
            asked.ts_id,
            asked.original_network_id,
            &mut packets,
            &mut remainder,
        )
    };
    (refusal, packets, remainder)
}
