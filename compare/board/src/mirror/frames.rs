//! The calls of a composer and of a receiver. Of a state only the kind is
//! looked at before all lengths, which it decides; behind them its PID first,
//! and then whether its bytes are a state at all.

use super::{counted, fixed, fixed_length, known_kind, refusal, unless, Checked};
use crate::coding::{
    composer_bytes, composer_of, receiver_bytes, receiver_of, setting_of, state_pid, state_size,
    COMPOSER_BYTES, RECEIVER_BYTES,
};
use reference::{header_pid, Composer, Event, Receiver, PACKET_BYTES};

pub fn composer_start(state: &mut [u8], pid: u16, kind: u8) -> u8 {
    refusal(start_composer(state, pid, kind))
}

fn start_composer(state: &mut [u8], pid: u16, kind: u8) -> Checked {
    fixed_length(state, COMPOSER_BYTES)?;
    header_pid(pid)?;
    let (_, composer) = Composer::start(pid, known_kind(kind)?);
    state.copy_from_slice(&composer_bytes(&composer));
    Ok(())
}

fn composer(state: &[u8]) -> Result<Composer, u8> {
    let state = fixed(state)?;
    header_pid(state_pid(state))?;
    composer_of(state).ok_or(17)
}

pub fn composer_begin(state: &mut [u8], frame: &mut [u8], setting: &[u8]) -> u8 {
    refusal(begin(state, frame, setting))
}

fn begin(state: &mut [u8], frame: &mut [u8], setting: &[u8]) -> Checked {
    fixed_length(frame, state_size(state).frame_bytes())?;
    let setting = setting_of(fixed(setting)?);
    let mut composer = composer(state)?;
    composer.begin(frame, &setting)?;
    state.copy_from_slice(&composer_bytes(&composer));
    Ok(())
}

pub fn composer_put(state: &mut [u8], frame: &mut [u8], stream: &[u8], r: u8) -> (u8, usize) {
    counted(put(state, frame, stream, r))
}

fn put(state: &mut [u8], frame: &mut [u8], stream: &[u8], r: u8) -> Result<usize, u8> {
    fixed_length(frame, state_size(state).frame_bytes())?;
    unless(stream.len().is_multiple_of(PACKET_BYTES), 1)?;
    let mut composer = composer(state)?;
    let placed = composer.put(frame, r, stream).placed?;
    state.copy_from_slice(&composer_bytes(&composer));
    Ok(placed)
}

/// Nothing is left behind more packets than there are.
pub fn composer_rest(stream: &[u8], placed: usize) -> usize {
    let taken = placed.saturating_mul(PACKET_BYTES);
    stream.len().saturating_sub(taken)
}

pub fn composer_close(state: &mut [u8], frame: &mut [u8]) -> u8 {
    refusal(close(state, frame))
}

fn close(state: &mut [u8], frame: &mut [u8]) -> Checked {
    fixed_length(frame, state_size(state).frame_bytes())?;
    let mut composer = composer(state)?;
    composer.close(frame)?;
    state.copy_from_slice(&composer_bytes(&composer));
    Ok(())
}

pub fn receiver_start(state: &mut [u8], pid: u16, kind: u8) -> u8 {
    refusal(start_receiver(state, pid, kind))
}

fn start_receiver(state: &mut [u8], pid: u16, kind: u8) -> Checked {
    fixed_length(state, RECEIVER_BYTES)?;
    header_pid(pid)?;
    let (_, receiver) = Receiver::start(pid, known_kind(kind)?);
    state.copy_from_slice(&receiver_bytes(&receiver));
    Ok(())
}

fn receiver(state: &[u8]) -> Result<Receiver, u8> {
    let state = fixed(state)?;
    header_pid(state_pid(state))?;
    receiver_of(state).ok_or(17)
}

pub fn receiver_receive(state: &mut [u8], packet: &[u8], store: &mut [u8]) -> (u8, u8, u32) {
    match receive(state, packet, store) {
        Ok(event) => (0, event_number(event), event.remainder()),
        Err(refusal) => (refusal, 0, 0),
    }
}

fn receive(state: &mut [u8], packet: &[u8], store: &mut [u8]) -> Result<Event, u8> {
    fixed_length(packet, PACKET_BYTES)?;
    fixed_length(store, state_size(state).store_bytes())?;
    let mut receiver = receiver(state)?;
    let event = receiver.receive(store, packet)?;
    state.copy_from_slice(&receiver_bytes(&receiver));
    Ok(event)
}

fn event_number(event: Event) -> u8 {
    match event {
        Event::Nothing => 0,
        Event::Opened => 1,
        Event::Stored => 2,
        Event::Ready => 3,
        Event::Short => 4,
        Event::Jump => 5,
        Event::Long => 6,
        Event::Broken { .. } => 7,
    }
}

pub fn receiver_hand_out(state: &[u8], store: &[u8], out: &mut [u8], r: u8) -> (u8, usize) {
    counted(hand_out(state, store, out, r))
}

fn hand_out(state: &[u8], store: &[u8], out: &mut [u8], r: u8) -> Result<usize, u8> {
    fixed_length(store, state_size(state).store_bytes())?;
    receiver(state)?.hand_out(store, r, out)
}
