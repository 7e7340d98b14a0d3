//! Each call of niranbok.h made on both sides and judged. The answer is that
//! of both.

use crate::judge::{Call, Judge, BROKEN, WRONG_CRC};
use crate::lent::Lent;
use crate::{archive, mirror};
use reference::Asked;

impl Judge {
    pub fn crc(&mut self, bytes: &mut Lent) -> u32 {
        let answers = [archive::crc(bytes.archives()), mirror::crc(bytes.ours())];
        self.judge(Call::Crc, 0, answers, &mut [("bytes", bytes)]);
        answers[1]
    }

    pub fn pid_allowed(&mut self, pid: u16) {
        let answers = [archive::pid_allowed(pid), mirror::pid_allowed(pid)];
        self.judge(Call::PidAllowed, 0, answers, &mut []);
    }

    pub fn slot(&mut self, n: u8) {
        let answers = [archive::slot(n), mirror::slot(n)];
        self.judge(Call::Slot, answers[1], answers, &mut []);
    }

    pub fn relative_number(&mut self, n: u8) {
        let answers = [archive::relative_number(n), mirror::relative_number(n)];
        self.judge(Call::RelativeNumber, answers[1], answers, &mut []);
    }

    pub fn frame_position(&mut self, n: u8) {
        let answers = [archive::frame_position(n), mirror::frame_position(n)];
        self.judge(Call::FramePosition, answers[1], answers, &mut []);
    }

    pub fn is_available(&mut self, r: u8, availability: u16) {
        let answers = [
            archive::is_available(r, availability),
            mirror::is_available(r, availability),
        ];
        self.judge(Call::IsAvailable, 0, answers, &mut []);
    }

    pub fn count_available(&mut self, availability: u16) {
        let answers = [
            archive::count_available(availability),
            mirror::count_available(availability),
        ];
        self.judge(Call::CountAvailable, 0, answers, &mut []);
    }

    pub fn setting_blank(&mut self, setting: &mut Lent) -> u8 {
        let answers = [
            archive::setting_blank(setting.archives()),
            mirror::setting_blank(setting.ours()),
        ];
        let lent = &mut [("setting", setting)];
        self.judge(Call::SettingBlank, answers[1], answers, lent);
        answers[1]
    }

    pub fn setting_widths(&mut self, setting: &mut Lent, kind: u8) -> u8 {
        let answers = [
            archive::setting_widths(setting.archives(), kind),
            mirror::setting_widths(setting.ours(), kind),
        ];
        let lent = &mut [("setting", setting)];
        self.judge(Call::SettingWidths, answers[1], answers, lent);
        answers[1]
    }

    pub fn setting_rules(&mut self, setting: &mut Lent, kind: u8) -> u8 {
        let answers = [
            archive::setting_rules(setting.archives(), kind),
            mirror::setting_rules(setting.ours(), kind),
        ];
        let lent = &mut [("setting", setting)];
        self.judge(Call::SettingRules, answers[1], answers, lent);
        answers[1]
    }

    pub fn header_write(
        &mut self,
        packet: &mut Lent,
        pid: u16,
        kind: u8,
        setting: &mut Lent,
    ) -> u8 {
        let answers = [
            archive::header_write(packet.archives(), pid, kind, setting.archives()),
            mirror::header_write(packet.ours(), pid, kind, setting.ours()),
        ];
        let lent = &mut [("packet", packet), ("setting", setting)];
        self.judge(Call::HeaderWrite, answers[1], answers, lent);
        answers[1]
    }

    pub fn header_read(
        &mut self,
        packet: &mut Lent,
        pid: u16,
        kind: u8,
        setting: &mut Lent,
    ) -> (u8, u32) {
        let answers = [
            archive::header_read(packet.archives(), pid, kind, setting.archives()),
            mirror::header_read(packet.ours(), pid, kind, setting.ours()),
        ];
        let lent = &mut [("packet", packet), ("setting", setting)];
        let (refusal, remainder) = answers[1];
        self.judge(Call::HeaderRead, refusal, answers, lent);
        self.judge_remainder(Call::HeaderRead, refusal == WRONG_CRC, remainder);
        answers[1]
    }

    pub fn place_refusal(&mut self, packet: &mut Lent, pid: u16) -> u8 {
        let answers = [
            archive::place_refusal(packet.archives(), pid),
            mirror::place_refusal(packet.ours(), pid),
        ];
        let lent = &mut [("packet", packet)];
        self.judge(Call::PlaceRefusal, answers[1], answers, lent);
        answers[1]
    }

    pub fn composer_start(&mut self, state: &mut Lent, pid: u16, kind: u8) -> u8 {
        let answers = [
            archive::composer_start(state.archives(), pid, kind),
            mirror::composer_start(state.ours(), pid, kind),
        ];
        let lent = &mut [("state", state)];
        self.judge(Call::ComposerStart, answers[1], answers, lent);
        answers[1]
    }

    pub fn composer_begin(&mut self, state: &mut Lent, frame: &mut Lent, setting: &mut Lent) -> u8 {
        let answers = [
            archive::composer_begin(state.archives(), frame.archives(), setting.archives()),
            mirror::composer_begin(state.ours(), frame.ours(), setting.ours()),
        ];
        let lent = &mut [("state", state), ("frame", frame), ("setting", setting)];
        self.judge(Call::ComposerBegin, answers[1], answers, lent);
        answers[1]
    }

    pub fn composer_put(
        &mut self,
        state: &mut Lent,
        frame: &mut Lent,
        stream: &mut Lent,
        r: u8,
    ) -> (u8, usize) {
        let answers = [
            archive::composer_put(state.archives(), frame.archives(), stream.archives(), r),
            mirror::composer_put(state.ours(), frame.ours(), stream.ours(), r),
        ];
        let lent = &mut [("state", state), ("frame", frame), ("stream", stream)];
        self.judge(Call::ComposerPut, answers[1].0, answers, lent);
        answers[1]
    }

    pub fn composer_rest(&mut self, stream: &mut Lent, placed: usize) -> usize {
        let answers = [
            archive::composer_rest(stream.archives(), placed),
            mirror::composer_rest(stream.ours(), placed),
        ];
        let lent = &mut [("stream", stream)];
        self.judge(Call::ComposerRest, 0, answers, lent);
        answers[1]
    }

    pub fn composer_close(&mut self, state: &mut Lent, frame: &mut Lent) -> u8 {
        let answers = [
            archive::composer_close(state.archives(), frame.archives()),
            mirror::composer_close(state.ours(), frame.ours()),
        ];
        let lent = &mut [("state", state), ("frame", frame)];
        self.judge(Call::ComposerClose, answers[1], answers, lent);
        answers[1]
    }

    pub fn receiver_start(&mut self, state: &mut Lent, pid: u16, kind: u8) -> u8 {
        let answers = [
            archive::receiver_start(state.archives(), pid, kind),
            mirror::receiver_start(state.ours(), pid, kind),
        ];
        let lent = &mut [("state", state)];
        self.judge(Call::ReceiverStart, answers[1], answers, lent);
        answers[1]
    }

    pub fn receiver_receive(
        &mut self,
        state: &mut Lent,
        packet: &mut Lent,
        store: &mut Lent,
    ) -> (u8, u8, u32) {
        let answers = [
            archive::receiver_receive(state.archives(), packet.archives(), store.archives()),
            mirror::receiver_receive(state.ours(), packet.ours(), store.ours()),
        ];
        let lent = &mut [("state", state), ("packet", packet), ("store", store)];
        let (refusal, event, remainder) = answers[1];
        self.judge(Call::ReceiverReceive, refusal, answers, lent);
        // What is broken may have another cause, and then 0.
        let is_due = event == BROKEN && remainder != 0;
        self.judge_remainder(Call::ReceiverReceive, is_due, remainder);
        if refusal == 0 {
            self.events[usize::from(event)] += 1;
        }
        answers[1]
    }

    pub fn receiver_hand_out(
        &mut self,
        state: &mut Lent,
        store: &mut Lent,
        out: &mut Lent,
        r: u8,
    ) -> (u8, usize) {
        let answers = [
            archive::receiver_hand_out(state.archives(), store.archives(), out.archives(), r),
            mirror::receiver_hand_out(state.ours(), store.ours(), out.ours(), r),
        ];
        let lent = &mut [("state", state), ("store", store), ("out", out)];
        self.judge(Call::ReceiverHandOut, answers[1].0, answers, lent);
        answers[1]
    }

    pub fn read_headers(&mut self, group: &mut Lent, asked: &Asked) -> (u8, u8, usize, u32) {
        let answers = [
            archive::read_headers(group.archives(), asked),
            mirror::read_headers(group.ours(), asked),
        ];
        let lent = &mut [("group", group)];
        let (refusal, _, _, remainder) = answers[1];
        self.judge(Call::ReadHeaders, refusal, answers, lent);
        self.judge_remainder(Call::ReadHeaders, refusal == WRONG_CRC, remainder);
        answers[1]
    }

    pub fn spread(
        &mut self,
        group: &mut Lent,
        stream: &mut Lent,
        asked: &Asked,
    ) -> (u8, usize, u32) {
        let answers = [
            archive::spread(group.archives(), stream.archives(), asked),
            mirror::spread(group.ours(), stream.ours(), asked),
        ];
        let lent = &mut [("group", group), ("stream", stream)];
        let (refusal, _, remainder) = answers[1];
        self.judge(Call::Spread, refusal, answers, lent);
        self.judge_remainder(Call::Spread, refusal == WRONG_CRC, remainder);
        answers[1]
    }

    pub fn gather(&mut self, group: &mut Lent, out: &mut Lent, asked: &Asked) -> (u8, usize, u32) {
        let answers = [
            archive::gather(group.archives(), out.archives(), asked),
            mirror::gather(group.ours(), out.ours(), asked),
        ];
        let lent = &mut [("group", group), ("out", out)];
        let (refusal, _, remainder) = answers[1];
        self.judge(Call::Gather, refusal, answers, lent);
        self.judge_remainder(Call::Gather, refusal == WRONG_CRC, remainder);
        answers[1]
    }
}
