//! Whole runs of a composer, with refused calls between the others, and its
//! states with bytes changed.

use crate::draw::faults::{change_bytes, spoil};
use crate::draw::packets::lent_stream;
use crate::draw::{good, kind, lent_setting, pid, plan, stream_number};
use board::coding::{kind_byte, setting_bytes, setting_of, COMPOSER_BYTES, OPEN_SETTING};
use board::judge::Judge;
use board::lent::Lent;
use board::random::Random;
use reference::{Kind, Setting, PACKET_BYTES};

struct Run {
    pid: u16,
    kind: Kind,
    state: Lent,
    frame: Lent,
    setting: Setting,
}

pub fn round(judge: &mut Judge, random: &mut Random) {
    let (pid, kind) = (pid(random), kind(random));
    let mut run = Run {
        pid,
        kind,
        state: Lent::new(&random.bytes(COMPOSER_BYTES)),
        frame: Lent::new(&random.bytes(kind.size().frame_bytes())),
        setting: good(random, kind),
    };
    let refusal = judge.composer_start(&mut run.state, pid, kind_byte(kind));
    assert_eq!(refusal, 0, "PID and kind are right");
    for number in 0..40 {
        run.compose(judge, random);
        let header = run.frame.bytes();
        assert_eq!(header[3] & 15, number % 16, "the counter counts");
    }
}

impl Run {
    fn compose(&mut self, judge: &mut Judge, random: &mut Random) {
        if random.one_in(3) {
            // 16, where nothing else is amiss.
            self.put(judge, random);
            judge.composer_close(&mut self.state, &mut self.frame);
            self.spoilt(judge, random);
        }
        self.change_setting(random);
        if random.one_in(4) {
            self.begin_spoilt(judge, random);
        }
        if random.one_in(6) {
            self.begin(judge);
            self.put(judge, random);
        }
        self.begin(judge);
        for _ in 0..random.between(3, 18) {
            self.put(judge, random);
        }
        for _ in 0..random.of(&[0, 2, 4]) {
            self.spoilt(judge, random);
        }
        let refusal = judge.composer_close(&mut self.state, &mut self.frame);
        assert_eq!(refusal, 0, "an open frame is closed");
    }

    /// So that the version rises or stays.
    fn change_setting(&mut self, random: &mut Random) {
        match random.below(6) {
            0 => self.setting = good(random, self.kind),
            1 => self.setting.emergency_indicator ^= 1,
            2 => {
                let stream = random.below(self.kind.size().streams);
                self.setting.receive_status[stream] = random.byte_below(4);
            }
            3 => (),
            _ => plan(random, self.kind, &mut self.setting),
        }
    }

    fn begin(&mut self, judge: &mut Judge) {
        let mut setting = lent_setting(&self.setting);
        let refusal = judge.composer_begin(&mut self.state, &mut self.frame, &mut setting);
        assert_eq!(refusal, 0, "a good setting begins");
    }

    /// With a fault that may not be one; a frame may be open from then on.
    fn begin_spoilt(&mut self, judge: &mut Judge, random: &mut Random) {
        let mut setting = self.setting.clone();
        for _ in 0..random.between(1, 2) {
            spoil(random, self.kind, &mut setting);
        }
        let mut setting = lent_setting(&setting);
        judge.composer_begin(&mut self.state, &mut self.frame, &mut setting);
    }

    fn put(&mut self, judge: &mut Judge, random: &mut Random) {
        let mut stream = Lent::new(&lent_stream(random, self.pid));
        let r = match random.below(4) {
            0 => random.byte_below(17),
            _ => stream_number(random, self.kind),
        };
        let (_, placed) = judge.composer_put(&mut self.state, &mut self.frame, &mut stream, r);
        let rest = judge.composer_rest(&mut stream, placed);
        assert_eq!(rest, stream.bytes().len() - PACKET_BYTES * placed);
    }

    /// All calls on a copy of the state with some of its bytes changed.
    fn spoilt(&self, judge: &mut Judge, random: &mut Random) {
        let state = self.spoilt_state(random);
        let mut stream = Lent::new(&lent_stream(random, self.pid));
        let mut setting = self.setting.clone();
        if random.one_in(3) {
            spoil(random, self.kind, &mut setting);
        }
        let mut setting = lent_setting(&setting);
        let again = || (Lent::new(&state), Lent::new(self.frame.bytes()));
        let (mut lent, mut frame) = again();
        judge.composer_begin(&mut lent, &mut frame, &mut setting);
        let (mut lent, mut frame) = again();
        let r = stream_number(random, self.kind);
        judge.composer_put(&mut lent, &mut frame, &mut stream, r);
        let (mut lent, mut frame) = again();
        judge.composer_close(&mut lent, &mut frame);
    }

    /// Faults of a setting reach deeper than any bytes.
    fn spoilt_state(&self, random: &mut Random) -> Vec<u8> {
        let mut state = self.state.bytes().to_vec();
        if random.one_in(3) {
            change_bytes(random, &mut state);
            return state;
        }
        let open = state[OPEN_SETTING].try_into().expect("it is as long");
        let mut setting = setting_of(open);
        spoil(random, self.kind, &mut setting);
        state[OPEN_SETTING].copy_from_slice(&setting_bytes(&setting));
        if random.one_in(6) {
            change_bytes(random, &mut state);
        }
        state
    }
}
