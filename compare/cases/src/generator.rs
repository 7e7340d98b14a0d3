//! A generator small enough to be written again in any language.

pub struct Generator {
    state: u32,
}

impl Generator {
    pub fn new(state: u32) -> Self {
        Generator { state }
    }

    /// The high half of the state, whose low bits hardly vary.
    pub fn draw(&mut self) -> u16 {
        self.state = self
            .state
            .wrapping_mul(1_664_525)
            .wrapping_add(1_013_904_223);
        (self.state >> 16) as u16
    }

    pub fn below(&mut self, limit: u16) -> u16 {
        self.draw() % limit
    }

    /// A byte below a limit of at most 256.
    pub fn byte_below(&mut self, limit: u16) -> u8 {
        self.below(limit) as u8
    }

    pub fn fill(&mut self, bytes: &mut [u8], limit: u16) {
        for byte in bytes {
            *byte = self.byte_below(limit);
        }
    }
}
