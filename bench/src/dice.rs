// A small generator of numbers, the same on each run and in both languages.
pub struct Dice(u64);

impl Dice {
    pub fn new(state: u64) -> Dice {
        Dice(state)
    }

    // The next state.
    pub fn roll(&mut self) -> u64 {
        self.0 = self
            .0
            .wrapping_mul(6_364_136_223_846_793_005)
            .wrapping_add(1_442_695_040_888_963_407);
        self.0
    }

    // A number below `n`.
    pub fn below(&mut self, n: u64) -> u64 {
        (self.roll() >> 33) % n
    }
}
