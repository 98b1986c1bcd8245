//! The plain keeper is that of documents 01 and 02: the driver of `tests/reference` finds no difference.

use bench::plain::{Answer, Plain, LARGEST_IMAGE};
use bench::work::sitting;
use role_reference::compare::{run, Keeper};
use role_reference::random::printed_seed;

const CALLS: usize = 100_000;
const IMAGES: usize = 20_000;

struct Compared(Plain);

impl Keeper for Compared {
    fn fresh() -> Compared {
        Compared(Plain::fresh())
    }

    fn call(&mut self, record: &[u8]) -> (u8, u8) {
        let answer = self.0.call(record);
        (answer.number, answer.place)
    }

    fn save(&self) -> Vec<u8> {
        let mut buffer = vec![0; LARGEST_IMAGE];
        let length = self.0.save(&mut buffer).expect("every image fits");
        buffer.truncate(length);
        buffer
    }

    fn load(&mut self, bytes: &[u8]) -> u8 {
        self.0.load(bytes).err().unwrap_or(0)
    }

    fn roles(&self) -> u64 {
        self.0.roles()
    }

    fn set(&self, role: u8) -> u64 {
        self.0.set(role)
    }

    fn direct(&self, role: u8) -> u64 {
        self.0.direct(role)
    }

    fn juniors(&self, role: u8) -> u64 {
        self.0.juniors(role)
    }

    fn conflict(&self, privilege: u8) -> u64 {
        self.0.conflict(privilege)
    }

    fn seat(&self, seat: u8) -> u64 {
        self.0.seat(seat)
    }

    fn pairs(&self, role: u8) -> u64 {
        self.0.pairs(role)
    }

    fn active(&self, seat: u8) -> u64 {
        self.0.active(seat)
    }

    fn edge_count(&self) -> u64 {
        self.0.edge_count()
    }

    fn ask(&self, seat: u8, privilege: u8) -> (u8, u8) {
        let answer = self.0.ask(seat, privilege);
        (answer.number, answer.place)
    }

    fn question(&self, seat: u8, privilege: u8) -> (u8, u8) {
        let answer = self.0.ask_active(seat, privilege);
        (answer.number, answer.place)
    }

    fn save_into(&self, buffer: &mut [u8]) -> (u8, usize) {
        match self.0.save(buffer) {
            Ok(length) => (0, length),
            Err(number) => (number, 0),
        }
    }
}

#[test]
fn plain_keeper_agrees_with_the_reference() {
    let counts = run::<Compared>(printed_seed(), CALLS, IMAGES);
    let counts = counts.unwrap_or_else(|failure| panic!("{failure}"));
    println!("{counts}");
    assert!(counts.calls >= CALLS && counts.images >= IMAGES);
}

#[test]
fn may_is_the_yes_of_an_ask() {
    const YES: Answer = Answer {
        number: 0,
        place: 1,
    };
    let state = sitting();
    for (seat, privilege) in (0..300).flat_map(|seat| (0..300).map(move |other| (seat, other))) {
        let (may, may_active) = (
            state.may(seat, privilege),
            state.may_active(seat, privilege),
        );
        let (ask, ask_active) = match (u8::try_from(seat), u8::try_from(privilege)) {
            (Ok(a), Ok(b)) => (state.ask(a, b) == YES, state.ask_active(a, b) == YES),
            _ => (false, false),
        };
        assert_eq!((may, may_active), (ask, ask_active), "{seat}, {privilege}");
    }
}
