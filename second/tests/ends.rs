//! The station ends: refusals 10 to 17 in their order, and a run of two stations by hand.

mod common;

use common::*;
use second::boundary::*;
use second::envelope::{name, write_envelope};
use second::program::{write_program, Program, Step};
use second::refusal::Refusal;

/// COUPON is at site 1 and WEIGH at site 2. COUPON < WEIGH on date, WEIGH < COUPON, and the first once more.
fn papers() -> (Vec<u8>, Vec<u8>) {
    let there = Step {
        left: name(0, 1),
        right: name(1, 1),
    };
    let back = Step {
        left: name(1, 1),
        right: name(0, 1),
    };
    let program = Program {
        site: 2,
        steps: vec![there, back, there],
    };
    (write_envelope(&same_day(1)), write_program(&program))
}

fn refusal(number: u32, with: u32) -> Taken {
    Err(Refusal { number, with })
}

struct Station {
    marks: Vec<u8>,
    state: Vec<u32>,
    store: Vec<u32>,
}

impl Station {
    fn open(site: u32) -> Station {
        let (envelope, program) = papers();
        let mut station = Station {
            marks: vec![9; 8],
            state: vec![2; 20],
            store: vec![7; 30],
        };
        let taken = open(
            &envelope,
            &program,
            site,
            5,
            &SAME_DAY_TABLES,
            &mut station.marks,
            &mut station.state,
        );
        assert_eq!(taken, Ok(0));
        station
    }

    fn values(&self, step: u32, room: &mut [u32]) -> Taken {
        let (envelope, program) = papers();
        make_values(
            &envelope,
            &program,
            &self.state,
            &SAME_DAY_TABLES,
            &self.marks,
            step,
            room,
        )
    }

    fn rows(&self, relation: u32, room: &mut [u32]) -> Taken {
        let (envelope, program) = papers();
        make_rows(
            &envelope,
            &program,
            &self.state,
            &SAME_DAY_TABLES,
            &self.marks,
            relation,
            room,
        )
    }

    fn receive(&mut self, message: &[u32]) -> Taken {
        let (envelope, program) = papers();
        let (state, marks) = (&mut self.state, &mut self.marks);
        receive(
            &envelope,
            &program,
            state,
            &SAME_DAY_TABLES,
            marks,
            &mut self.store,
            message,
        )
    }

    fn answer(&self, room: &mut [u32]) -> Taken {
        let (envelope, program) = papers();
        answer_at_end(&envelope, &program, &self.state, &self.store, room)
    }
}

#[test]
fn opening() {
    let station = Station::open(1);
    assert_eq!(station.marks, [1, 1, 1, 0, 0, 0, 0, 9]);
    // Applied words behind the last relation and words past 19 are left; arrived words are all of a new end.
    assert_eq!(
        station.state,
        [1, 5, 0, 0, 0, 2, 2, 2, 2, 2, 2, 0, 0, 0, 0, 0, 0, 0, 0, 2]
    );
    let (envelope, program) = papers();
    let attempt = |site, tables: &[u32], marks: usize, state: usize| {
        open(
            &envelope,
            &program,
            site,
            5,
            tables,
            &mut vec![0; marks],
            &mut vec![0; state],
        )
    };
    assert_eq!(attempt(8, &SAME_DAY_TABLES[..19], 7, 19), refusal(10, 0));
    assert_eq!(attempt(8, &SAME_DAY_TABLES, 6, 19), refusal(4, 0));
    assert_eq!(attempt(257, &SAME_DAY_TABLES, 7, 19), refusal(4, 0));
    assert_eq!(attempt(1, &SAME_DAY_TABLES, 6, 19), refusal(11, 0));
    assert_eq!(attempt(1, &SAME_DAY_TABLES, 7, 18), refusal(11, 0));
    assert_eq!(attempt(6, &SAME_DAY_TABLES, 7, 19), Ok(0));
}

#[test]
fn a_run_by_hand() {
    let (mut coupon, mut weigh) = (Station::open(1), Station::open(2));
    let mut room = [99; 12];
    assert_eq!(coupon.values(1, &mut room), refusal(12, 0));
    assert_eq!(weigh.values(2, &mut room), refusal(12, 1));
    assert_eq!(coupon.rows(0, &mut room), refusal(12, 0));
    assert_eq!(weigh.values(1, &mut room), refusal(14, 0));
    assert_eq!(weigh.values(3, &mut room), refusal(14, 0));
    assert_eq!(weigh.values(0, &mut room[..4]), refusal(11, 0));
    assert_eq!(room, [99; 12]);
    assert_eq!(weigh.values(0, &mut room), Ok(5));
    assert_eq!(room[..6], [5, 0, 2, 20, 22, 99]);
    assert_eq!(coupon.receive(&[5, 2, 1, 20]), refusal(17, 0));
    assert_eq!(coupon.receive(&room[..5]), Ok(0));
    assert_eq!(coupon.receive(&room[..5]), refusal(16, 0));
    assert_eq!(coupon.receive(&[5, 0, 2, 22, 20]), refusal(15, 0));
    assert_eq!(coupon.marks[..3], [1, 1, 0]);
    assert_eq!(coupon.values(1, &mut room), Ok(4));
    assert_eq!(weigh.receive(&room[..4]), Ok(0));
    assert_eq!(weigh.values(2, &mut room), Ok(4));
    assert_eq!(coupon.receive(&room[..4]), Ok(0));
    assert_eq!(coupon.rows(0, &mut room), Ok(7));
    assert_eq!(room[..7], [5, 256, 2, 11, 20, 12, 20]);
    assert_eq!(coupon.receive(&room[..7]), refusal(14, 0));
    let mut out = [99; 13];
    assert_eq!(weigh.answer(&mut out), refusal(12, 0));
    assert_eq!(coupon.answer(&mut out), refusal(14, 0));
    assert_eq!(weigh.receive(&room[..7]), Ok(0));
    assert_eq!(weigh.answer(&mut out), refusal(12, 1));
    assert_eq!(weigh.rows(1, &mut room), Ok(9));
    assert_eq!(weigh.receive(&room[..9]), Ok(0));
    assert_eq!(weigh.answer(&mut out[..11]), refusal(11, 0));
    assert_eq!(weigh.answer(&mut out), Ok(12));
    assert_eq!(out, [11, 5, 11, 7, 11, 7, 12, 5, 12, 7, 12, 7, 99]);
}

#[test]
fn receiving_refuses_in_order() {
    let mut weigh = Station::open(2);
    assert_eq!(weigh.receive(&[5, 256]), refusal(1, 0));
    assert_eq!(weigh.receive(&[6, 9, 9]), refusal(13, 0));
    assert_eq!(weigh.receive(&[5, 0, 9]), refusal(14, 0));
    assert_eq!(weigh.receive(&[5, 255, 0]), refusal(14, 0));
    assert_eq!(weigh.receive(&[5, 258, 0]), refusal(14, 0));
    assert_eq!(weigh.receive(&[5, 256, 0x8000_0000]), refusal(15, 0));
    assert_eq!(weigh.receive(&[5, 256, 1, 7]), refusal(15, 0));
    weigh.store.truncate(4);
    assert_eq!(weigh.receive(&[5, 256, 1, 7, 7]), refusal(11, 0));
    weigh.state[USED] = u32::MAX;
    assert_eq!(weigh.receive(&[5, 256, 0]), refusal(11, 0));
    weigh.state[USED] = 1;
    assert_eq!(weigh.receive(&[5, 256, 0]), Ok(0));
    assert_eq!(
        (weigh.state[USED], weigh.store.as_slice()),
        (4, [7, 5, 256, 0].as_slice())
    );
    weigh.store.clear();
    assert_eq!(weigh.receive(&[5, 256, 0]), refusal(16, 0));
}

#[test]
fn hostile_states() {
    let mut weigh = Station::open(2);
    weigh.state[APPLIED + 2] = 99;
    weigh.state[ARRIVED + 2] = 1;
    assert_eq!(weigh.answer(&mut []), refusal(12, 0));
    weigh.state[ARRIVED + 7] = 2;
    assert_eq!(weigh.answer(&mut []), refusal(4, 0));
    weigh.state[ARRIVED + 7] = 0;
    weigh.state[APPLIED + 1] = 2;
    assert_eq!(weigh.answer(&mut []), refusal(4, 0));
    weigh.state[APPLIED + 1] = 1;
    weigh.state[SITE] = 258;
    assert_eq!(weigh.answer(&mut []), refusal(14, 0));
    weigh.state.truncate(18);
    assert_eq!(weigh.answer(&mut []), refusal(11, 0));
}

#[test]
fn stores_that_are_not_sound() {
    let mut weigh = Station::open(2);
    let mut with = |store: &[u32], used: u32, arrived: [u32; 2]| {
        weigh.store = store.to_vec();
        weigh.state[USED] = used;
        weigh.state[ARRIVED..ARRIVED + 2].copy_from_slice(&arrived);
        weigh.answer(&mut [])
    };
    let both = [5, 257, 0, 5, 256, 1, 11, 20];
    assert_eq!(with(&both, 8, [1, 1]), Ok(0));
    assert_eq!(with(&both, 8, [1, 0]), refusal(15, 0));
    assert_eq!(with(&both, 3, [1, 1]), refusal(15, 0));
    assert_eq!(with(&both, 3, [0, 1]), refusal(12, 0));
    assert_eq!(with(&both, 9, [1, 1]), refusal(15, 0));
    assert_eq!(with(&both, 7, [1, 1]), refusal(15, 0));
    assert_eq!(with(&both, 0, [0, 0]), refusal(12, 0));
    assert_eq!(with(&[5, 257, 0, 5, 257, 0], 6, [0, 1]), refusal(15, 0));
    assert_eq!(with(&[6, 257, 0], 3, [0, 1]), refusal(15, 0));
    assert_eq!(with(&[5, 258, 0], 3, [0, 1]), refusal(15, 0));
}
