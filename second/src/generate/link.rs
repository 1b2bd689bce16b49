//! Whole runs over a link that loses, repeats, delays and reorders. When all row messages have got through,
//! the answer at the assembly site must be the answer on the original tables.

use crate::boundary::{APPLIED, ARRIVED};
use crate::calls::{Argument, Outcome, MAKE_ROWS, MAKE_VALUES};
use crate::generate::air::Air;
use crate::generate::hostile::changed_message;
use crate::generate::runs::Kind;
use crate::generate::scene::{with_room, with_short_room, Scene, Station};
use crate::generate::Record;
use crate::random::Random;
use Argument::{Bytes, Words};

struct Run<'a> {
    random: &'a mut Random,
    record: &'a mut Record,
    scene: &'a Scene,
    /// The station of each site that holds a relation.
    stations: Vec<(u32, Station)>,
    store: Vec<u32>,
    air: Air,
}

pub fn whole_run(random: &mut Random, record: &mut Record) {
    let scene = Scene::for_run(random);
    let mut run = Run::open(random, record, &scene);
    let opened = run.kept_at_home();
    let noise = run.random.below(12) + 2 * scene.envelope.relations.len() + 2 * scene.program.steps.len().min(20);
    for moment in 0..noise {
        // First more is made than heard, so that messages stand on the air beside each other.
        let weights = if moment < noise / 3 { [9, 3, 3, 1] } else { [4, 3, 8, 1] };
        run.something_happens(&weights);
    }
    run.finish();
    for _ in 0..run.random.below(4) {
        run.deliver_something();
    }
    run.check_answer();
    run.check_marks();
    run.count(&opened);
}

impl<'a> Run<'a> {
    fn open(random: &'a mut Random, record: &'a mut Record, scene: &'a Scene) -> Run<'a> {
        let number = random.pick(&[0, 1, 7, 0x8000_0000, u32::MAX]);
        let mut stations = Vec::new();
        for site in scene.envelope.sites() {
            let mut station = Station::unopened(random, scene, site);
            let call = scene.open(site, number, &station);
            let probes = random.below(3);
            let outcome = record.ask_and_probe(random, call, probes);
            station.take_back_opened(outcome);
            stations.push((site, station));
        }
        // As many words as all row messages can have, so that the run never lacks room.
        let rows = scene.tables.len() - scene.envelope.relations.len();
        let length = 3 * scene.envelope.relations.len() + rows + random.below(3);
        let store = random.words(length);
        Run {
            random,
            record,
            scene,
            stations,
            store,
            air: Air::default(),
        }
    }

    fn something_happens(&mut self, weights: &[usize]) {
        let relations = self.scene.envelope.relations.len();
        match self.random.weighted(weights) {
            0 => {
                let step = self.random.below(self.scene.program.steps.len() + 1);
                let place = self.maker_of_step(step);
                self.make(MAKE_VALUES, place, step as u32);
            }
            1 => {
                let relation = self.random.below(relations + 1);
                let place = self.maker_of_rows(relation);
                self.make(MAKE_ROWS, place, relation as u32);
            }
            2 => self.deliver_something(),
            _ => self.ask_answer(),
        }
    }

    /// The station that can make the message, mostly.
    fn maker_of_step(&mut self, step: usize) -> usize {
        match self.scene.program.steps.get(step) {
            Some(step) if self.random.chance(9, 10) => self.station_of(step.right.relation),
            _ => self.random.below(self.stations.len()),
        }
    }

    fn maker_of_rows(&mut self, relation: usize) -> usize {
        if relation < self.scene.envelope.relations.len() && self.random.chance(9, 10) {
            self.station_of(relation)
        } else {
            self.random.below(self.stations.len())
        }
    }

    fn station_of(&self, relation: usize) -> usize {
        self.station_at(self.scene.envelope.relations[relation].site)
    }

    fn station_at(&self, site: u32) -> usize {
        self.stations
            .iter()
            .position(|&(own, _)| own == site)
            .expect("every site with a relation has a station")
    }

    fn make(&mut self, number: u32, place: usize, named: u32) {
        let call = self.scene.make(number, &self.stations[place].1, named);
        if self.random.chance(1, 10) {
            let call = with_short_room(self.random, call.clone());
            self.record.ask(call);
        }
        let call = with_room(self.random, call);
        let probes = usize::from(self.random.chance(1, 3));
        let outcome = self.record.ask_and_probe(self.random, call, probes);
        if let (0, [Words(message)]) = (outcome.number, outcome.buffers.as_slice()) {
            self.air.send(message[..outcome.value as usize].to_vec());
        }
    }

    /// Any message on the air gets anywhere; it may be lost now, or stay to be heard again.
    fn deliver_something(&mut self) {
        if self.air.is_empty() {
            return;
        }
        let place = self.random.below(self.air.len());
        match self.random.weighted(&[2, 4, 6]) {
            0 => self.air.fade(place),
            1 => self.deliver(place),
            _ => {
                self.deliver(place);
                self.air.fade(place);
            }
        }
    }

    fn deliver(&mut self, message: usize) {
        let words = self.air.words(message).to_vec();
        let receiver = self.receiver(&words);
        let place = match self.random.chance(9, 10) {
            true => receiver,
            false => self.random.below(self.stations.len()),
        };
        if place == receiver {
            self.air.hear(message);
        }
        // The link never alters a message; what a stranger sends is only tried, and nobody goes on with it.
        if self.random.chance(1, 3) {
            let altered = changed_message(self.random, words.clone());
            let call = self.scene.receive(&self.stations[place].1, &self.store, &altered);
            self.record.ask(call);
        }
        let call = self.scene.receive(&self.stations[place].1, &self.store, &words);
        let probes = usize::from(self.random.chance(1, 3));
        let outcome = self.record.ask_and_probe(self.random, call, probes);
        self.store = self.stations[place].1.take_back_received(outcome);
    }

    fn receiver(&self, message: &[u32]) -> usize {
        match self.scene.program.steps.get(message[1] as usize) {
            Some(step) => self.station_of(step.left.relation),
            None => self.station_at(self.scene.program.site),
        }
    }

    fn ask_answer(&mut self) {
        let place = if self.random.chance(1, 8) {
            self.random.below(self.stations.len())
        } else {
            self.station_at(self.scene.program.site)
        };
        self.ask_answer_at(place);
    }

    fn ask_answer_at(&mut self, place: usize) -> Outcome {
        let call = self.scene.answer_at_end(&self.stations[place].1.state, &self.store);
        let call = with_room(self.random, call);
        self.record.ask_and_probe(self.random, call, 2)
    }

    /// Makes and delivers what is still missing, step by step.
    fn finish(&mut self) {
        for step in 0..self.scene.program.steps.len() {
            while !self.is_applied(step) {
                let maker = self.station_of(self.scene.program.steps[step].right.relation);
                self.make(MAKE_VALUES, maker, step as u32);
                self.deliver_newest();
            }
        }
        for relation in 0..self.scene.envelope.relations.len() {
            while !self.has_arrived(relation) {
                let maker = self.station_of(relation);
                self.make(MAKE_ROWS, maker, relation as u32);
                self.deliver_newest();
            }
        }
    }

    /// Mostly the newest message gets through at once; else it is lost, late, heard twice, or heard behind another.
    fn deliver_newest(&mut self) {
        let newest = self.air.len().checked_sub(1).expect("what is due can be made");
        match self.random.weighted(&[1, 1, 1, 1, 5]) {
            0 => return self.air.fade(newest),
            1 => return,
            2 => self.deliver(newest),
            3 => {
                let any = self.random.below(newest + 1);
                self.deliver(any);
            }
            _ => {}
        }
        self.deliver(newest);
    }

    fn is_applied(&self, step: usize) -> bool {
        let relation = self.scene.program.steps[step].left.relation;
        let place = self
            .scene
            .program
            .steps_of(relation)
            .iter()
            .position(|&own| own == step);
        let state = &self.stations[self.station_of(relation)].1.state;
        place.expect("a step of its left relation") < state[APPLIED + relation] as usize
    }

    fn has_arrived(&self, relation: usize) -> bool {
        self.stations[self.station_at(self.scene.program.site)].1.state[ARRIVED + relation] == 1
    }

    /// Demand 3: the same answer rows in the same order.
    fn check_answer(&mut self) {
        let at_end = self.ask_answer_at(self.station_at(self.scene.program.site));
        let call = with_room(self.random, self.scene.answer());
        let on_tables = self.record.ask(call);
        assert_eq!(
            written(&at_end),
            written(&on_tables),
            "the answer at the end is not that on the tables"
        );
        let words = written(&at_end).map_or(0, |words| words.len());
        self.air.met.note_answer(self.scene, words);
    }

    /// Demand 3: no row stays that the one-place run would have removed.
    fn check_marks(&mut self) {
        let marks = vec![9; self.scene.row_count(&self.scene.tables)];
        let outcome = self.record.ask(self.scene.run_in_one_place(marks));
        let [Bytes(together)] = outcome.buffers.as_slice() else {
            unreachable!("a one-place run has marks")
        };
        let kept = self.kept_at_home();
        assert!(
            kept.iter().zip(together).all(|(&kept, &mark)| !kept || mark != 0),
            "a removed row was kept at its end"
        );
    }

    /// For each row, in the order of the tables, whether its own station keeps it.
    fn kept_at_home(&self) -> Vec<bool> {
        let mut kept = Vec::new();
        for relation in 0..self.scene.envelope.relations.len() {
            let station = &self.stations[self.station_of(relation)].1;
            let first = self.scene.first_mark(&station.tables, relation);
            let rows = self.scene.tables[relation] as usize;
            kept.extend(station.marks[first..first + rows].iter().map(|&mark| mark != 0));
        }
        kept
    }

    fn count(&mut self, opened: &[bool]) {
        let kept = self.kept_at_home();
        let removed = opened.iter().zip(&kept).any(|(&before, &after)| before && !after);
        let met = &mut self.air.met;
        met.note_steps(self.scene);
        met.note(Kind::RowsRemoved, removed && kept.contains(&true));
        self.record.whole_runs.count(met);
    }
}

/// The words of an answer that was given.
fn written(outcome: &Outcome) -> Option<Vec<u32>> {
    match (outcome.number, outcome.buffers.as_slice()) {
        (0, [Words(room)]) => Some(room[..outcome.value as usize].to_vec()),
        _ => None,
    }
}
