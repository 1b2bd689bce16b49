//! The air between the stations: a message on it can be heard late, again, or never.

use crate::generate::runs::{Kind, Met};

struct Message {
    words: Vec<u32>,
    /// Messages are numbered as they are made.
    number: usize,
    /// Its receiver has heard it.
    heard: bool,
}

#[derive(Default)]
pub struct Air {
    messages: Vec<Message>,
    made: usize,
    /// The highest number of a message that its receiver has heard.
    latest_heard: usize,
    pub met: Met,
}

impl Air {
    pub fn send(&mut self, words: Vec<u32>) {
        self.made += 1;
        self.messages.push(Message {
            words,
            number: self.made,
            heard: false,
        });
    }

    pub fn is_empty(&self) -> bool {
        self.messages.is_empty()
    }

    pub fn len(&self) -> usize {
        self.messages.len()
    }

    pub fn words(&self, place: usize) -> &[u32] {
        &self.messages[place].words
    }

    /// The message's receiver hears it.
    pub fn hear(&mut self, place: usize) {
        let message = &mut self.messages[place];
        self.met.note(Kind::Repeated, message.heard);
        self.met
            .note(Kind::Reordered, !message.heard && message.number < self.latest_heard);
        message.heard = true;
        self.latest_heard = self.latest_heard.max(message.number);
    }

    /// The message is on the air no more.
    pub fn fade(&mut self, place: usize) {
        let message = self.messages.swap_remove(place);
        self.met.note(Kind::Lost, !message.heard);
    }
}
