//! Answers as the tests write them, and the event that they all make.

use kelzoud::{Answer, Event, Name, Refusal};

pub fn drop(name: u32) -> Event {
    Event::Drop { name: Name(name) }
}

pub const fn made(name: u32) -> Answer {
    Answer::Allowed(Some(Name(name)))
}

pub const DONE: Answer = Answer::Allowed(None);

pub const fn refused(refusal: Refusal) -> Answer {
    Answer::Refused(refusal)
}
