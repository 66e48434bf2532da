//! The baseline for timing: the same calls on vectors, a whole collection at each begin, and an idle step.
//! Only measured, never a test: it refuses nothing for want of room, and step and count answer their own numbers.

#[allow(dead_code)]
#[path = "../tests/beside/lines.rs"]
mod lines;

use lines::{Answer, Call, Refusal, Reply};
use std::io::{Read, Write};

const PLACES: usize = 32;
const MOST_EVENTS: usize = 64;
/// The name of no record.
const NIL: usize = usize::MAX;

struct Record {
    references: Vec<usize>,
    words: Vec<u32>,
    marked: bool,
    free: bool,
}

struct Event {
    time: u32,
    serial: u32,
    record: usize,
}

struct Plain {
    records: Vec<Record>,
    free: Vec<usize>,
    places: Vec<usize>,
    /// The first event is last.
    events: Vec<Event>,
    clock: u32,
    next_serial: u32,
}

impl Plain {
    fn new() -> Plain {
        Plain {
            records: Vec::new(),
            free: Vec::new(),
            places: vec![NIL; PLACES],
            events: Vec::new(),
            clock: 0,
            next_serial: 0,
        }
    }

    fn perform(&mut self, call: &Call) -> Reply {
        if let Some(refusal) = call.input_refusal(PLACES) {
            return Err(refusal);
        }
        match *call {
            Call::Make { place, references, words } => {
                self.places[place as usize] = self.make(references as usize, words as usize);
            }
            Call::Load { into, from, reference } => self.places[into as usize] = *self.reference(from, reference)?,
            Call::Store { into, reference, from } => {
                let name = self.places[from as usize];
                *self.reference(into, reference)? = name;
            }
            Call::Read { from, word } => return self.word(from, word).map(|word| Answer::Word(*word)),
            Call::Write { into, word, value } => *self.word(into, word)? = value,
            Call::Copy { into, from } => self.places[into as usize] = self.places[from as usize],
            Call::Clear { place } => self.places[place as usize] = NIL,
            Call::Same { left, right } => {
                return Ok(Answer::Same(self.places[left as usize] == self.places[right as usize]));
            }
            Call::Shape { place } => {
                let record = self.record(place)?;
                let (references, words) = (record.references.len() as u32, record.words.len() as u32);
                return Ok(Answer::Shape { references, words });
            }
            Call::Schedule { time, place } => self.schedule(time, place)?,
            Call::Next { into } => return self.next(into),
            Call::Begin => self.collect(),
            Call::Step { .. } => return Ok(Answer::Progress { done: 0, total: 0, unfinished: false }),
            Call::Count => return Ok(self.count()),
        }
        Ok(Answer::Done)
    }

    fn reference(&mut self, place: u32, reference: u32) -> Result<&mut usize, Refusal> {
        self.record(place)?.references.get_mut(reference as usize).ok_or(Refusal::NoSuchReference)
    }

    fn word(&mut self, place: u32, word: u32) -> Result<&mut u32, Refusal> {
        self.record(place)?.words.get_mut(word as usize).ok_or(Refusal::NoSuchWord)
    }

    fn next(&mut self, into: u32) -> Reply {
        let event = self.events.pop().ok_or(Refusal::NoEvent)?;
        self.places[into as usize] = event.record;
        self.clock = event.time;
        Ok(Answer::Time(event.time))
    }

    fn count(&self) -> Answer {
        let current = (self.records.len() - self.free.len()) as u32;
        Answer::Counts { current, husks: 0, uncut: 0, closed: 0 }
    }

    fn record(&mut self, place: u32) -> Result<&mut Record, Refusal> {
        self.records.get_mut(self.places[place as usize]).ok_or(Refusal::Nil)
    }

    fn make(&mut self, references: usize, words: usize) -> usize {
        let record = Record { references: vec![NIL; references], words: vec![0; words], marked: false, free: false };
        match self.free.pop() {
            Some(name) => {
                self.records[name] = record;
                name
            }
            None => {
                self.records.push(record);
                self.records.len() - 1
            }
        }
    }

    fn schedule(&mut self, time: u32, place: u32) -> Result<(), Refusal> {
        let record = self.places[place as usize];
        if record == NIL {
            return Err(Refusal::Nil);
        }
        if self.events.len() == MOST_EVENTS {
            return Err(Refusal::AgendaFull);
        }
        if time < self.clock {
            return Err(Refusal::TimePassed);
        }
        let serial = self.next_serial;
        self.next_serial = serial.checked_add(1).ok_or(Refusal::SerialsUsedUp)?;
        let later = self.events.partition_point(|event| (event.time, event.serial) > (time, serial));
        self.events.insert(later, Event { time, serial, record });
        Ok(())
    }

    fn collect(&mut self) {
        let mut pending: Vec<usize> = self.places.clone();
        pending.extend(self.events.iter().map(|event| event.record));
        while let Some(name) = pending.pop() {
            if let Some(record) = self.records.get_mut(name).filter(|record| !record.marked) {
                record.marked = true;
                pending.extend_from_slice(&record.references);
            }
        }
        for (name, record) in self.records.iter_mut().enumerate() {
            if !record.marked && !record.free {
                record.free = true;
                self.free.push(name);
            }
            record.marked = false;
        }
    }
}

fn main() -> std::io::Result<()> {
    let mut input = Vec::new();
    std::io::stdin().read_to_end(&mut input)?;
    let mut plain = Plain::new();
    let output = lines::run_script(&input, |call| plain.perform(call));
    std::io::stdout().write_all(&output)
}
