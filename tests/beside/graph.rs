//! The graph of records that never collects: what every call but begin, step and count means.

use crate::lines::{Answer, Call, Refusal, Reply};

/// A record is named by its index in the row of records made; nil is `None`.
pub type Name = Option<usize>;

#[derive(Clone, PartialEq, Debug)]
pub struct Record {
    pub references: Vec<Name>,
    pub words: Vec<u32>,
}

#[derive(Clone)]
pub struct Event {
    pub time: u32,
    pub serial: u32,
    pub record: usize,
}

#[derive(Clone)]
pub struct Graph {
    pub records: Vec<Record>,
    pub places: Vec<Name>,
    pub events: Vec<Event>,
    pub most_events: usize,
    pub clock: u32,
    pub next_serial: u32,
}

impl Graph {
    pub fn new(places: usize, most_events: usize) -> Graph {
        Graph {
            records: Vec::new(),
            places: vec![None; places],
            events: Vec::new(),
            most_events,
            clock: 0,
            next_serial: 0,
        }
    }

    /// Answers a call. Begin, step and count are no calls here.
    pub fn perform(&mut self, call: &Call) -> Reply {
        match self.refusal(call) {
            Some(refusal) => Err(refusal),
            None => Ok(self.grant(call)),
        }
    }

    /// The first condition that refuses the call.
    pub fn refusal(&self, call: &Call) -> Option<Refusal> {
        if let Some(refusal) = call.input_refusal(self.places.len()) {
            return Some(refusal);
        }
        match *call {
            Call::Load { from, reference, .. } => self.without_reference(from, reference),
            Call::Store { into, reference, .. } => self.without_reference(into, reference),
            Call::Read { from, word } => self.without_word(from, word),
            Call::Write { into, word, .. } => self.without_word(into, word),
            Call::Shape { place } => self.without_record(place),
            Call::Schedule { time, place } => self.without_record(place).or_else(|| self.no_schedule(time)),
            Call::Next { .. } if self.events.is_empty() => Some(Refusal::NoEvent),
            Call::Begin | Call::Step { .. } | Call::Count => Some(Refusal::NoCall),
            _ => None,
        }
    }

    fn without_record(&self, place: u32) -> Option<Refusal> {
        self.places[place as usize].is_none().then_some(Refusal::Nil)
    }

    fn without_reference(&self, place: u32, reference: u32) -> Option<Refusal> {
        match self.places[place as usize] {
            None => Some(Refusal::Nil),
            Some(record) => {
                let count = self.records[record].references.len();
                (reference as usize >= count).then_some(Refusal::NoSuchReference)
            }
        }
    }

    fn without_word(&self, place: u32, word: u32) -> Option<Refusal> {
        match self.places[place as usize] {
            None => Some(Refusal::Nil),
            Some(record) => {
                let count = self.records[record].words.len();
                (word as usize >= count).then_some(Refusal::NoSuchWord)
            }
        }
    }

    fn no_schedule(&self, time: u32) -> Option<Refusal> {
        if self.events.len() == self.most_events {
            Some(Refusal::AgendaFull)
        } else if time < self.clock {
            Some(Refusal::TimePassed)
        } else if self.next_serial == u32::MAX {
            Some(Refusal::SerialsUsedUp)
        } else {
            None
        }
    }

    fn record(&mut self, place: u32) -> &mut Record {
        let record = self.places[place as usize].expect("a granted call has its record");
        &mut self.records[record]
    }

    /// Carries out a call that is not refused.
    pub fn grant(&mut self, call: &Call) -> Answer {
        match *call {
            Call::Read { from, word } => return Answer::Word(self.record(from).words[word as usize]),
            Call::Same { left, right } => {
                return Answer::Same(self.places[left as usize] == self.places[right as usize]);
            }
            Call::Shape { place } => {
                let record = self.record(place);
                let (references, words) = (record.references.len() as u32, record.words.len() as u32);
                return Answer::Shape { references, words };
            }
            Call::Next { into } => return self.take_first(into),
            Call::Make { place, references, words } => {
                self.places[place as usize] = Some(self.records.len());
                self.records
                    .push(Record { references: vec![None; references as usize], words: vec![0; words as usize] });
            }
            Call::Load { into, from, reference } => {
                self.places[into as usize] = self.record(from).references[reference as usize];
            }
            Call::Store { into, reference, from } => {
                let name = self.places[from as usize];
                self.record(into).references[reference as usize] = name;
            }
            Call::Write { into, word, value } => self.record(into).words[word as usize] = value,
            Call::Copy { into, from } => self.places[into as usize] = self.places[from as usize],
            Call::Clear { place } => self.places[place as usize] = None,
            Call::Schedule { time, place } => self.schedule(time, place),
            Call::Begin | Call::Step { .. } | Call::Count => {}
        }
        Answer::Done
    }

    fn schedule(&mut self, time: u32, place: u32) {
        let record = self.places[place as usize].expect("a granted call has its record");
        self.events.push(Event { time, serial: self.next_serial, record });
        self.next_serial += 1;
    }

    fn take_first(&mut self, into: u32) -> Answer {
        let first = (0..self.events.len())
            .min_by_key(|&index| (self.events[index].time, self.events[index].serial))
            .expect("a granted next has an event");
        let event = self.events.remove(first);
        self.places[into as usize] = Some(event.record);
        self.clock = event.time;
        Answer::Time(event.time)
    }

    /// For each record made, whether a place, an event or a reference of a reached record names it.
    pub fn reached(&self) -> Vec<bool> {
        let mut reached = vec![false; self.records.len()];
        let mut pending: Vec<usize> = self.places.iter().flatten().copied().collect();
        pending.extend(self.events.iter().map(|event| event.record));
        while let Some(record) = pending.pop() {
            if !reached[record] {
                reached[record] = true;
                pending.extend(self.records[record].references.iter().flatten());
            }
        }
        reached
    }
}
