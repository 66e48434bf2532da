//! Writes a script of one kind to standard output: `generate KIND SEED LINES`.
//! It runs the store along with the script, so that most calls are granted and every phase is met.

#[allow(dead_code)]
mod lines;
#[allow(dead_code)]
mod store;

use lines::{Call, Line};
use std::io::Write;
use std::process::ExitCode;
use store::{Block, Phase, Store};

const PLACES: u32 = 32;
const EVENTS: usize = 64;
/// Hubs are records of 30 references in the lowest places; each of their references heads a list of records.
const HUBS: u32 = 16;
const HUB_REFERENCES: u32 = 30;
/// Places for passing records on, and one that stays nil.
const HAND: u32 = 20;
const OTHER_HAND: u32 = 21;
const NIL_PLACE: u32 = 31;

/// A splitmix generator.
struct Random(u64);

impl Random {
    fn next(&mut self) -> u64 {
        self.0 = self.0.wrapping_add(0x9e37_79b9_7f4a_7c15);
        let mut mixed = self.0;
        mixed = (mixed ^ (mixed >> 30)).wrapping_mul(0xbf58_476d_1ce4_e5b9);
        mixed = (mixed ^ (mixed >> 27)).wrapping_mul(0x94d0_49bb_1331_11eb);
        mixed ^ (mixed >> 31)
    }

    fn below(&mut self, bound: u32) -> u32 {
        (self.next() % bound as u64) as u32
    }

    /// From the least to the most, both included.
    fn between(&mut self, least: u32, most: u32) -> u32 {
        least + self.below(most - least + 1)
    }

    fn percent(&mut self, chance: u32) -> bool {
        self.below(100) < chance
    }

    fn pick<T: Copy>(&mut self, row: &[T]) -> T {
        row[self.below(row.len() as u32) as usize]
    }
}

struct Generator {
    random: Random,
    store: Store,
    script: Vec<u8>,
    lines_left: usize,
    /// Routine calls use places below this.
    places_in_use: u32,
    /// Routine calls make records of at most so many references and words together.
    largest: u32,
}

// Lines.
impl Generator {
    fn new(seed: u64, lines: usize) -> Generator {
        Generator {
            random: Random(seed),
            store: Store::new(PLACES as usize, EVENTS),
            script: Vec::new(),
            lines_left: lines,
            places_in_use: PLACES,
            largest: 30,
        }
    }

    fn done(&self) -> bool {
        self.lines_left == 0
    }

    /// Adds a line, and runs it if it is a call.
    fn line(&mut self, line: &[u8]) {
        if self.done() {
            return;
        }
        self.lines_left -= 1;
        if let Line::Call(call) = lines::read_line(line) {
            let _ = self.store.perform(&call);
        }
        self.script.extend_from_slice(line);
        self.script.push(b'\n');
    }

    fn call(&mut self, call: Call) {
        self.line(&spelled(&call));
    }

    fn remark(&mut self) {
        let length = self.random.below(40) as usize;
        let mut line = b"# ".to_vec();
        line.extend((0..length).map(|_| self.random.between(32, 126) as u8));
        self.line(&line);
    }
}

/// A call as its line.
fn spelled(call: &Call) -> Vec<u8> {
    let numbers = match *call {
        Call::Make { place, references, words } => vec![place, references, words],
        Call::Load { into, from, reference } => vec![into, from, reference],
        Call::Store { into, reference, from } => vec![into, reference, from],
        Call::Read { from, word } => vec![from, word],
        Call::Write { into, word, value } => vec![into, word, value],
        Call::Copy { into, from } => vec![into, from],
        Call::Clear { place } => vec![place],
        Call::Same { left, right } => vec![left, right],
        Call::Shape { place } => vec![place],
        Call::Schedule { time, place } => vec![time, place],
        Call::Next { into } => vec![into],
        Call::Begin | Call::Count => vec![],
        Call::Step { units } => vec![units],
    };
    let mut line = call.letter().to_string();
    for number in numbers {
        line.push_str(&format!("\t{number}"));
    }
    line.into_bytes()
}

// Numbers that mostly fit the state.
impl Generator {
    fn any_place(&mut self) -> u32 {
        if self.random.percent(1) {
            return self.random.pick(&[32, 33, 64, 95, 96, 4294967295]);
        }
        self.random.below(self.places_in_use)
    }

    /// A place whose record is of the wanted sort, as a rule.
    fn place_with(&mut self, wanted: impl Fn(&Block) -> bool) -> u32 {
        let fits = |&place: &u32| self.store.record(place).is_some_and(&wanted);
        let fitting: Vec<u32> = (0..self.places_in_use).filter(fits).collect();
        if fitting.is_empty() || self.random.percent(3) {
            return self.any_place();
        }
        self.random.pick(&fitting)
    }

    fn record_place(&mut self) -> u32 {
        self.place_with(|_| true)
    }

    /// An index into a row, as a rule within it.
    fn index(&mut self, length: u32) -> u32 {
        if length == 0 || self.random.percent(3) {
            return self.random.pick(&[length, length, length + 1, 31, 4294967295]);
        }
        self.random.below(length)
    }

    /// A place and a reference of its record.
    fn reference(&mut self) -> (u32, u32) {
        let place = self.place_with(|block| !block.references.is_empty());
        let block = if place < PLACES { self.store.record(place) } else { None };
        let references = block.map_or(0, |block| block.references.len() as u32);
        (place, self.index(references))
    }

    /// A place and a word of its record.
    fn word(&mut self) -> (u32, u32) {
        let place = self.place_with(|block| !block.words.is_empty());
        let block = if place < PLACES { self.store.record(place) } else { None };
        let words = block.map_or(0, |block| block.words.len() as u32);
        (place, self.index(words))
    }

    fn shape(&mut self) -> (u32, u32) {
        if self.random.percent(2) {
            return self.random.pick(&[(30, 1), (4294967295, 1), (0, 31), (31, 0), (4294967295, 4294967295), (15, 16)]);
        }
        let together = self.random.between(0, self.largest);
        let references = self.random.between(0, together);
        (references, together - references)
    }

    fn value(&mut self) -> u32 {
        if self.random.percent(10) {
            return self.random.pick(&[0, 4294967295, 4294967294, 2147483648]);
        }
        self.random.next() as u32 >> self.random.below(32)
    }

    /// A time at or a little after the clock, as a rule, so that times are often equal.
    fn time(&mut self) -> u32 {
        let clock = self.store.clock;
        if self.random.percent(4) {
            return clock.saturating_sub(self.random.between(1, 3));
        }
        let later = self.random.below(6);
        clock.saturating_add(later)
    }
}

// Routine calls.
impl Generator {
    /// A call on records: any but those on events and collections.
    fn record_call(&mut self) {
        let call = match self.random.below(16) {
            0..=2 => {
                let (references, words) = self.shape();
                Call::Make { place: self.any_place(), references, words }
            }
            3 | 4 => {
                let (from, reference) = self.reference();
                Call::Load { into: self.any_place(), from, reference }
            }
            5..=7 => {
                let (into, reference) = self.reference();
                let from = if self.random.percent(90) { self.record_place() } else { self.any_place() };
                Call::Store { into, reference, from }
            }
            8 => {
                let (from, word) = self.word();
                Call::Read { from, word }
            }
            9 | 10 => {
                let (into, word) = self.word();
                Call::Write { into, word, value: self.value() }
            }
            11 | 12 => {
                let from = if self.random.percent(90) { self.record_place() } else { self.any_place() };
                Call::Copy { into: self.any_place(), from }
            }
            13 => Call::Clear { place: self.any_place() },
            14 => Call::Same { left: self.record_place(), right: self.record_place() },
            _ => Call::Shape { place: self.record_place() },
        };
        self.call(call);
    }

    fn event_call(&mut self) {
        let call = if self.store.keys.iter().flatten().count() > 2 && self.random.percent(50) || self.random.percent(3)
        {
            Call::Next { into: self.any_place() }
        } else {
            Call::Schedule { time: self.time(), place: self.record_place() }
        };
        self.call(call);
    }

    /// Begin, step or count, with a step of at most so many units.
    fn collection_call(&mut self, most: u32) {
        let odd = self.random.percent(4);
        let call = match self.random.below(8) {
            0 => Call::Count,
            _ if (self.store.phase == Phase::Idle) != odd => Call::Begin,
            _ => Call::Step { units: self.random.between(0, most) },
        };
        self.call(call);
    }

    fn routine_call(&mut self, most_units: u32) {
        match self.random.below(20) {
            0..=12 => self.record_call(),
            13..=15 => self.event_call(),
            16..=18 => self.collection_call(most_units),
            _ => self.remark(),
        }
    }
}

// The kinds.
impl Generator {
    /// Few records in few places.
    fn few(&mut self) {
        (self.places_in_use, self.largest) = (self.random.between(2, 6), self.random.between(1, 4));
        while !self.done() {
            self.routine_call(200);
        }
    }

    /// Small steps between all calls.
    fn steps(&mut self) {
        self.places_in_use = self.random.between(4, 32);
        self.largest = self.random.between(2, 30);
        while !self.done() {
            self.routine_call(3);
            self.collection_call(3);
        }
    }

    /// Many events: a few records, the agenda filled and emptied in turn.
    fn events(&mut self) {
        self.places_in_use = self.random.between(3, 12);
        while !self.done() {
            let filling = self.random.percent(50);
            for _ in 0..self.random.between(10, 90) {
                match self.random.below(10) {
                    0 => self.record_call(),
                    1 => self.collection_call(40),
                    _ if filling || self.random.percent(10) => {
                        let call = Call::Schedule { time: self.time(), place: self.record_place() };
                        self.call(call);
                    }
                    _ => {
                        let into = self.any_place();
                        self.call(Call::Next { into });
                    }
                }
            }
        }
    }

    /// A store filled with records of few classes, thinned and collected, over and over.
    fn full(&mut self) {
        let shapes: Vec<(u32, u32)> = (0..self.random.between(1, 3)).map(|_| self.large_shape()).collect();
        self.make_hubs();
        while !self.done() {
            self.fill(&shapes);
            self.thin();
            self.hold_some();
            self.collect_among_calls(&shapes);
            if self.random.percent(50) {
                self.look_around();
            }
            self.collect_among_calls(&shapes);
            self.look_around();
        }
    }

    /// Mostly larger records, so that the store fills soon; each has a reference for its list.
    fn large_shape(&mut self) -> (u32, u32) {
        let least = self.random.pick(&[10, 16, 22, 26]);
        let together = self.random.between(least, 30);
        let references = self.random.between(1, 3);
        (references, together - references)
    }

    fn make_hubs(&mut self) {
        for place in 0..HUBS {
            self.call(Call::Make { place, references: HUB_REFERENCES, words: 0 });
        }
    }

    /// A new record in hand.
    fn make_in_hand(&mut self, (references, words): (u32, u32)) {
        self.call(Call::Make { place: HAND, references, words });
        if words > 0 && self.random.percent(10) {
            let (word, value) = (self.random.below(words), self.value());
            self.call(Call::Write { into: HAND, word, value });
        }
    }

    /// Puts the record in hand at the head of the list of some hub's reference, or in its stead.
    fn keep_in_hub(&mut self) {
        let (hub, reference) = (self.random.below(HUBS), self.random.below(HUB_REFERENCES));
        let listed = self.store.record(hub).and_then(|block| block.references.get(reference as usize));
        if listed.is_some_and(|&number| number != 0) && self.random.percent(80) {
            self.call(Call::Load { into: OTHER_HAND, from: hub, reference });
            self.call(Call::Store { into: HAND, reference: 0, from: OTHER_HAND });
        }
        self.call(Call::Store { into: hub, reference, from: HAND });
    }

    /// Until few pages are uncut or none is left; then, at times, until a make is refused.
    fn fill(&mut self, shapes: &[(u32, u32)]) {
        let enough = self.random.pick(&[0, 0, 5, 10, 15]);
        let kept = self.random.pick(&[25, 50, 90]);
        while !self.done() && self.store.uncut_pages() > enough {
            let shape = self.random.pick(shapes);
            self.make_in_hand(shape);
            if self.random.percent(kept) {
                self.keep_in_hub();
            }
            if self.random.percent(4) {
                self.full_call(shapes);
            }
        }
        if enough == 0 {
            for _ in 0..self.random.between(1, 12) {
                let shape = self.random.pick(shapes);
                self.make_in_hand(shape);
            }
        }
    }

    /// Drops a share of the lists, or cuts the first record out of one.
    fn thin(&mut self) {
        let share = self.random.between(5, 40);
        for hub in 0..HUBS {
            for reference in 0..HUB_REFERENCES {
                if !self.random.percent(share) {
                    continue;
                }
                if self.random.percent(60) {
                    self.call(Call::Store { into: hub, reference, from: NIL_PLACE });
                } else {
                    self.call(Call::Load { into: HAND, from: hub, reference });
                    self.call(Call::Load { into: HAND, from: HAND, reference: 0 });
                    self.call(Call::Store { into: hub, reference, from: HAND });
                }
            }
        }
    }

    /// One collection in steps, with calls between them; in moving, at times, records of the class being moved.
    fn collect_among_calls(&mut self, shapes: &[(u32, u32)]) {
        self.call(Call::Begin);
        let most = self.random.pick(&[5, 30, 100, 400]);
        let slow = self.random.percent(50);
        while !self.done() && self.store.phase != Phase::Idle {
            let rooting = matches!(self.store.phase, Phase::Roots { .. });
            let moving = matches!(self.store.phase, Phase::Moving { source: Some(_), .. });
            let most = if slow && (rooting || moving) { 6 } else { most };
            let units = self.random.between(1, most);
            self.call(Call::Step { units });
            for _ in 0..self.random.below(3) {
                self.full_call(shapes);
            }
            if slow {
                self.pass_the_cursor();
                self.crowd_out();
            }
        }
        self.call(Call::Count);
    }

    /// Takes records of the hubs into places and events, where they stay while blocks are moved.
    fn hold_some(&mut self) {
        for place in OTHER_HAND + 1..NIL_PLACE {
            let (hub, reference) = (self.random.below(HUBS), self.random.below(HUB_REFERENCES));
            self.call(Call::Load { into: place, from: hub, reference });
            if self.random.percent(40) {
                let time = self.time();
                self.call(Call::Schedule { time, place });
            }
        }
    }

    /// While roots are taken: records go from roots still to come to where the collector has been.
    fn pass_the_cursor(&mut self) {
        let Phase::Roots { next } = self.store.phase else {
            return;
        };
        let next = next as u32;
        if next <= HUBS {
            return;
        }
        let taken = self.random.between(HUBS, (next - 1).min(HAND - 1));
        match (self.random.below(3), self.place_to_come(next)) {
            (0, _) | (_, None) => self.call(Call::Next { into: taken }),
            (1, Some(from)) => {
                self.call(Call::Copy { into: taken, from });
                self.call(Call::Clear { place: from });
            }
            (_, Some(from)) => {
                self.call(Call::Make { place: taken, references: 1, words: 0 });
                self.call(Call::Store { into: taken, reference: 0, from });
                self.call(Call::Clear { place: from });
            }
        }
    }

    /// A place that the collector has still to take; one with the number of a husk, if there is any.
    fn place_to_come(&mut self, next: u32) -> Option<u32> {
        let to_come: Vec<u32> = (next..NIL_PLACE).filter(|&place| self.store.in_place(place) != 0).collect();
        let husk = |&place: &u32| self.store.holder[place as usize] != self.store.in_place(place);
        let husks: Vec<u32> = to_come.iter().copied().filter(husk).collect();
        match (to_come.is_empty(), husks.is_empty()) {
            (true, _) => None,
            (false, true) => Some(self.random.pick(&to_come)),
            (false, false) => Some(self.random.pick(&husks)),
        }
    }

    /// Looks at the records in places, and asks whether they are those that the hubs name.
    fn look_around(&mut self) {
        for place in HUBS..NIL_PLACE {
            let form = self.store.in_place(place);
            if form == 0 {
                continue;
            }
            self.call(Call::Shape { place });
            if let Some((hub, reference)) = self.named_by_hub(form) {
                self.call(Call::Load { into: OTHER_HAND, from: hub, reference });
                self.call(Call::Same { left: place, right: OTHER_HAND });
            } else {
                self.call(Call::Load { into: OTHER_HAND, from: place, reference: 0 });
                self.call(Call::Shape { place: OTHER_HAND });
            }
        }
    }

    /// A hub and its reference that stands for the record of a current block.
    fn named_by_hub(&self, form: u32) -> Option<(u32, u32)> {
        (0..HUBS).find_map(|hub| {
            let references = &self.store.record(hub)?.references;
            let found = references.iter().position(|&number| self.store.current_form(number) == form)?;
            Some((hub, found as u32))
        })
    }

    /// A call that fits a full store: it leaves hubs in place.
    fn full_call(&mut self, shapes: &[(u32, u32)]) {
        let hub = self.random.below(HUBS);
        let reference = self.random.below(HUB_REFERENCES);
        let place = self.random.between(HUBS, NIL_PLACE - 1);
        match self.random.below(10) {
            0 | 1 => {
                let shape = self.random.pick(shapes);
                self.make_in_hand(shape);
                self.keep_in_hub();
            }
            2 | 3 => self.call(Call::Load { into: place, from: hub, reference }),
            4 => self.call(Call::Store { into: hub, reference, from: place }),
            5 => {
                let (from, reference) = self.reference();
                self.call(Call::Load { into: place, from, reference });
            }
            6 => {
                let (left, right) = (self.record_place(), self.record_place());
                self.call(Call::Same { left, right });
            }
            7 => {
                let (from, word) = self.word();
                self.call(Call::Read { from, word });
            }
            8 if self.random.percent(50) => {
                let (time, place) = (self.time(), self.record_place());
                self.call(Call::Schedule { time, place });
            }
            8 => self.call(Call::Next { into: place }),
            _ => self.call(Call::Clear { place }),
        }
    }

    /// While blocks are moved out of a source: makes that take the free blocks of its class.
    fn crowd_out(&mut self) {
        let Phase::Moving { class_index, source: Some(_), .. } = self.store.phase else {
            return;
        };
        let class = self.store.classes[class_index] as u32;
        let most = self.random.pick(&[1, 4, 24]);
        for _ in 0..self.random.below(most + 1) {
            let free = self.store.room(class as usize);
            let in_class = |(page, _): (usize, usize)| self.store.pages[page].is_some();
            if !free.is_some_and(in_class) {
                break;
            }
            self.call(Call::Make { place: HAND, references: 0, words: class - 2 });
            if self.random.percent(50) {
                let (hub, reference) = (self.random.below(HUBS), self.random.below(HUB_REFERENCES));
                self.call(Call::Store { into: hub, reference, from: HAND });
            }
        }
    }

    /// About 20 uncut pages, a few thin pages of one class, and collections that join them while records are made.
    fn joining(&mut self) {
        self.make_hubs();
        let full_pages = self.random.between(39, 43);
        self.fill_hubs(8 * full_pages);
        while !self.done() {
            for place in [OTHER_HAND, HAND] {
                self.call(Call::Clear { place });
            }
            let class = self.random.pick(&self.store.classes[3..18]) as u32;
            let share = self.random.pick(&[10, 15, 20, 60]);
            for _ in 0..self.random.between(2, 5) {
                let kept = self.random.between(share / 2, share);
                self.fill_page(class, kept);
            }
            self.hold_list();
            self.join_pages(class);
            self.look_around();
        }
    }

    /// So many records of 32 words, each in a reference of its own.
    fn fill_hubs(&mut self, records: u32) {
        for record in 0..records {
            let (hub, reference) = (record / HUB_REFERENCES, record % HUB_REFERENCES);
            self.call(Call::Make { place: HAND, references: 1, words: 29 });
            self.call(Call::Store { into: hub, reference, from: HAND });
        }
    }

    /// As many records as a page of the class has blocks; a share of them is kept in a list.
    fn fill_page(&mut self, class: u32, share: u32) {
        for _ in 0..256 / class {
            self.call(Call::Make { place: HAND, references: 1, words: class - 3 });
            if self.random.percent(share) {
                self.call(Call::Store { into: HAND, reference: 0, from: OTHER_HAND });
                self.call(Call::Copy { into: OTHER_HAND, from: HAND });
            }
        }
    }

    /// Takes the first records of the list into places and events.
    fn hold_list(&mut self) {
        let mut from = OTHER_HAND;
        for into in OTHER_HAND + 1..OTHER_HAND + 6 {
            self.call(Call::Load { into, from, reference: 0 });
            if self.random.percent(60) {
                let time = self.time();
                self.call(Call::Schedule { time, place: into });
            }
            from = into;
        }
    }

    /// A collection, slow up to the class, with some records of the class made between its moves.
    fn join_pages(&mut self, class: u32) {
        self.call(Call::Begin);
        while !self.done() && self.store.phase != Phase::Idle {
            let at_class = match self.store.phase {
                Phase::Moving { class_index, .. } => self.store.classes[class_index] as u32 == class,
                _ => false,
            };
            let units = if at_class { self.random.between(1, 3) } else { self.random.between(1, 40) };
            self.call(Call::Step { units });
            if self.random.percent(60) {
                self.pass_the_cursor();
            }
            if at_class && self.random.percent(60) {
                for _ in 0..self.random.below(7) {
                    self.call(Call::Make { place: HAND, references: 1, words: class - 3 });
                }
            }
        }
        self.call(Call::Count);
    }

    /// Damaged lines among routine calls.
    fn damaged(&mut self) {
        while !self.done() {
            if self.random.percent(60) {
                self.routine_call(100);
            } else {
                let line = self.damaged_line();
                self.line(&line);
            }
        }
    }

    fn damaged_line(&mut self) -> Vec<u8> {
        match self.random.below(12) {
            0 => self.noise(0, 100),
            1 => self.long_remark(),
            2 => vec![],
            3 => self.bad_number(),
            4 => self.noise(7000, 20000),
            5 => self.call_of_length(),
            _ => self.damaged_call(),
        }
    }

    /// Any bytes but line feeds.
    fn noise(&mut self, least: u32, most: u32) -> Vec<u8> {
        let length = self.random.between(least, most);
        let row: Vec<u8> = (0..length).map(|_| self.random.below(256) as u8).collect();
        row.into_iter().map(|byte| if byte == b'\n' { b'\t' } else { byte }).collect()
    }

    /// A remark of about the greatest length.
    fn long_remark(&mut self) -> Vec<u8> {
        let length = self.random.between(77, 84);
        let mut line = self.noise(length, length);
        line[0] = b'#';
        line
    }

    fn bad_number(&mut self) -> Vec<u8> {
        let bad = self.random.pick(&[
            "00",
            "01",
            "+1",
            "-1",
            "-0",
            "",
            " 1",
            "1 ",
            "4294967296",
            "4294967295",
            "42949672950",
            "1.0",
            "0x1",
            "1e1",
            "99999999999999999999999999",
            "٣",
            "1\r",
            "1\0",
            "0",
        ]);
        let number = self.random.below(8).to_string();
        let fields = self.random.pick(&[
            ["K", "B", ""],
            ["G", "B", ""],
            ["K", "?", ""],
            ["C", "B", "?"],
            ["C", "?", "B"],
            ["E", "B", "?"],
            ["G", "?", "B"],
            ["H", "B", ""],
        ]);
        let spelled: Vec<String> = fields.iter().map(|field| field.replace('B', bad).replace('?', &number)).collect();
        let line = spelled.join("\t");
        let line = if fields[2].is_empty() { line.trim_end_matches('\t') } else { &line };
        line.as_bytes().to_vec()
    }

    /// A call that zeros in front of a number bring to about the greatest length.
    fn call_of_length(&mut self) -> Vec<u8> {
        let zeros = "0".repeat(self.random.between(70, 85) as usize);
        format!("K\t{zeros}1").into_bytes()
    }

    fn damaged_call(&mut self) -> Vec<u8> {
        let (a, b, c) = (self.random.below(6), self.random.below(4), self.random.below(4));
        let call = match self.random.below(8) {
            0 => Call::Make { place: a, references: b, words: c },
            1 => Call::Load { into: a, from: b, reference: c },
            2 => Call::Store { into: a, reference: b, from: c },
            3 => Call::Copy { into: a, from: b },
            4 => Call::Begin,
            5 => Call::Step { units: a },
            6 => Call::Count,
            _ => Call::Schedule { time: a, place: b },
        };
        let mut line = spelled(&call);
        let at = self.random.below(line.len() as u32) as usize;
        match self.random.below(9) {
            0 => line.push(b'\t'),
            1 => line.push(b'\r'),
            2 => line.extend_from_slice(b"\t0"),
            3 => line[at] = self.random.between(128, 255) as u8,
            4 => line.truncate(at),
            5 => line.insert(at, self.random.pick(b" \t+0#-")),
            6 => line[0] = line[0].to_ascii_lowercase(),
            7 => line[0] = self.random.between(65, 90) as u8,
            _ => line.insert(at, b'\t'),
        }
        line
    }

    /// Parts of all kinds in one script.
    fn mixed(&mut self) {
        let shapes: Vec<(u32, u32)> = (0..3).map(|_| self.large_shape()).collect();
        while !self.done() {
            let all = self.lines_left;
            self.lines_left = all.min(self.random.between(20, 400) as usize);
            let part = self.lines_left;
            (self.places_in_use, self.largest) = (PLACES, 30);
            match self.random.below(6) {
                0 => self.few(),
                1 => self.steps(),
                2 => self.events(),
                3 => self.damaged(),
                4 => self.fill(&shapes),
                _ => self.collect_among_calls(&shapes),
            }
            self.lines_left = all - (part - self.lines_left);
        }
    }

    /// A long script with every letter: lists that grow and are cut, events, and collections in steps.
    fn bench(&mut self) {
        let shapes = [(1, 3), (2, 8), (1, 11), (2, 20), (1, 27)];
        self.make_hubs();
        while !self.done() {
            let shape = self.random.pick(&shapes);
            self.make_in_hand(shape);
            self.keep_in_hub();
            for _ in 0..self.random.below(6) {
                self.full_call(&shapes);
            }
            self.touch();
            if self.store.phase == Phase::Idle && self.store.uncut_pages() < 16 {
                if self.random.percent(60) {
                    self.thin();
                }
                self.call(Call::Begin);
            } else if self.store.phase != Phase::Idle {
                let units = self.random.between(20, 60);
                self.call(Call::Step { units });
            }
            if self.random.percent(2) {
                self.call(Call::Count);
            }
        }
    }

    /// Writes a word, asks for a shape and copies a place.
    fn touch(&mut self) {
        let (into, word) = self.word();
        let value = self.value();
        self.call(Call::Write { into, word, value });
        let place = self.record_place();
        self.call(Call::Shape { place });
        let (into, from) = (self.random.between(HUBS, NIL_PLACE - 1), self.record_place());
        self.call(Call::Copy { into, from });
    }

    fn run(&mut self, kind: &str) -> bool {
        match kind {
            "few" => self.few(),
            "full" => self.full(),
            "joining" => self.joining(),
            "events" => self.events(),
            "steps" => self.steps(),
            "damaged" => self.damaged(),
            "mixed" => self.mixed(),
            "bench" => self.bench(),
            _ => return false,
        }
        if self.random.percent(50) {
            self.script.pop();
        }
        true
    }
}

fn main() -> ExitCode {
    let arguments: Vec<String> = std::env::args().skip(1).collect();
    let usage = "usage: generate few|full|joining|events|steps|damaged|mixed|bench SEED LINES";
    let [kind, seed, lines] = &arguments[..] else {
        eprintln!("{usage}");
        return ExitCode::FAILURE;
    };
    let (Ok(seed), Ok(lines)) = (seed.parse(), lines.parse()) else {
        eprintln!("{usage}");
        return ExitCode::FAILURE;
    };
    let mut generator = Generator::new(seed, lines);
    if !generator.run(kind) {
        eprintln!("{usage}");
        return ExitCode::FAILURE;
    }
    match std::io::stdout().write_all(&generator.script) {
        Ok(()) => ExitCode::SUCCESS,
        Err(_) => ExitCode::FAILURE,
    }
}
