//! The record store: pages and blocks, the fourteen calls, and the collector unit by unit.

use crate::lines::{Answer, Call, Refusal, Reply};

pub const PAGES: usize = 64;
pub const PAGE_WORDS: usize = 256;
pub const LARGEST_CLASS: usize = 32;
pub const ENOUGH_UNCUT: usize = 20;
/// Block numbers of one page begin this far after those of the page before.
pub const NUMBERS_PER_PAGE: usize = 64;

/// The size classes: each is an eighth larger than the one before, by one word at least.
pub fn size_classes() -> Vec<usize> {
    let mut classes = vec![4];
    while let Some(&size) = classes.last().filter(|&&size| size < LARGEST_CLASS) {
        classes.push((size + (size / 8).max(1)).min(LARGEST_CLASS));
    }
    classes
}

/// The block of a record. A current block forwards to itself, a husk to the copy.
#[derive(Clone, PartialEq, Debug)]
pub struct Block {
    pub forwarding: u32,
    pub references: Vec<u32>,
    pub words: Vec<u32>,
    pub marked: bool,
}

/// A page that is cut into blocks of one class; a free block is `None`.
#[derive(Clone, PartialEq, Debug)]
pub struct CutPage {
    pub class: usize,
    pub open: bool,
    pub blocks: Vec<Option<Block>>,
}

impl CutPage {
    fn new(class: usize) -> CutPage {
        CutPage { class, open: true, blocks: vec![None; PAGE_WORDS / class] }
    }

    pub fn occupancy(&self) -> usize {
        self.blocks.iter().flatten().count()
    }

    pub fn free_blocks(&self) -> usize {
        self.blocks.len() - self.occupancy()
    }

    fn lowest_free(&self) -> Option<usize> {
        self.blocks.iter().position(Option::is_none)
    }
}

/// What the next unit works on.
#[derive(Clone, PartialEq, Debug)]
pub enum Phase {
    Idle,
    Roots { next: usize },
    Marking,
    Sweeping { next_page: usize },
    Moving { class_index: usize, source: Option<usize>, moved_into: Vec<bool> },
}

#[derive(Clone, PartialEq, Debug)]
pub struct Store {
    pub classes: Vec<usize>,
    /// An uncut page is `None`.
    pub pages: Vec<Option<CutPage>>,
    pub holder: Vec<u32>,
    pub agenda: Vec<u32>,
    pub keys: Vec<Option<(u32, u32)>>,
    pub clock: u32,
    pub next_serial: u32,
    pub phase: Phase,
    pub work_list: Vec<u32>,
    pub units: u64,
}

/// The number of the block in a slot of a page.
pub fn block_number(page: usize, slot: usize) -> u32 {
    (NUMBERS_PER_PAGE * page + slot + 1) as u32
}

/// The page and slot of a block number other than nil.
pub fn page_and_slot(number: u32) -> (usize, usize) {
    let index = number as usize - 1;
    (index / NUMBERS_PER_PAGE, index % NUMBERS_PER_PAGE)
}

// Blocks and current forms.
impl Store {
    pub fn new(holder_places: usize, agenda_places: usize) -> Store {
        Store {
            classes: size_classes(),
            pages: vec![None; PAGES],
            holder: vec![0; holder_places],
            agenda: vec![0; agenda_places],
            keys: vec![None; agenda_places],
            clock: 0,
            next_serial: 0,
            phase: Phase::Idle,
            work_list: Vec::new(),
            units: 0,
        }
    }

    /// The occupied block of a number, if it names one.
    pub fn block(&self, number: u32) -> Option<&Block> {
        if number == 0 {
            return None;
        }
        let (page, slot) = page_and_slot(number);
        self.pages.get(page)?.as_ref()?.blocks.get(slot)?.as_ref()
    }

    fn block_mut(&mut self, number: u32) -> Option<&mut Block> {
        if number == 0 {
            return None;
        }
        let (page, slot) = page_and_slot(number);
        self.pages.get_mut(page)?.as_mut()?.blocks.get_mut(slot)?.as_mut()
    }

    /// The forwarding word of the block that a number names; nil if it names none.
    pub fn current_form(&self, number: u32) -> u32 {
        self.block(number).map_or(0, |block| block.forwarding)
    }

    /// The current form of the number in a place of the holder.
    pub fn in_place(&self, place: u32) -> u32 {
        self.current_form(self.holder[place as usize])
    }

    /// The current block of the record in a place of the holder.
    pub fn record(&self, place: u32) -> Option<&Block> {
        self.block(self.in_place(place))
    }

    fn record_mut(&mut self, place: u32) -> &mut Block {
        let number = self.in_place(place);
        self.block_mut(number).expect("a granted call has its record")
    }

    pub fn uncut_pages(&self) -> usize {
        self.pages.iter().filter(|page| page.is_none()).count()
    }

    /// The open pages of a class, by rising number.
    fn open_pages(&self, class: usize) -> impl Iterator<Item = (usize, &CutPage)> {
        let cut = self.pages.iter().enumerate().filter_map(|(number, page)| Some((number, page.as_ref()?)));
        cut.filter(move |(_, page)| page.class == class && page.open)
    }
}

// Calls.
impl Store {
    pub fn perform(&mut self, call: &Call) -> Reply {
        match self.refusal(call) {
            Some(refusal) => Err(refusal),
            None => Ok(self.grant(call)),
        }
    }

    /// The first condition that refuses the call.
    pub fn refusal(&self, call: &Call) -> Option<Refusal> {
        if let Some(refusal) = call.input_refusal(self.holder.len()) {
            return Some(refusal);
        }
        let idle = self.phase == Phase::Idle;
        match *call {
            Call::Make { references, words, .. } => {
                let class = self.class_for(references, words);
                self.room(class).is_none().then_some(Refusal::NoRoom)
            }
            Call::Load { from, reference, .. } => self.without_reference(from, reference),
            Call::Store { into, reference, .. } => self.without_reference(into, reference),
            Call::Read { from, word } => self.without_word(from, word),
            Call::Write { into, word, .. } => self.without_word(into, word),
            Call::Shape { place } => self.without_record(place),
            Call::Schedule { time, place } => self.without_record(place).or_else(|| self.no_schedule(time)),
            Call::Next { .. } => self.first().is_none().then_some(Refusal::NoEvent),
            Call::Begin => (!idle).then_some(Refusal::CollectionRuns),
            Call::Step { .. } => idle.then_some(Refusal::NoCollection),
            Call::Copy { .. } | Call::Clear { .. } | Call::Same { .. } | Call::Count => None,
        }
    }

    fn without_record(&self, place: u32) -> Option<Refusal> {
        self.record(place).is_none().then_some(Refusal::Nil)
    }

    fn without_reference(&self, place: u32, reference: u32) -> Option<Refusal> {
        match self.record(place) {
            None => Some(Refusal::Nil),
            Some(block) if reference as usize >= block.references.len() => Some(Refusal::NoSuchReference),
            Some(_) => None,
        }
    }

    fn without_word(&self, place: u32, word: u32) -> Option<Refusal> {
        match self.record(place) {
            None => Some(Refusal::Nil),
            Some(block) if word as usize >= block.words.len() => Some(Refusal::NoSuchWord),
            Some(_) => None,
        }
    }

    fn no_schedule(&self, time: u32) -> Option<Refusal> {
        if self.spare().is_none() {
            Some(Refusal::AgendaFull)
        } else if time < self.clock {
            Some(Refusal::TimePassed)
        } else if self.next_serial == u32::MAX {
            Some(Refusal::SerialsUsedUp)
        } else {
            None
        }
    }

    /// Carries out a call that is not refused.
    fn grant(&mut self, call: &Call) -> Answer {
        match *call {
            Call::Read { from, word } => return Answer::Word(self.record_mut(from).words[word as usize]),
            Call::Same { left, right } => return Answer::Same(self.in_place(left) == self.in_place(right)),
            Call::Shape { place } => return self.shape(place),
            Call::Next { into } => return self.next(into),
            Call::Step { units } => return self.step(units),
            Call::Count => return self.count(),
            Call::Make { place, references, words } => {
                let number = self.allocate(references as usize, words as usize);
                self.put_place(place, number);
            }
            Call::Load { into, from, reference } => {
                let number = self.record_mut(from).references[reference as usize];
                self.put_place(into, self.current_form(number));
            }
            Call::Store { into, reference, from } => self.put_reference(into, reference, self.in_place(from)),
            Call::Write { into, word, value } => self.record_mut(into).words[word as usize] = value,
            Call::Copy { into, from } => self.put_place(into, self.in_place(from)),
            Call::Clear { place } => self.put_place(place, 0),
            Call::Schedule { time, place } => self.schedule(time, place),
            Call::Begin => {
                self.phase = Phase::Roots { next: 0 };
                self.units = 0;
            }
        }
        Answer::Done
    }

    fn shape(&self, place: u32) -> Answer {
        let block = self.record(place).expect("a granted shape has its record");
        Answer::Shape { references: block.references.len() as u32, words: block.words.len() as u32 }
    }

    /// A reference of the record in a place gets a number; the one it had is greyed first.
    fn put_reference(&mut self, place: u32, reference: u32, number: u32) {
        let overwritten = self.record_mut(place).references[reference as usize];
        self.grey_overwritten(overwritten);
        self.record_mut(place).references[reference as usize] = number;
    }

    /// A place of the holder gets a number; the one it had is greyed first.
    fn put_place(&mut self, place: u32, number: u32) {
        self.grey_overwritten(self.holder[place as usize]);
        self.holder[place as usize] = number;
    }

    /// A place of the agenda gets a number; the one it had is greyed first.
    fn put_agenda(&mut self, place: usize, number: u32) {
        self.grey_overwritten(self.agenda[place]);
        self.agenda[place] = number;
    }

    /// The keyed place of the agenda least by time, then serial, then place.
    fn first(&self) -> Option<usize> {
        let keyed = (0..self.keys.len()).filter(|&place| self.keys[place].is_some());
        keyed.min_by_key(|&place| (self.keys[place], place))
    }

    /// The lowest place of the agenda without a key.
    fn spare(&self) -> Option<usize> {
        self.keys.iter().position(Option::is_none)
    }

    fn schedule(&mut self, time: u32, place: u32) {
        let spare = self.spare().expect("a granted schedule has a spare place");
        self.put_agenda(spare, self.in_place(place));
        self.keys[spare] = Some((time, self.next_serial));
        self.next_serial += 1;
    }

    fn next(&mut self, into: u32) -> Answer {
        let first = self.first().expect("a granted next has an event");
        let (time, _) = self.keys[first].take().expect("the first place has a key");
        let number = self.current_form(self.agenda[first]);
        self.put_place(into, number);
        self.put_agenda(first, 0);
        self.clock = time;
        Answer::Time(time)
    }

    fn count(&self) -> Answer {
        let (mut current, mut husks, mut closed) = (0, 0, 0);
        for (page, cut) in self.pages.iter().enumerate() {
            let Some(cut) = cut else { continue };
            closed += !cut.open as u32;
            for (slot, block) in cut.blocks.iter().enumerate() {
                match block {
                    Some(block) if block.forwarding == block_number(page, slot) => current += 1,
                    Some(_) => husks += 1,
                    None => {}
                }
            }
        }
        Answer::Counts { current, husks, uncut: self.uncut_pages() as u32, closed }
    }
}

// Allocation.
impl Store {
    /// The smallest class that a record of so many references and words fits.
    pub fn class_for(&self, references: u32, words: u32) -> usize {
        let size = 2 + references as usize + words as usize;
        *self.classes.iter().find(|&&class| class >= size).expect("32 words are the most")
    }

    /// Page and slot for a new block: in an open page of the class, or else in an uncut page.
    pub fn room(&self, class: usize) -> Option<(usize, usize)> {
        let open = self.open_pages(class).find_map(|(number, page)| Some((number, page.lowest_free()?)));
        open.or_else(|| Some((self.pages.iter().position(Option::is_none)?, 0)))
    }

    /// A block for a new record. It is marked where this collection would otherwise free it.
    fn allocate(&mut self, references: usize, words: usize) -> u32 {
        let class = self.class_for(references as u32, words as u32);
        let (page, slot) = self.room(class).expect("a granted make has room");
        let marked = match self.phase {
            Phase::Roots { .. } | Phase::Marking => true,
            Phase::Sweeping { next_page } => page >= next_page,
            Phase::Idle | Phase::Moving { .. } => false,
        };
        let forwarding = block_number(page, slot);
        let block = Block { forwarding, references: vec![0; references], words: vec![0; words], marked };
        self.pages[page].get_or_insert_with(|| CutPage::new(class)).blocks[slot] = Some(block);
        forwarding
    }
}

// The collector.
impl Store {
    /// What a granted call overwrites is greyed while roots are taken and blocks marked.
    fn grey_overwritten(&mut self, number: u32) {
        if matches!(self.phase, Phase::Roots { .. } | Phase::Marking) {
            self.grey(number);
        }
    }

    fn grey(&mut self, number: u32) {
        let current = self.current_form(number);
        let Some(block) = self.block_mut(current) else {
            return;
        };
        if !block.marked {
            block.marked = true;
            self.work_list.push(current);
        }
    }

    fn step(&mut self, units: u32) -> Answer {
        let mut done = 0;
        while done < units as u64 && self.phase != Phase::Idle {
            self.unit();
            done += 1;
        }
        Answer::Progress { done, total: self.units, unfinished: self.phase != Phase::Idle }
    }

    /// One unit of the collection under way.
    pub fn unit(&mut self) {
        self.units += 1;
        self.phase = match std::mem::replace(&mut self.phase, Phase::Idle) {
            Phase::Idle => Phase::Idle,
            Phase::Roots { next } => self.take_root(next),
            Phase::Marking => self.mark_newest(),
            Phase::Sweeping { next_page } => self.sweep_page(next_page),
            Phase::Moving { class_index, source: None, moved_into } => self.choose_source(class_index, moved_into),
            Phase::Moving { class_index, source: Some(source), moved_into } => {
                self.move_block(class_index, source, moved_into)
            }
        };
    }

    fn take_root(&mut self, next: usize) -> Phase {
        let places = self.holder.len();
        let root = if next < places { &self.holder[next] } else { &self.agenda[next - places] };
        let current = self.current_form(*root);
        if next < places {
            self.holder[next] = current;
        } else {
            self.agenda[next - places] = current;
        }
        self.grey(current);
        if next + 1 == places + self.agenda.len() {
            Phase::Marking
        } else {
            Phase::Roots { next: next + 1 }
        }
    }

    fn mark_newest(&mut self) -> Phase {
        let Some(number) = self.work_list.pop() else {
            return Phase::Sweeping { next_page: 0 };
        };
        let count = self.block(number).map_or(0, |block| block.references.len());
        for reference in 0..count {
            let block = self.block_mut(number).expect("a block in the work list is occupied");
            let held = block.references[reference];
            let current = self.current_form(held);
            self.block_mut(number).expect("it still is").references[reference] = current;
            self.grey(current);
        }
        Phase::Marking
    }

    fn sweep_page(&mut self, page: usize) -> Phase {
        if let Some(cut) = &mut self.pages[page] {
            for block in &mut cut.blocks {
                block.take_if(|block| !block.marked);
                block.iter_mut().for_each(|block| block.marked = false);
            }
            cut.open = true;
            if cut.occupancy() == 0 {
                self.pages[page] = None;
            }
        }
        if page + 1 < PAGES {
            Phase::Sweeping { next_page: page + 1 }
        } else if self.uncut_pages() >= ENOUGH_UNCUT {
            Phase::Idle
        } else {
            Phase::Moving { class_index: 0, source: None, moved_into: vec![false; PAGES] }
        }
    }

    fn choose_source(&mut self, class_index: usize, moved_into: Vec<bool>) -> Phase {
        let class = self.classes[class_index];
        let unmoved = self.open_pages(class).filter(|&(number, _)| !moved_into[number]);
        let thinnest = unmoved.map(|(number, page)| (page.occupancy(), number)).min();
        let Some((occupancy, source)) = thinnest else {
            return self.after_class(class_index, moved_into);
        };
        let others = self.open_pages(class).filter(|&(number, _)| number != source);
        if others.map(|(_, page)| page.free_blocks()).sum::<usize>() < occupancy {
            return self.after_class(class_index, moved_into);
        }
        self.pages[source].as_mut().expect("a source is cut").open = false;
        Phase::Moving { class_index, source: Some(source), moved_into }
    }

    fn move_block(&mut self, class_index: usize, source: usize, mut moved_into: Vec<bool>) -> Phase {
        let Some(slot) = self.lowest_current(source) else {
            return Phase::Moving { class_index, source: None, moved_into };
        };
        let with_free = self.open_pages(self.classes[class_index]).filter(|(_, page)| page.free_blocks() > 0);
        let Some((_, target)) = with_free.map(|(number, page)| (page.free_blocks(), number)).min() else {
            self.pages[source].as_mut().expect("a source is cut").open = true;
            return self.after_class(class_index, moved_into);
        };
        self.copy_block(source, slot, target);
        moved_into[target] = true;
        Phase::Moving { class_index, source: Some(source), moved_into }
    }

    /// The lowest slot of a page that has a current block.
    fn lowest_current(&self, page: usize) -> Option<usize> {
        let blocks = &self.pages[page].as_ref()?.blocks;
        let current = |slot: usize, block: &Block| block.forwarding == block_number(page, slot);
        (0..blocks.len()).find(|&slot| blocks[slot].as_ref().is_some_and(|block| current(slot, block)))
    }

    /// The block goes to the target's lowest free slot; the old one is left as a husk.
    fn copy_block(&mut self, source: usize, slot: usize, target: usize) {
        let target_page = self.pages[target].as_ref().expect("a target is cut");
        let free = target_page.lowest_free().expect("a target has a free block");
        let forwarding = block_number(target, free);
        let old = self.block_mut(block_number(source, slot)).expect("a current block is occupied");
        let copy = Block { forwarding, ..old.clone() };
        old.forwarding = forwarding;
        self.pages[target].as_mut().expect("it still is").blocks[free] = Some(copy);
    }

    fn after_class(&self, class_index: usize, moved_into: Vec<bool>) -> Phase {
        if class_index + 1 == self.classes.len() {
            Phase::Idle
        } else {
            Phase::Moving { class_index: class_index + 1, source: None, moved_into }
        }
    }
}
