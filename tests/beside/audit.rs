//! The store with the graph beside it. After every call and every unit this checks what the rules promise,
//! each told here as a relation between the states before and after, not as the steps that the store takes.

use crate::graph::Graph;
use crate::lines::{Answer, Call, Refusal, Reply};
use crate::store::{block_number, page_and_slot, Block, CutPage, Phase, Store, PAGES};
use std::collections::{BTreeMap, HashMap};

/// What was so when the collection under way began.
struct Start {
    reached: Vec<bool>,
    held: u64,
    made: usize,
}

pub struct Audit {
    store: Store,
    graph: Graph,
    /// The record that an occupied block belongs to.
    owner: HashMap<u32, usize>,
    start: Option<Start>,
    /// How often each rule was used in the collection under way.
    used: BTreeMap<&'static str, u64>,
    /// How often each thing happened in the whole script.
    tally: BTreeMap<String, u64>,
}

impl Audit {
    pub fn new(holder_places: usize, agenda_places: usize) -> Audit {
        Audit {
            store: Store::new(holder_places, agenda_places),
            graph: Graph::new(holder_places, agenda_places),
            owner: HashMap::new(),
            start: None,
            used: BTreeMap::new(),
            tally: BTreeMap::new(),
        }
    }

    pub fn summary(&self) -> String {
        let counts: Vec<String> = self.tally.iter().map(|(what, count)| format!("{what} {count}")).collect();
        format!("audited: {}", counts.join(", "))
    }

    fn note(&mut self, what: String) {
        *self.tally.entry(what).or_insert(0) += 1;
    }

    pub fn perform(&mut self, call: &Call) -> Reply {
        let before = self.store.clone();
        let reply = match *call {
            Call::Step { units } if before.phase != Phase::Idle => self.step_by_units(units, &before),
            _ => self.store.perform(call),
        };
        match reply {
            Ok(answer) => self.check_granted(call, answer, &before),
            Err(refusal) => self.check_refused(call, refusal, &before),
        }
        self.check_state();
        self.note(match reply {
            Ok(_) => format!("granted {}", call.letter()),
            Err(refusal) => format!("refused {}", refusal as u32),
        });
        reply
    }

    /// A step done as single units leaves and answers what the whole step does.
    fn step_by_units(&mut self, units: u32, before: &Store) -> Reply {
        let mut whole = before.clone();
        let reply = whole.perform(&Call::Step { units });
        let mut done = 0;
        while done < units as u64 && self.store.phase != Phase::Idle {
            let previous = self.store.clone();
            self.store.unit();
            done += 1;
            self.check_unit(&previous);
        }
        assert_eq!(self.store, whole, "a step is its units");
        let unfinished = self.store.phase != Phase::Idle;
        assert_eq!(reply, Ok(Answer::Progress { done, total: self.store.units, unfinished }));
        reply
    }
}

// Calls beside the graph.
impl Audit {
    fn check_refused(&mut self, call: &Call, refusal: Refusal, before: &Store) {
        assert_eq!(&self.store, before, "a refused call changes nothing");
        match refusal {
            Refusal::NoRoom => {
                let Call::Make { references, words, .. } = *call else { panic!("only make wants room") };
                assert_eq!(self.graph.refusal(call), None);
                let class = before.class_for(references, words);
                let full = |page: &CutPage| page.class != class || !page.open || page.free_blocks() == 0;
                let no_room = before.pages.iter().all(|page| page.as_ref().is_some_and(full));
                assert!(no_room, "room was left");
            }
            Refusal::CollectionRuns => assert!(*call == Call::Begin && before.phase != Phase::Idle),
            Refusal::NoCollection => {
                assert!(matches!(call, Call::Step { .. }) && before.phase == Phase::Idle)
            }
            _ => assert_eq!(self.graph.refusal(call), Some(refusal)),
        }
    }

    fn check_granted(&mut self, call: &Call, answer: Answer, before: &Store) {
        match *call {
            Call::Step { .. } => return,
            Call::Begin => self.check_begin(before),
            Call::Count => {
                assert_eq!(&self.store, before, "a count changes nothing");
                assert_eq!(answer, self.counted());
            }
            _ => {
                assert_eq!(self.graph.refusal(call), None);
                assert_eq!(self.graph.grant(call), answer);
                assert_eq!(self.store.phase, before.phase);
                assert_eq!(self.store.units, before.units);
            }
        }
        if let Call::Make { place, .. } = *call {
            self.check_make(place, before);
        } else {
            let occupied = |store: &Store| store.pages.iter().map(slots).collect::<Vec<_>>();
            assert_eq!(occupied(&self.store), occupied(before), "only make takes a block");
        }
        self.check_writes(call, before);
        self.check_barrier(call, before);
    }

    /// Only the place, reference and agenda place that the call writes get a number, each a current form.
    fn check_writes(&self, call: &Call, before: &Store) {
        let written = match *call {
            Call::Make { place, .. } | Call::Clear { place } => Some(place),
            Call::Load { into, .. } | Call::Copy { into, .. } | Call::Next { into } => Some(into),
            _ => None,
        };
        for (place, &number) in self.store.holder.iter().enumerate() {
            if written == Some(place as u32) {
                assert_eq!(number, self.store.current_form(number), "a place gets a current form");
            } else {
                assert_eq!(number, before.holder[place], "what is only read is not rewritten");
            }
        }
        for (number, block) in occupied_blocks(&self.store) {
            let Some(old) = before.block(number) else { continue };
            assert_eq!(block.forwarding, old.forwarding);
            for (reference, &named) in block.references.iter().enumerate() {
                let into = match *call {
                    Call::Store { into, reference, .. } => Some((before.in_place(into), reference)),
                    _ => None,
                };
                let put = into == Some((number, reference as u32));
                assert!(if put { named == self.store.current_form(named) } else { named == old.references[reference] });
            }
        }
        self.check_agenda(call, before);
    }

    /// Schedule takes the lowest place without a key; next takes the key of the first away and leaves nil.
    fn check_agenda(&self, call: &Call, before: &Store) {
        let (mut agenda, mut keys) = (before.agenda.clone(), before.keys.clone());
        match *call {
            Call::Schedule { time, place } => {
                let spare = (0..keys.len()).find(|&place| keys[place].is_none()).expect("a spare place");
                (agenda[spare], keys[spare]) = (before.in_place(place), Some((time, before.next_serial)));
            }
            Call::Next { .. } => {
                let first = keys.iter().flatten().min().copied();
                let place = keys.iter().position(|key| key.is_some() && *key == first).expect("an event");
                (agenda[place], keys[place]) = (0, None);
            }
            _ => {}
        }
        assert_eq!((&self.store.agenda, &self.store.keys), (&agenda, &keys));
    }

    fn check_begin(&mut self, before: &Store) {
        assert_eq!(before.phase, Phase::Idle);
        let began = Store { phase: Phase::Roots { next: 0 }, units: 0, ..before.clone() };
        assert_eq!(self.store, began);
        let reached = self.graph.reached();
        let held = self.held().iter().filter(|&&held| held).count() as u64;
        self.start = Some(Start { reached, held, made: self.graph.records.len() });
        self.used.clear();
    }

    /// Current blocks, husks, uncut and closed pages, by what each block belongs to.
    fn counted(&self) -> Answer {
        let blocks = occupied_blocks(&self.store);
        let current = blocks.iter().filter(|(number, block)| *number == block.forwarding).count() as u32;
        let closed = self.store.pages.iter().flatten().filter(|page| !page.open).count() as u32;
        let cut = self.store.pages.iter().flatten().count() as u32;
        let husks = blocks.len() as u32 - current;
        Answer::Counts { current, husks, uncut: PAGES as u32 - cut, closed }
    }

    /// The new block is the lowest that the rule allows, and it is blank.
    fn check_make(&mut self, place: u32, before: &Store) {
        let number = self.store.holder[place as usize];
        let record = self.graph.records.len() - 1;
        let (references, words) = (self.graph.records[record].references.len(), self.graph.records[record].words.len());
        let class = before.class_for(references as u32, words as u32);
        let (page, slot) = page_and_slot(number);
        assert_eq!(before.block(number), None);
        let block = self.store.block(number).expect("the new block is occupied").clone();
        assert_eq!(block.forwarding, number);
        assert_eq!((block.references, block.words), (vec![0; references], vec![0; words]));
        let takes = |page: &CutPage| page.class == class && page.open && page.free_blocks() > 0;
        let open: Vec<usize> = pages_with(before, takes);
        match open.first() {
            Some(&lowest) => {
                assert_eq!(page, lowest);
                let cut = before.pages[page].as_ref().expect("an open page of the class is cut");
                assert!((0..slot).all(|lower| cut.blocks[lower].is_some()));
            }
            None => {
                assert!(before.pages[..page].iter().all(Option::is_some) && before.pages[page].is_none());
                assert_eq!(slot, 0);
                assert_eq!(self.store.pages[page].as_ref().map(|cut| cut.class), Some(class));
            }
        }
        let marked = match before.phase {
            Phase::Roots { .. } | Phase::Marking => true,
            Phase::Sweeping { next_page } => page >= next_page,
            Phase::Moving { .. } | Phase::Idle => false,
        };
        assert_eq!(block.marked, marked);
        self.owner.insert(number, record);
    }

    /// Marks and work list after a call: just what was overwritten is greyed, in its order, while it counts.
    fn check_barrier(&self, call: &Call, before: &Store) {
        let overwritten: Vec<u32> = match *call {
            Call::Make { place, .. } | Call::Clear { place } => vec![before.holder[place as usize]],
            Call::Load { into, .. } | Call::Copy { into, .. } => vec![before.holder[into as usize]],
            Call::Store { into, reference, .. } => {
                let block = before.record(into).expect("a granted store has its record");
                vec![block.references[reference as usize]]
            }
            Call::Next { into } => {
                let gone = |place: usize| before.keys[place].is_some() && self.store.keys[place].is_none();
                let place = (0..before.keys.len()).find(|&place| gone(place)).expect("a key went");
                vec![before.holder[into as usize], before.agenda[place]]
            }
            _ => vec![],
        };
        let greying = matches!(before.phase, Phase::Roots { .. } | Phase::Marking);
        let greyed = if greying { newly_grey(before, &overwritten) } else { vec![] };
        let expected: Vec<u32> = before.work_list.iter().chain(&greyed).copied().collect();
        assert_eq!(self.store.work_list, expected);
        for (number, block) in occupied_blocks(&self.store) {
            if let Some(old) = before.block(number) {
                assert_eq!(block.marked, old.marked || greyed.contains(&number));
            }
        }
    }
}

// Units.
impl Audit {
    fn check_unit(&mut self, before: &Store) {
        assert_eq!(self.store.units, before.units + 1);
        let same = Store { pages: vec![], holder: vec![], agenda: vec![], work_list: vec![], ..before.clone() };
        let (phase, units) = (self.store.phase.clone(), self.store.units);
        let now = Store { pages: vec![], holder: vec![], agenda: vec![], work_list: vec![], ..self.store.clone() };
        assert_eq!(now, Store { phase, units, ..same }, "clock, serial and keys stay");
        let rule = match &before.phase {
            Phase::Idle => panic!("a unit without a collection"),
            Phase::Roots { next } => self.check_root(*next, before),
            Phase::Marking => self.check_marking(before),
            Phase::Sweeping { next_page } => self.check_sweep(*next_page, before),
            Phase::Moving { class_index, source, moved_into } => {
                assert_eq!(self.store.holder, before.holder);
                assert_eq!(self.store.agenda, before.agenda);
                self.check_moving(*class_index, *source, moved_into, before)
            }
        };
        *self.used.entry(rule).or_insert(0) += 1;
        self.note(format!("unit {rule}"));
        self.check_bound();
        self.check_state();
        if self.store.phase == Phase::Idle {
            self.check_end();
        }
    }

    fn check_root(&mut self, next: usize, before: &Store) -> &'static str {
        let roots = |store: &Store| [store.holder.clone(), store.agenda.clone()].concat();
        let (old, new) = (roots(before), roots(&self.store));
        let form = before.current_form(old[next]);
        assert_eq!(new, replaced(&old, next, form));
        self.check_greyed(&before.work_list, &[form], before);
        let phase = if next + 1 < old.len() { Phase::Roots { next: next + 1 } } else { Phase::Marking };
        assert_eq!(self.store.phase, phase);
        "root"
    }

    fn check_marking(&mut self, before: &Store) -> &'static str {
        assert_eq!((&self.store.holder, &self.store.agenda), (&before.holder, &before.agenda));
        let Some((&newest, rest)) = before.work_list.split_last() else {
            assert_eq!(self.store.pages, before.pages);
            assert_eq!(self.store.phase, Phase::Sweeping { next_page: 0 });
            return "turn";
        };
        assert_eq!(self.store.phase, Phase::Marking);
        let old = &before.block(newest).expect("grey blocks are occupied").references;
        let forms: Vec<u32> = old.iter().map(|&number| before.current_form(number)).collect();
        assert_eq!(self.store.block(newest).expect("grey blocks stay").references, forms);
        self.check_greyed(rest, &forms, before);
        for (number, block) in occupied_blocks(&self.store) {
            let old = before.block(number).expect("marking takes no block");
            assert!(number == newest || block.references == old.references);
        }
        "marking"
    }

    /// The work list is what was left of it and then the newly grey, and just these are newly marked.
    fn check_greyed(&self, left: &[u32], numbers: &[u32], before: &Store) {
        let greyed = newly_grey(before, numbers);
        assert_eq!(self.store.work_list, [left, &greyed].concat());
        assert_eq!(occupied_blocks(&self.store).len(), occupied_blocks(before).len());
        for (number, block) in occupied_blocks(&self.store) {
            let old = before.block(number).expect("greying takes no block");
            assert_eq!(block.marked, old.marked || greyed.contains(&number));
            assert_eq!((&block.words, block.forwarding), (&old.words, old.forwarding));
        }
    }

    fn check_sweep(&mut self, page: usize, before: &Store) -> &'static str {
        assert_eq!((&self.store.holder, &self.store.agenda), (&before.holder, &before.agenda));
        assert!(self.store.work_list.is_empty());
        for other in (0..PAGES).filter(|&other| other != page) {
            assert_eq!(self.store.pages[other], before.pages[other], "one entry alone");
        }
        let kept = |block: &&Block| block.marked;
        for (slot, old) in before.pages[page].iter().flat_map(|cut| cut.blocks.iter().enumerate()) {
            let number = block_number(page, slot);
            let expected = old.as_ref().filter(kept).map(|block| Block { marked: false, ..block.clone() });
            assert_eq!(self.store.block(number).cloned(), expected);
            if expected.is_none() {
                self.owner.remove(&number);
            }
        }
        let left = before.pages[page].iter().flat_map(|cut| cut.blocks.iter().flatten()).filter(kept).count();
        assert_eq!(self.store.pages[page].is_none(), left == 0);
        assert!(self.store.pages[page].as_ref().is_none_or(|cut| cut.open));
        let uncut = self.store.pages.iter().filter(|page| page.is_none()).count();
        let phase = match page {
            63 if uncut >= 20 => Phase::Idle,
            63 => Phase::Moving { class_index: 0, source: None, moved_into: vec![false; PAGES] },
            _ => Phase::Sweeping { next_page: page + 1 },
        };
        assert_eq!(self.store.phase, phase);
        "sweep"
    }

    fn check_moving(
        &mut self,
        class_index: usize,
        source: Option<usize>,
        moved_into: &[bool],
        before: &Store,
    ) -> &'static str {
        let class = before.classes[class_index];
        match (&self.store.phase, source) {
            (Phase::Moving { class_index: same, source: Some(chosen), moved_into: now }, None) => {
                assert_eq!((*same, &now[..]), (class_index, moved_into));
                self.check_chosen(*chosen, class, moved_into, before);
                "source chosen"
            }
            (_, None) => {
                self.check_finished(class_index, before);
                self.check_no_source(class, moved_into, before);
                "class finished"
            }
            (Phase::Moving { source: Some(same), moved_into: now, .. }, Some(source)) => {
                assert_eq!(*same, source);
                let now = now.clone();
                let target = self.check_moved(source, class, before);
                assert!((0..PAGES).all(|page| now[page] == (moved_into[page] || page == target)));
                "block moved"
            }
            (_, Some(source)) if current_slots(before, source).is_empty() => {
                let phase = Phase::Moving { class_index, source: None, moved_into: moved_into.to_vec() };
                assert_eq!((&self.store.phase, &self.store.pages), (&phase, &before.pages));
                "source emptied"
            }
            (_, Some(source)) => {
                self.check_finished(class_index, before);
                self.check_no_target(source, class, before);
                "no target"
            }
        }
    }

    fn check_no_source(&self, class: usize, moved_into: &[bool], before: &Store) {
        assert_eq!(self.store.pages, before.pages);
        let open = pages_with(before, |page| page.class == class && page.open);
        let unmoved: Vec<usize> = open.iter().copied().filter(|&page| !moved_into[page]).collect();
        for &page in &unmoved {
            let room: usize = open.iter().filter(|&&other| other != page).map(|&other| free(before, other)).sum();
            let thinnest = unmoved.iter().all(|&other| occupancy(before, page) <= occupancy(before, other));
            assert!(!thinnest || room < occupancy(before, page), "page {page} could be source");
        }
    }

    fn check_no_target(&self, source: usize, class: usize, before: &Store) {
        let targets = pages_with(before, |page| page.class == class && page.open && page.free_blocks() > 0);
        assert!(targets.is_empty());
        let mut pages = before.pages.clone();
        pages[source].as_mut().expect("a source is cut").open = true;
        assert_eq!(self.store.pages, pages);
    }

    fn check_finished(&self, class_index: usize, before: &Store) {
        match &self.store.phase {
            Phase::Idle => assert_eq!(class_index + 1, before.classes.len()),
            Phase::Moving { class_index: next, source: None, .. } => assert_eq!(*next, class_index + 1),
            _ => panic!("a finished class leads to the next"),
        }
    }

    fn check_chosen(&self, chosen: usize, class: usize, moved_into: &[bool], before: &Store) {
        let open = pages_with(before, |page| page.class == class && page.open);
        assert!(open.contains(&chosen) && !moved_into[chosen]);
        for &other in open.iter().filter(|&&other| other != chosen && !moved_into[other]) {
            let (ours, theirs) = (occupancy(before, chosen), occupancy(before, other));
            assert!(ours < theirs || ours == theirs && chosen < other);
        }
        let room: usize = open.iter().filter(|&&page| page != chosen).map(|&page| free(before, page)).sum();
        assert!(room >= occupancy(before, chosen));
        let mut pages = before.pages.clone();
        pages[chosen].as_mut().expect("a source is cut").open = false;
        assert_eq!(self.store.pages, pages);
    }

    /// Answers the target.
    fn check_moved(&mut self, source: usize, class: usize, before: &Store) -> usize {
        let slot = current_slots(before, source)[0];
        let old_number = block_number(source, slot);
        let new_number = self.store.block(old_number).expect("a husk stays occupied").forwarding;
        let (target, free_slot) = page_and_slot(new_number);
        let with_free = pages_with(before, |page| page.class == class && page.open && page.free_blocks() > 0);
        assert!(with_free.contains(&target) && target != source);
        for &other in with_free.iter().filter(|&&other| other != target) {
            assert!((free(before, target), target) < (free(before, other), other));
        }
        let target_blocks = &before.pages[target].as_ref().expect("a target is cut").blocks;
        assert!(target_blocks[free_slot].is_none() && target_blocks[..free_slot].iter().all(Option::is_some));
        let old = before.block(old_number).expect("the block was there");
        let mut pages = before.pages.clone();
        let copy = Block { forwarding: new_number, ..old.clone() };
        pages[target].as_mut().expect("a target is cut").blocks[free_slot] = Some(copy.clone());
        pages[source].as_mut().expect("a source is cut").blocks[slot] = Some(copy);
        assert_eq!(self.store.pages, pages);
        let record = self.owner[&old_number];
        self.owner.insert(new_number, record);
        target
    }

    fn check_bound(&self) {
        let start = self.start.as_ref().expect("a collection has a start");
        let places = (self.store.holder.len() + self.store.agenda.len()) as u64;
        let made_since = (self.graph.records.len() - start.made) as u64;
        assert!(self.store.units <= places + 2 * start.held + made_since + 213, "the bound on units");
    }

    /// The units are those of the rules used, and what is held is what was reached at begin or made since.
    fn check_end(&mut self) {
        let used = |rule: &str| self.used.get(rule).copied().unwrap_or(0);
        assert_eq!(self.used.values().sum::<u64>(), self.store.units);
        assert_eq!(used("root"), (self.store.holder.len() + self.store.agenda.len()) as u64);
        assert_eq!((used("turn"), used("sweep")), (1, 64));
        let finished = used("class finished") + used("no target");
        assert!(finished == 0 || finished == 20);
        assert_eq!(used("source chosen"), used("source emptied") + used("no target"));
        assert_eq!(self.held(), self.to_be_kept(), "records held at the end");
        let moves = used("block moved") > 0;
        self.start = None;
        self.note(if moves { "collections with moves" } else { "collections without moves" }.to_string());
    }
}

// States.
impl Audit {
    /// For each record made, whether its block has not been freed.
    fn held(&self) -> Vec<bool> {
        let mut held = vec![false; self.graph.records.len()];
        for (number, block) in occupied_blocks(&self.store) {
            if block.forwarding == number {
                assert!(!held[self.owner[&number]], "a record has one current block");
                held[self.owner[&number]] = true;
            }
        }
        held
    }

    /// For each record made, whether it was reached at begin or made since.
    fn to_be_kept(&self) -> Vec<bool> {
        let start = self.start.as_ref().expect("a collection has a start");
        let kept = |record| start.reached.get(record).copied().unwrap_or(true);
        (0..self.graph.records.len()).map(kept).collect()
    }

    fn check_state(&self) {
        self.check_entries();
        self.check_meaning();
        match self.store.phase {
            Phase::Idle | Phase::Moving { .. } => {
                assert!(occupied_blocks(&self.store).iter().all(|(_, block)| !block.marked));
                assert!(self.store.work_list.is_empty());
            }
            Phase::Roots { next } => self.check_colours(next),
            Phase::Marking => self.check_colours(self.store.holder.len() + self.store.agenda.len()),
            Phase::Sweeping { next_page } => self.check_half_swept(next_page),
        }
        if matches!(self.store.phase, Phase::Moving { .. }) {
            assert_eq!(self.held(), self.to_be_kept());
        }
    }

    fn check_entries(&self) {
        let sizes = [4, 5, 6, 7, 8, 9, 10, 11, 12, 13, 14, 15, 16, 18, 20, 22, 24, 27, 30, 32];
        let counts = [64, 51, 42, 36, 32, 28, 25, 23, 21, 19, 18, 17, 16, 14, 12, 11, 10, 9, 8, 8];
        for page in self.store.pages.iter().flatten() {
            let index = sizes.iter().position(|&size| size == page.class).expect("a class of the table");
            assert_eq!(page.blocks.len(), counts[index]);
            assert!(page.occupancy() > 0, "a cut page has an occupied block");
            for block in page.blocks.iter().flatten() {
                let size = 2 + block.references.len() + block.words.len();
                assert!(size <= page.class && (index == 0 || size > sizes[index - 1]));
            }
        }
    }

    /// The record that a number stands for.
    fn named(&self, number: u32) -> Option<usize> {
        let form = self.store.current_form(number);
        (form != 0).then(|| self.owner[&form])
    }

    /// Places, events and every reached record are the graph's.
    fn check_meaning(&self) {
        let places: Vec<_> = self.store.holder.iter().map(|&number| self.named(number)).collect();
        assert_eq!(places, self.graph.places);
        assert_eq!((self.store.clock, self.store.next_serial), (self.graph.clock, self.graph.next_serial));
        let mut events: Vec<_> =
            self.graph.events.iter().map(|event| (event.time, event.serial, Some(event.record))).collect();
        let mut keyed = Vec::new();
        for (place, key) in self.store.keys.iter().enumerate() {
            match key {
                Some((time, serial)) => keyed.push((*time, *serial, self.named(self.store.agenda[place]))),
                None => assert_eq!(self.store.agenda[place], 0),
            }
        }
        events.sort();
        keyed.sort();
        assert_eq!(keyed, events);
        let reached = self.graph.reached();
        let mut seen = 0;
        for (number, block) in occupied_blocks(&self.store) {
            let record = self.owner[&number];
            if block.forwarding == number && reached[record] {
                seen += 1;
                assert_eq!(block.words, self.graph.records[record].words);
                let references: Vec<_> = block.references.iter().map(|&number| self.named(number)).collect();
                assert_eq!(references, self.graph.records[record].references);
            }
        }
        assert_eq!(seen, reached.iter().filter(|&&reached| reached).count());
    }

    /// In roots and marking: what is marked is to be kept; what is to be kept is marked,
    /// or will be through a root not yet taken or a block of the work list.
    fn check_colours(&self, next_root: usize) {
        let kept = self.to_be_kept();
        let mut found = vec![false; kept.len()];
        let mut pending = self.store.work_list.clone();
        pending.extend(self.store.holder.iter().chain(&self.store.agenda).skip(next_root));
        while let Some(number) = pending.pop() {
            let form = self.store.current_form(number);
            let Some(block) = self.store.block(form) else {
                continue;
            };
            let record = self.owner[&form];
            if !found[record] {
                found[record] = true;
                pending.extend(&block.references);
            }
        }
        for (number, block) in occupied_blocks(&self.store) {
            if block.marked {
                assert_eq!(block.forwarding, number, "a husk is marked");
                assert!(kept[self.owner[&number]]);
                found[self.owner[&number]] = true;
            }
        }
        assert!((0..kept.len()).all(|record| found[record] || !kept[record]), "a record would be lost");
    }

    /// In sweeping: behind the next page all is unmarked, current and to be kept; ahead just that is marked.
    fn check_half_swept(&self, next_page: usize) {
        let kept = self.to_be_kept();
        for (number, block) in occupied_blocks(&self.store) {
            let keep = block.forwarding == number && kept[self.owner[&number]];
            let ahead = page_and_slot(number).0 >= next_page;
            assert_eq!(block.marked, ahead && keep);
            assert!(ahead || keep);
        }
    }
}

/// The current forms among the numbers that are not nil and not marked, each once, in order.
fn newly_grey(before: &Store, numbers: &[u32]) -> Vec<u32> {
    let mut greyed = Vec::new();
    for &number in numbers {
        let form = before.current_form(number);
        if before.block(form).is_some_and(|block| !block.marked) && !greyed.contains(&form) {
            greyed.push(form);
        }
    }
    greyed
}

fn occupied_blocks(store: &Store) -> Vec<(u32, &Block)> {
    let mut blocks = Vec::new();
    for (page, cut) in store.pages.iter().enumerate() {
        for (slot, block) in cut.iter().flat_map(|cut| cut.blocks.iter().enumerate()) {
            blocks.extend(block.as_ref().map(|block| (block_number(page, slot), block)));
        }
    }
    blocks
}

fn pages_with(store: &Store, wanted: impl Fn(&CutPage) -> bool) -> Vec<usize> {
    (0..PAGES).filter(|&page| store.pages[page].as_ref().is_some_and(&wanted)).collect()
}

fn occupancy(store: &Store, page: usize) -> usize {
    store.pages[page].as_ref().map_or(0, |cut| cut.blocks.iter().flatten().count())
}

fn free(store: &Store, page: usize) -> usize {
    store.pages[page].as_ref().map_or(0, |cut| cut.blocks.iter().filter(|block| block.is_none()).count())
}

fn current_slots(store: &Store, page: usize) -> Vec<usize> {
    let count = store.pages[page].as_ref().map_or(0, |cut| cut.blocks.len());
    let current = |slot: &usize| {
        let number = block_number(page, *slot);
        store.block(number).is_some_and(|block| block.forwarding == number)
    };
    (0..count).filter(current).collect()
}

/// The slots of a page that have a block.
fn slots(page: &Option<CutPage>) -> Vec<bool> {
    page.iter().flat_map(|cut| cut.blocks.iter().map(Option::is_some)).collect()
}

fn replaced(row: &[u32], index: usize, number: u32) -> Vec<u32> {
    let mut row = row.to_vec();
    row[index] = number;
    row
}
