//! The machine: a guest memory with shadow slots over it.
use crate::format::{Entry, Format, Kind, Level, Privilege, Reason};
use crate::memory::{FRAME_WORDS, Memory, NO_FRAME};
use crate::policy::Policy;
use crate::slots::{Place, Shadow, Slot, Thing};
use std::marker::PhantomData;

const CALL_LIMIT: u32 = 16_777_216;

#[derive(Clone, Copy, PartialEq, Eq, Debug)]
pub enum Refusal {
    RunOpen = 1,
    NoRun = 2,
    NoWords = 3,
    SlotCount = 4,
    Unaligned = 5,
    FaultPending = 6,
    CallLimit = 7,
}

#[derive(Clone, Copy, PartialEq, Eq)]
pub enum Exit {
    None,
    Hidden,
    Trace,
}

#[derive(Clone, Copy)]
#[allow(dead_code)]
pub struct Fault {
    pub address: u32,
    pub reason: Reason,
    pub level: u8,
    pub frame: u32,
    pub index: u32,
    pub code: u32,
    pub cause: u32,
}

/// An entry that was marked, and the word that it now is.
#[derive(Clone, Copy)]
#[allow(dead_code)]
pub struct Mark {
    pub frame: u32,
    pub index: usize,
    pub word: u32,
}

#[derive(Clone, Copy)]
#[allow(dead_code)]
pub struct Through {
    pub value: u32,
    pub frame: u32,
    pub marks: [Option<Mark>; 2],
    pub exit: Exit,
}

pub enum Outcome {
    Through(Through),
    Faulted(Fault),
}

#[derive(Clone, Copy, Default)]
pub struct Tallies {
    pub calls: u32,
    pub hits: u32,
    pub hidden: u32,
    pub true_exits: u32,
    pub trace: u32,
    pub flush: u32,
    pub switch: u32,
    pub evictions: u32,
}

#[derive(Clone, Copy)]
struct Access {
    kind: Kind,
    address: u32,
    privilege: Privilege,
}

impl Access {
    fn directory_index(self) -> usize {
        (self.address >> 22) as usize
    }

    fn table_index(self) -> usize {
        (self.address >> 12) as usize % FRAME_WORDS
    }

    fn word_index(self) -> usize {
        (self.address >> 2) as usize % FRAME_WORDS
    }
}

struct Walked {
    target: u32,
    /// The frame of the table, where there is one.
    table: Option<u32>,
}

pub struct Machine<F, P> {
    memory: Memory,
    slots: Vec<Slot>,
    count: usize,
    policy: P,
    root: u32,
    /// The slot of the root's directory.
    root_slot: usize,
    mode: Privilege,
    pending: Option<Fault>,
    tallies: Tallies,
    running: bool,
    format: PhantomData<F>,
}

impl<F: Format, P: Policy> Machine<F, P> {
    pub fn new(memory: Memory, policy: P) -> Machine<F, P> {
        Machine {
            memory,
            slots: (0..8).map(|_| Slot::new()).collect(),
            count: 0,
            policy,
            root: 0,
            root_slot: 0,
            mode: Privilege::Supervisor,
            pending: None,
            tallies: Tallies::default(),
            running: false,
            format: PhantomData,
        }
    }

    pub fn open(&mut self, root: u32, count: usize) -> Result<(), Refusal> {
        if self.running {
            return Err(Refusal::RunOpen);
        }
        if !(2..=8).contains(&count) {
            return Err(Refusal::SlotCount);
        }
        if !self.memory.has(root) {
            return Err(Refusal::NoWords);
        }
        for slot in &mut self.slots {
            slot.reset(Shadow::Nothing);
        }
        self.count = count;
        self.policy.start(count);
        self.tallies = Tallies::default();
        self.mode = Privilege::Supervisor;
        self.pending = None;
        self.root = root;
        self.root_slot = self.take(None, Thing::Directory(root));
        self.running = true;
        Ok(())
    }

    pub fn close(&mut self) -> Result<Tallies, Refusal> {
        self.ready()?;
        self.running = false;
        Ok(self.tallies)
    }

    pub fn load(&mut self, address: u32) -> Result<Outcome, Refusal> {
        self.access(Kind::Load, address, 0)
    }

    pub fn store(&mut self, address: u32, word: u32) -> Result<Outcome, Refusal> {
        self.access(Kind::Store, address, word)
    }

    pub fn flush_all(&mut self) -> Result<(), Refusal> {
        self.ready_to_count()?;
        self.synchronise_all();
        self.tallies.calls += 1;
        self.tallies.flush += 1;
        Ok(())
    }

    pub fn flush_page(&mut self, address: u32) -> Result<(), Refusal> {
        self.ready_to_count()?;
        let access = Access {
            kind: Kind::Load,
            address,
            privilege: self.mode,
        };
        let link = self.slots[self.root_slot].places[access.directory_index()];
        if let Place::Link { slot, .. } = link {
            self.slots[slot].places[access.table_index()] = Place::Empty;
        }
        self.tallies.calls += 1;
        self.tallies.flush += 1;
        Ok(())
    }

    pub fn switch(&mut self, root: u32) -> Result<(), Refusal> {
        self.ready_to_count()?;
        if !self.memory.has(root) {
            return Err(Refusal::NoWords);
        }
        self.synchronise_all();
        let thing = Thing::Directory(root);
        self.root_slot = self.find(thing).unwrap_or_else(|| self.take(None, thing));
        self.root = root;
        self.tallies.calls += 1;
        self.tallies.switch += 1;
        Ok(())
    }

    fn ready(&self) -> Result<(), Refusal> {
        if !self.running {
            return Err(Refusal::NoRun);
        }
        if self.pending.is_some() {
            return Err(Refusal::FaultPending);
        }
        Ok(())
    }

    fn ready_to_count(&self) -> Result<(), Refusal> {
        self.ready()?;
        if self.tallies.calls >= CALL_LIMIT {
            return Err(Refusal::CallLimit);
        }
        Ok(())
    }

    fn access(&mut self, kind: Kind, address: u32, word: u32) -> Result<Outcome, Refusal> {
        self.ready_to_count()?;
        if !address.is_multiple_of(4) {
            return Err(Refusal::Unaligned);
        }
        let access = Access {
            kind,
            address,
            privilege: self.mode,
        };
        self.tallies.calls += 1;
        if let Some((frame, below)) = self.hit(access) {
            let value = self.touch(access, word, frame);
            self.policy.tell(self.root_slot);
            self.policy.tell(below);
            self.tallies.hits += 1;
            let exit = Exit::None;
            return Ok(Outcome::Through(Through {
                value,
                frame,
                marks: [None; 2],
                exit,
            }));
        }
        Ok(self.miss(access, word))
    }

    /// The frame that an access reaches through the slots, and the slot below the directory's.
    fn hit(&self, access: Access) -> Option<(u32, usize)> {
        let kind = access.kind;
        let link = self.slots[self.root_slot].places[access.directory_index()];
        let Place::Link { word: link, slot } = link else {
            return None;
        };
        let below = &self.slots[slot];
        let marked = F::mark(Level::Directory, kind, link) == link;
        let (aim, allowed) = match (below.places[access.table_index()], below.shadow) {
            (
                Place::Leaf {
                    word,
                    aim,
                    writable,
                },
                _,
            ) => {
                let open = writable || kind != Kind::Store;
                let marked = marked && F::mark(Level::Table, kind, word) == word;
                (
                    aim,
                    open && marked && F::allows(&[link, word], kind, access.privilege),
                )
            }
            (Place::Piece { writable }, Shadow::Split(first)) => {
                let open = writable || kind != Kind::Store;
                let aim = first + access.table_index() as u32;
                (
                    aim,
                    open && marked && F::allows(&[link], kind, access.privilege),
                )
            }
            _ => return None,
        };
        allowed.then_some((aim, slot))
    }

    /// The load or store itself.
    fn touch(&mut self, access: Access, word: u32, frame: u32) -> u32 {
        let index = access.word_index();
        match access.kind {
            Kind::Store => {
                self.memory.write(frame, index, word);
                word
            }
            Kind::Load => self.memory.read(frame, index).unwrap_or(0),
        }
    }

    fn miss(&mut self, access: Access, word: u32) -> Outcome {
        let walked = match self.walk(access) {
            Ok(walked) => walked,
            Err(fault) => {
                self.pending = Some(fault);
                self.tallies.true_exits += 1;
                return Outcome::Faulted(fault);
            }
        };
        let marks = self.mark(access, &walked);
        let (below, thing) = self.link(access);
        let frame = walked.target;
        self.write_place(access, below, thing, frame);
        let exit = match access.kind {
            Kind::Store => self.trace(access, below, frame),
            Kind::Load => Exit::Hidden,
        };
        self.policy.tell(self.root_slot);
        self.policy.tell(below);
        let value = self.touch(access, word, frame);
        match exit {
            Exit::Trace => self.tallies.trace += 1,
            Exit::None | Exit::Hidden => self.tallies.hidden += 1,
        }
        Outcome::Through(Through {
            value,
            frame,
            marks,
            exit,
        })
    }

    fn fault(&self, access: Access, reason: Reason, level: u8, frame: u32, index: usize) -> Fault {
        Fault {
            address: access.address,
            reason,
            level,
            frame,
            index: index as u32,
            code: F::code(reason, access.kind, access.privilege),
            cause: if reason == Reason::Outside {
                NO_FRAME
            } else {
                0
            },
        }
    }

    fn walk(&self, access: Access) -> Result<Walked, Fault> {
        let index = access.directory_index();
        let stop = |reason| self.fault(access, reason, 2, self.root, index);
        let word = self
            .memory
            .read(self.root, index)
            .ok_or_else(|| stop(Reason::Outside))?;
        let walked = match F::read(Level::Directory, word) {
            Entry::Absent => return Err(stop(Reason::Absent)),
            Entry::Malformed => return Err(stop(Reason::Malformed)),
            Entry::Table(frame) => self.walk_table(access, word, frame)?,
            Entry::Page(first) => {
                if !F::allows(&[word], access.kind, access.privilege) {
                    return Err(stop(Reason::Denied));
                }
                Walked {
                    target: first + access.table_index() as u32,
                    table: None,
                }
            }
        };
        if !self.memory.has(walked.target) {
            let index = access.word_index();
            return Err(self.fault(access, Reason::Outside, 0, walked.target, index));
        }
        Ok(walked)
    }

    fn walk_table(&self, access: Access, above: u32, frame: u32) -> Result<Walked, Fault> {
        let index = access.table_index();
        let stop = |reason| self.fault(access, reason, 1, frame, index);
        let word = self
            .memory
            .read(frame, index)
            .ok_or_else(|| stop(Reason::Outside))?;
        match F::read(Level::Table, word) {
            Entry::Absent => Err(stop(Reason::Absent)),
            Entry::Malformed | Entry::Table(_) => Err(stop(Reason::Malformed)),
            Entry::Page(target) => {
                if !F::allows(&[above, word], access.kind, access.privilege) {
                    return Err(stop(Reason::Denied));
                }
                Ok(Walked {
                    target,
                    table: Some(frame),
                })
            }
        }
    }

    /// Writes the marks that are due, the directory's word first.
    fn mark(&mut self, access: Access, walked: &Walked) -> [Option<Mark>; 2] {
        let kind = access.kind;
        let index = access.directory_index();
        let directory = self.mark_entry(Level::Directory, kind, self.root, index);
        let table = walked
            .table
            .and_then(|frame| self.mark_entry(Level::Table, kind, frame, access.table_index()));
        [directory, table]
    }

    fn mark_entry(&mut self, level: Level, kind: Kind, frame: u32, index: usize) -> Option<Mark> {
        let word = self.memory.read(frame, index)?;
        let marked = F::mark(level, kind, word);
        if marked == word {
            return None;
        }
        self.memory.write(frame, index, marked);
        Some(Mark {
            frame,
            index,
            word: marked,
        })
    }

    /// The slot below the link of an access, and what it shadows. A link that is not good is written anew.
    fn link(&mut self, access: Access) -> (usize, Thing) {
        let index = access.directory_index();
        let word = self.memory.read(self.root, index).unwrap_or(0);
        let thing = match F::read(Level::Directory, word) {
            Entry::Table(frame) => Thing::Table(frame),
            Entry::Page(frame) => Thing::Split(frame),
            Entry::Absent | Entry::Malformed => Thing::Split(0),
        };
        if let Place::Link { word: copied, slot } = self.slots[self.root_slot].places[index]
            && copied == word
            && self.slots[slot].shadow.is(thing)
        {
            return (slot, thing);
        }
        let below = match self.find(thing) {
            Some(slot) => {
                self.synchronise(slot);
                slot
            }
            None => self.take(Some(self.root_slot), thing),
        };
        self.slots[self.root_slot].places[index] = Place::Link { word, slot: below };
        (below, thing)
    }

    fn write_place(&mut self, access: Access, below: usize, thing: Thing, aim: u32) {
        let index = access.table_index();
        let writable = access.kind == Kind::Store;
        self.slots[below].places[index] = match thing {
            Thing::Directory(_) => Place::Empty,
            Thing::Table(frame) => {
                let word = self.memory.read(frame, index).unwrap_or(0);
                Place::Leaf {
                    word,
                    aim,
                    writable,
                }
            }
            Thing::Split(_) => Place::Piece { writable },
        };
    }

    /// Sees to the slots that copied the frame of a store.
    fn trace(&mut self, access: Access, below: usize, frame: u32) -> Exit {
        if self.find(Thing::Directory(frame)).is_some() {
            match &mut self.slots[below].places[access.table_index()] {
                Place::Leaf { writable, .. } | Place::Piece { writable } => *writable = false,
                Place::Empty | Place::Link { .. } => {}
            }
            for slot in &mut self.slots[..self.count] {
                if matches!(slot.shadow,
                    Shadow::Directory(of) | Shadow::Table { frame: of, .. } if of == frame)
                {
                    slot.places[access.word_index()] = Place::Empty;
                }
            }
            return Exit::Trace;
        }
        if let Some(slot) = self.find(Thing::Table(frame))
            && let Shadow::Table { synchronised, .. } = &mut self.slots[slot].shadow
            && *synchronised
        {
            *synchronised = false;
            return Exit::Trace;
        }
        Exit::Hidden
    }

    fn find(&self, thing: Thing) -> Option<usize> {
        self.slots[..self.count]
            .iter()
            .position(|slot| slot.shadow.is(thing))
    }

    fn guard(&mut self, frame: u32) {
        for slot in &mut self.slots[..self.count] {
            slot.guard(frame);
        }
    }

    /// Checks the table of a slot against guest memory, if it is unsynchronised.
    fn synchronise(&mut self, slot: usize) {
        if let Shadow::Table {
            frame,
            synchronised: false,
        } = self.slots[slot].shadow
        {
            self.slots[slot].shadow = Shadow::Table {
                frame,
                synchronised: true,
            };
            if let Some(words) = self.memory.frame(frame) {
                self.slots[slot].check(words);
            }
            self.guard(frame);
        }
    }

    fn synchronise_all(&mut self) {
        for slot in 0..self.count {
            self.synchronise(slot);
        }
    }

    /// Takes a slot for a thing. Slot `kept` is not evicted.
    fn take(&mut self, kept: Option<usize>, thing: Thing) -> usize {
        let slots = &self.slots[..self.count];
        let empty = slots.iter().position(|slot| slot.shadow == Shadow::Nothing);
        let slot = empty.unwrap_or_else(|| self.evict(kept));
        if let Thing::Directory(frame) = thing
            && let Some(table) = self.find(Thing::Table(frame))
        {
            self.synchronise(table);
        }
        self.slots[slot].fill(thing);
        match thing {
            Thing::Directory(frame) | Thing::Table(frame) => self.guard(frame),
            Thing::Split(_) => {}
        }
        self.policy.tell(slot);
        slot
    }

    /// Makes room. All slots are filled; the places of the one that goes are emptied when it is filled.
    fn evict(&mut self, kept: Option<usize>) -> usize {
        let all = u8::MAX >> (8 - self.count);
        let slot = self
            .policy
            .name(kept.map_or(all, |kept| all & !(1 << kept)));
        for each in &mut self.slots[..self.count] {
            each.unlink(slot);
        }
        self.slots[slot].shadow = Shadow::Nothing;
        self.tallies.evictions += 1;
        slot
    }
}
