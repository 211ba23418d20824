//! Shadow slots.
use crate::memory::FRAME_WORDS;

#[derive(Clone, Copy, PartialEq, Eq)]
pub enum Shadow {
    Nothing,
    Directory(u32),
    Table { frame: u32, synchronised: bool },
    Split(u32),
}

/// What a slot can be asked to shadow.
#[derive(Clone, Copy, PartialEq, Eq)]
pub enum Thing {
    Directory(u32),
    Table(u32),
    Split(u32),
}

#[derive(Clone, Copy, PartialEq, Eq)]
pub enum Place {
    Empty,
    Link { word: u32, slot: usize },
    Leaf { word: u32, aim: u32, writable: bool },
    Piece { writable: bool },
}

pub struct Slot {
    pub shadow: Shadow,
    pub places: [Place; FRAME_WORDS],
}

impl Shadow {
    #[inline]
    pub fn is(self, thing: Thing) -> bool {
        match (self, thing) {
            (Shadow::Directory(mine), Thing::Directory(frame)) => mine == frame,
            (Shadow::Table { frame: mine, .. }, Thing::Table(frame)) => mine == frame,
            (Shadow::Split(mine), Thing::Split(frame)) => mine == frame,
            _ => false,
        }
    }
}

impl Slot {
    pub fn new() -> Slot {
        Slot {
            shadow: Shadow::Nothing,
            places: [Place::Empty; FRAME_WORDS],
        }
    }

    pub fn reset(&mut self, shadow: Shadow) {
        self.shadow = shadow;
        self.places.fill(Place::Empty);
    }

    pub fn fill(&mut self, thing: Thing) {
        self.reset(match thing {
            Thing::Directory(frame) => Shadow::Directory(frame),
            Thing::Table(frame) => Shadow::Table {
                frame,
                synchronised: true,
            },
            Thing::Split(frame) => Shadow::Split(frame),
        });
    }

    /// Empties every link to a slot.
    pub fn unlink(&mut self, below: usize) {
        if !matches!(self.shadow, Shadow::Directory(_)) {
            return;
        }
        for place in &mut self.places {
            if matches!(*place, Place::Link { slot, .. } if slot == below) {
                *place = Place::Empty;
            }
        }
    }

    /// Empties every leaf that was copied from another word.
    pub fn check(&mut self, words: &[u32; FRAME_WORDS]) {
        for (place, &now) in self.places.iter_mut().zip(words) {
            if matches!(*place, Place::Leaf { word, .. } if word != now) {
                *place = Place::Empty;
            }
        }
    }

    /// Takes the flag off whatever aims at a frame.
    pub fn guard(&mut self, frame: u32) {
        match self.shadow {
            Shadow::Nothing | Shadow::Directory(_) => {}
            Shadow::Table { .. } => {
                for place in &mut self.places {
                    if let Place::Leaf { aim, writable, .. } = place
                        && *aim == frame
                    {
                        *writable = false;
                    }
                }
            }
            Shadow::Split(first) => {
                let offset = frame.wrapping_sub(first) as usize;
                if let Some(Place::Piece { writable }) = self.places.get_mut(offset) {
                    *writable = false;
                }
            }
        }
    }
}
