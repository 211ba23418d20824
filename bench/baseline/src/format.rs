//! Page formats.

#[derive(Clone, Copy, PartialEq, Eq)]
pub enum Kind {
    Load,
    Store,
}

#[derive(Clone, Copy, PartialEq, Eq)]
pub enum Privilege {
    User,
    Supervisor,
}

#[derive(Clone, Copy, PartialEq, Eq)]
pub enum Level {
    Directory,
    Table,
}

pub enum Entry {
    Absent,
    Malformed,
    Table(u32),
    Page(u32),
}

#[derive(Clone, Copy, PartialEq, Eq)]
pub enum Reason {
    Absent,
    Malformed,
    Denied,
    Outside,
}

pub trait Format {
    fn read(level: Level, word: u32) -> Entry;
    /// Do the words read, from the root down, allow the access?
    fn allows(words: &[u32], kind: Kind, privilege: Privilege) -> bool;
    /// The word as an access leaves it.
    fn mark(level: Level, kind: Kind, word: u32) -> u32;
    fn code(reason: Reason, kind: Kind, privilege: Privilege) -> u32;
}

/// 32-bit x86 with 4 MiB pages and supervisor write protection.
pub struct X86;

const PRESENT: u32 = 1 << 0;
const WRITABLE: u32 = 1 << 1;
const FOR_USER: u32 = 1 << 2;
const ACCESSED: u32 = 1 << 5;
const DIRTY: u32 = 1 << 6;
const LARGE: u32 = 1 << 7;
const RESERVED: u32 = 0x1ff << 13;

impl Format for X86 {
    #[inline]
    fn read(level: Level, word: u32) -> Entry {
        if word & PRESENT == 0 {
            Entry::Absent
        } else if level == Level::Table {
            Entry::Page(word >> 12)
        } else if word & LARGE == 0 {
            Entry::Table(word >> 12)
        } else if word & RESERVED == 0 {
            Entry::Page((word >> 22) << 10)
        } else {
            Entry::Malformed
        }
    }

    #[inline]
    fn allows(words: &[u32], kind: Kind, privilege: Privilege) -> bool {
        let mut needed = 0;
        if kind == Kind::Store {
            needed |= WRITABLE;
        }
        if privilege == Privilege::User {
            needed |= FOR_USER;
        }
        words.iter().all(|word| word & needed == needed)
    }

    #[inline]
    fn mark(level: Level, kind: Kind, word: u32) -> u32 {
        match Self::read(level, word) {
            Entry::Page(_) if kind == Kind::Store => word | ACCESSED | DIRTY,
            Entry::Page(_) | Entry::Table(_) => word | ACCESSED,
            Entry::Absent | Entry::Malformed => word,
        }
    }

    fn code(reason: Reason, kind: Kind, privilege: Privilege) -> u32 {
        let store = if kind == Kind::Store { 2 } else { 0 };
        let user = if privilege == Privilege::User { 4 } else { 0 };
        match reason {
            Reason::Absent => store + user,
            Reason::Denied => 1 + store + user,
            Reason::Malformed => 9 + store + user,
            Reason::Outside => 4096,
        }
    }
}
