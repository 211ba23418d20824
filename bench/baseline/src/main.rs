//! The workloads of the benchmark: `baseline ROUNDS [WORKLOAD [SLOTS [TIMES]]]`. The program `bench` of the repository prints the same
//! lines for the same arguments.
mod format;
mod machine;
mod memory;
mod policy;
mod slots;

use format::{Format, X86};
use machine::{Machine, Outcome, Refusal, Tallies};
use memory::Memory;
use policy::{Hand, Old, Policy};
use std::error::Error;
use std::fmt;

const DIRECTORIES: u32 = 3;
const FIRST_TABLE: u32 = 4;
const TABLES: u32 = 7;
const FIRST_PAGE: u32 = 16;
const PAGES: u32 = 64;
const FRAMES: usize = 80;

/// Present and writable; the same, accessed and dirty.
const OPEN: u32 = 0x003;
const USED: u32 = 0x063;

fn page_entry(page: u32) -> u32 {
    (FIRST_PAGE + page % PAGES) << 12 | USED
}

fn page_address(table: u32, page: u32) -> u32 {
    table << 22 | page << 12
}

/// Table 0 maps every table's frame, its own among them, behind the pages.
fn entry_address(table: u32, page: u32) -> u32 {
    (PAGES + table) << 12 | page << 2
}

fn guest_memory() -> Memory {
    let mut memory = Memory::new(FRAMES);
    for table in 0..TABLES {
        for directory in 0..DIRECTORIES {
            let frame = FIRST_TABLE + (table + directory) % TABLES;
            memory.write(directory, table as usize, frame << 12 | OPEN);
        }
        for page in 0..PAGES {
            let entry = (FIRST_PAGE + page) << 12 | OPEN;
            memory.write(FIRST_TABLE + table, page as usize, entry);
        }
        let own = (FIRST_TABLE + table) << 12 | OPEN;
        memory.write(FIRST_TABLE, (PAGES + table) as usize, own);
    }
    for page in 0..PAGES {
        memory.write(FIRST_PAGE + page, 0, page + 1);
    }
    memory
}

#[derive(Debug)]
enum Trouble {
    Refused(Refusal),
    Faulted(u32),
}

impl fmt::Display for Trouble {
    fn fmt(&self, f: &mut fmt::Formatter<'_>) -> fmt::Result {
        match self {
            Trouble::Refused(refusal) => write!(f, "refused {}", *refusal as u8),
            Trouble::Faulted(address) => write!(f, "fault at {address:08x}"),
        }
    }
}

impl Error for Trouble {}

impl From<Refusal> for Trouble {
    fn from(refusal: Refusal) -> Trouble {
        Trouble::Refused(refusal)
    }
}

fn came_through(outcome: Outcome) -> Result<u32, Trouble> {
    match outcome {
        Outcome::Through(through) => Ok(through.value),
        Outcome::Faulted(fault) => Err(Trouble::Faulted(fault.address)),
    }
}

fn load<F: Format, P: Policy>(machine: &mut Machine<F, P>, address: u32) -> Result<u32, Trouble> {
    came_through(machine.load(address)?)
}

fn store<F: Format, P: Policy>(
    machine: &mut Machine<F, P>,
    address: u32,
    word: u32,
) -> Result<u32, Trouble> {
    came_through(machine.store(address, word)?)
}

/// The addresses of all pages, dealt out to so many tables.
fn dealt(tables: u32) -> [u32; PAGES as usize] {
    std::array::from_fn(|page| {
        let page = page as u32;
        page_address(page % tables, page) | page << 6
    })
}

fn hits<F: Format, P: Policy>(
    machine: &mut Machine<F, P>,
    tables: u32,
    rounds: u32,
) -> Result<u32, Trouble> {
    let addresses = dealt(tables);
    let mut sum = 0u32;
    for address in addresses {
        store(machine, address, 1)?;
    }
    for round in 0..rounds {
        for address in addresses {
            sum = sum.wrapping_add(load(machine, address)?);
            store(machine, address, round)?;
        }
    }
    Ok(sum)
}

fn misses<F: Format, P: Policy>(
    machine: &mut Machine<F, P>,
    tables: u32,
    rounds: u32,
) -> Result<u32, Trouble> {
    let addresses = dealt(tables);
    let mut sum = 0u32;
    for address in addresses {
        store(machine, address, 1)?;
    }
    for round in 0..rounds {
        for address in addresses {
            machine.flush_page(address)?;
            if round % 2 == 0 {
                sum = sum.wrapping_add(load(machine, address)?);
            } else {
                store(machine, address, round)?;
            }
        }
    }
    Ok(sum)
}

fn edits<F: Format, P: Policy>(
    machine: &mut Machine<F, P>,
    tables: u32,
    rounds: u32,
) -> Result<u32, Trouble> {
    let mut sum = 0u32;
    for page in 0..PAGES {
        load(machine, page_address(0, page))?;
    }
    for table in 1..tables {
        load(machine, page_address(table, 0))?;
    }
    for round in 0..rounds {
        let page = round % PAGES;
        store(
            machine,
            entry_address(0, page),
            page_entry(page + round / PAGES + 1),
        )?;
        machine.flush_all()?;
        sum = sum.wrapping_add(load(machine, page_address(0, page))?);
    }
    Ok(sum)
}

fn switches<F: Format, P: Policy>(
    machine: &mut Machine<F, P>,
    rounds: u32,
) -> Result<u32, Trouble> {
    let mut sum = 0u32;
    load(machine, 0)?;
    for _ in 0..rounds {
        for root in [1, 2, 0] {
            machine.switch(root)?;
            sum = sum.wrapping_add(load(machine, 0)?);
        }
    }
    Ok(sum)
}

fn guards<F: Format, P: Policy>(
    machine: &mut Machine<F, P>,
    tables: u32,
    rounds: u32,
) -> Result<u32, Trouble> {
    let mut sum = 0u32;
    for table in 0..tables {
        for page in 0..PAGES {
            load(machine, page_address(table, page))?;
        }
    }
    for round in 0..rounds {
        let page = round % PAGES;
        let entry = page_entry(page + round / PAGES + 1);
        for table in 1..tables {
            store(machine, entry_address(table, page), entry)?;
        }
        machine.flush_all()?;
        for table in 1..tables {
            sum = sum.wrapping_add(load(machine, page_address(table, page))?);
        }
    }
    Ok(sum)
}

/// The figures of several runs together, and the sum of the words that were read, modulo 2^32.
#[derive(Default)]
struct Figures {
    counts: [u64; 8],
    sum: u32,
}

impl Figures {
    fn add(&mut self, run: Tallies, sum: u32) {
        let Tallies {
            calls,
            hits,
            hidden,
            true_exits,
            trace,
            flush,
            switch,
            evictions,
        } = run;
        let counts = [
            calls, hits, hidden, true_exits, trace, flush, switch, evictions,
        ];
        for (total, count) in self.counts.iter_mut().zip(counts) {
            *total += u64::from(count);
        }
        self.sum = self.sum.wrapping_add(sum);
    }
}

impl fmt::Display for Figures {
    fn fmt(&self, f: &mut fmt::Formatter<'_>) -> fmt::Result {
        let names = [
            "calls",
            "hits",
            "hidden",
            "true",
            "trace",
            "flush",
            "switch",
            "evictions",
        ];
        for (name, count) in names.iter().zip(self.counts) {
            write!(f, "{name} {count} ")?;
        }
        write!(f, "sum {:08x}", self.sum)
    }
}

/// So many rounds, in as many runs as they need.
fn in_runs<F: Format, P: Policy>(
    mut machine: Machine<F, P>,
    letter: char,
    slots: usize,
    rounds: u32,
    times: usize,
) -> Result<Figures, Trouble> {
    let most = match letter {
        'a' | 'b' => 131_000,
        'c' => 5_500_000,
        'd' => 2_700_000,
        _ => 1_200_000,
    };
    let mut figures = Figures::default();
    let mut runs = vec![most; (rounds / most) as usize];
    runs.push(rounds % most);
    for rounds in std::iter::repeat_n(runs, times).flatten() {
        machine.open(0, slots)?;
        let tables = slots as u32 - 1;
        let sum = match letter {
            'a' => hits(&mut machine, tables, rounds)?,
            'b' => misses(&mut machine, tables, rounds)?,
            'c' => edits(&mut machine, tables, rounds)?,
            'd' => switches(&mut machine, rounds)?,
            _ => guards(&mut machine, tables, rounds)?,
        };
        figures.add(machine.close()?, sum);
    }
    Ok(figures)
}

fn main() -> Result<(), Box<dyn Error>> {
    let mut arguments = std::env::args().skip(1);
    let rounds: u32 = arguments
        .next()
        .ok_or("usage: baseline ROUNDS [a|b|c|d|e [SLOTS [TIMES]]]")?
        .parse()?;
    let letters = arguments.next().unwrap_or_else(|| "abcde".into());
    let asked: Option<usize> = arguments.next().map(|text| text.parse()).transpose()?;
    let times: usize = arguments.next().map_or(Ok(1), |text| text.parse())?;
    for letter in letters.chars() {
        let usual = match letter {
            'a' | 'b' | 'e' => 8,
            'c' => 4,
            'd' => 2,
            _ => return Err("the workloads are a, b, c, d and e".into()),
        };
        let slots = asked.unwrap_or(usual);
        let memory = guest_memory();
        let figures = if letter == 'd' {
            in_runs(
                Machine::<X86, _>::new(memory, Old::default()),
                letter,
                slots,
                rounds,
                times,
            )?
        } else {
            in_runs(
                Machine::<X86, _>::new(memory, Hand::default()),
                letter,
                slots,
                rounds,
                times,
            )?
        };
        println!("{letter} {figures}");
    }
    Ok(())
}
