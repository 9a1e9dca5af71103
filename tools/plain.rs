// What `bench figures` times, in plain Rust that is written for speed: tables of a power of two, at most half full and
// cleared where they are used, slots of 16 bytes, no index checked on the way. It goes over the same registers and keys in the
// same order and prints the same lines; where the sums at the ends agree, both found the same.
//
//     rustc --edition 2024 -O tools/plain.rs -o plain && ./plain
use std::hint::black_box;
use std::mem::MaybeUninit;
use std::time::Instant;

const REGISTERS: u32 = 8;

// How many look-ups are timed at once.
const QUESTIONS: u32 = 16384;

// Numbers from here on give the keys that no register has.
const OTHERS: u32 = 1 << 31;

// How many runs the least time is taken of.
const RUNS: usize = 15;

// The registers that are timed.
const SHAPES: [Shape; 4] = [
    Shape {
        name: "8 registers of 4,096 blocks of 1 to 4 rows of 2 columns",
        blocks: 4096,
        columns: 2,
        most: false,
        copies: 1,
    },
    Shape {
        name: "8 registers of 64 blocks of 1 to 4 rows of 2 columns",
        blocks: 64,
        columns: 2,
        most: false,
        copies: 16,
    },
    Shape {
        name: "8 registers of 2 blocks of one row of 2 columns",
        blocks: 2,
        columns: 2,
        most: false,
        copies: 256,
    },
    Shape {
        name: "8 registers of 4,096 blocks of 64 rows of 8 columns",
        blocks: 4096,
        columns: 8,
        most: true,
        copies: 1,
    },
];

// A register in the slice.
#[derive(Clone, Copy, Default)]
struct Section {
    place: usize,
    end: usize,
    blocks: usize,
    columns: usize,
    first: usize,
}

struct Directory {
    count: usize,
    blocks: usize,
    sections: [Section; 8],
}

// A key and the number of its block, counted from 1; 0 where the slot is free.
#[derive(Clone, Copy)]
struct Slot {
    key: u64,
    entry: u64,
}

const FREE: Slot = Slot { key: 0, entry: 0 };

#[inline(always)]
fn at(base: &[u64], i: usize) -> u64 {
    unsafe { *base.get_unchecked(i) }
}

// How many numbers stand before the first one that is too large.
fn before_large(base: &[u64]) -> usize {
    if base.iter().fold(0, |bits, x| bits | x) < 1 << 32 {
        return base.len();
    }
    base.iter().take_while(|x| **x < 1 << 32).count()
}

fn section_at(base: &[u64], place: usize, first: usize, large: usize) -> Option<Section> {
    if base.len() - place < 2 {
        return None;
    }
    let (blocks, columns) = (at(base, place), at(base, place + 1));
    if blocks > 4096 || columns == 0 || columns > 8 {
        return None;
    }
    let (blocks, columns) = (blocks as usize, columns as usize);
    let mut end = place + 2;
    for _ in 0..blocks {
        if base.len() - end < 2 {
            return None;
        }
        let rows = at(base, end + 1);
        if rows > 64 {
            return None;
        }
        end += 2 + rows as usize * columns;
        if end > base.len() {
            return None;
        }
    }
    (end <= large).then_some(Section {
        place,
        end,
        blocks,
        columns,
        first,
    })
}

#[inline(never)]
fn survey(base: &[u64]) -> Option<Directory> {
    let count = *base.first()? as usize;
    if count == 0 || count > 8 {
        return None;
    }
    let large = before_large(base);
    let mut sections = [Section::default(); 8];
    let (mut place, mut blocks) = (1, 0);
    for section in &mut sections[..count] {
        *section = section_at(base, place, blocks, large)?;
        place = section.end;
        blocks += section.blocks;
    }
    (large == base.len()).then_some(Directory {
        count,
        blocks,
        sections,
    })
}

// The table of one register.
#[derive(Clone, Copy)]
struct Table {
    slots: *mut Slot,
    mask: usize,
    shift: u32,
}

impl Table {
    // How many slots a table for so many blocks has.
    #[inline(always)]
    fn size(blocks: usize) -> usize {
        (2 * blocks.max(1)).next_power_of_two()
    }

    // A free table for so many blocks, from a slot on.
    #[inline(always)]
    unsafe fn cleared(slots: *mut Slot, blocks: usize) -> Table {
        let size = Table::size(blocks);
        unsafe { std::slice::from_raw_parts_mut(slots, size).fill(FREE) };
        Table {
            slots,
            mask: size - 1,
            shift: 64 - size.trailing_zeros(),
        }
    }

    // The key's own slot or the first free one on its way.
    #[inline(always)]
    fn probe(&self, key: u64) -> *mut Slot {
        let mut i = (key.wrapping_mul(0x9e37_79b9_7f4a_7c15) >> self.shift) as usize;
        loop {
            let slot = unsafe { self.slots.add(i) };
            let Slot { key: own, entry } = unsafe { *slot };
            if entry == 0 || own == key {
                return slot;
            }
            i = (i + 1) & self.mask;
        }
    }

    // Enters all blocks of a register; false where a key has two blocks or a block has no row.
    #[inline(always)]
    unsafe fn enter(&self, base: &[u64], section: &Section, places: *mut usize) -> bool {
        let mut place = section.place + 2;
        for i in 0..section.blocks {
            let key = at(base, place);
            let rows = at(base, place + 1) as usize;
            let slot = self.probe(key);
            unsafe {
                if rows == 0 || (*slot).entry != 0 {
                    return false;
                }
                *slot = Slot {
                    key,
                    entry: i as u64 + 1,
                };
                *places.add(i) = place;
            }
            place += 2 + rows * section.columns;
        }
        true
    }
}

struct Index<'a> {
    base: &'a [u64],
    directory: &'a Directory,
    tables: [Table; 8],
    places: *const usize,
}

impl Index<'_> {
    #[inline(always)]
    fn find(&self, t: usize, key: u64) -> Option<usize> {
        if t >= self.directory.count {
            return None;
        }
        let entry = unsafe { (*self.tables.get_unchecked(t).probe(key)).entry };
        (entry != 0).then(|| entry as usize - 1)
    }

    // The sum of the first row of a block.
    #[inline(always)]
    fn first_row(&self, t: usize, number: usize) -> Option<u64> {
        unsafe {
            let section = self.directory.sections.get_unchecked(t);
            let place = *self.places.add(section.first + number);
            if at(self.base, place + 1) == 0 {
                return None;
            }
            let row = self
                .base
                .get_unchecked(place + 2..place + 2 + section.columns);
            Some(row.iter().fold(0, |sum: u64, x| sum.wrapping_add(*x)))
        }
    }
}

fn fill<'a>(
    base: &'a [u64],
    directory: &'a Directory,
    slots: &mut [MaybeUninit<Slot>],
    places: &mut [MaybeUninit<usize>],
) -> Option<Index<'a>> {
    let slots: *mut Slot = slots.as_mut_ptr().cast();
    let places: *mut usize = places.as_mut_ptr().cast();
    let none = Table {
        slots,
        mask: 0,
        shift: 0,
    };
    let mut tables = [none; 8];
    let mut from = 0;
    for (section, table) in directory.sections[..directory.count]
        .iter()
        .zip(&mut tables)
    {
        unsafe {
            *table = Table::cleared(slots.add(from), section.blocks);
            if !table.enter(base, section, places.add(section.first)) {
                return None;
            }
        }
        from += Table::size(section.blocks);
    }
    Some(Index {
        base,
        directory,
        tables,
        places,
    })
}

#[inline(never)]
fn try_fill<const SLOTS: usize, const PLACES: usize>(base: &[u64], directory: &Directory) -> bool {
    let mut slots = [MaybeUninit::uninit(); SLOTS];
    let mut places = [MaybeUninit::uninit(); PLACES];
    fill(base, directory, &mut slots, &mut places).is_some()
}

#[inline(never)]
fn try_each(base: &[u64], directory: &Directory) -> bool {
    directory.sections[..directory.count].iter().all(|section| {
        let mut slots = [MaybeUninit::<Slot>::uninit(); 8192];
        let mut places = [MaybeUninit::<usize>::uninit(); 4096];
        unsafe {
            Table::cleared(slots.as_mut_ptr().cast(), section.blocks).enter(
                base,
                section,
                places.as_mut_ptr().cast(),
            )
        }
    })
}

#[inline(never)]
fn check(base: &[u64]) -> bool {
    let Some(directory) = survey(base) else {
        return false;
    };
    match directory.blocks {
        0..=16 => try_fill::<80, 16>(base, &directory),
        17..=512 => try_fill::<2064, 512>(base, &directory),
        _ => try_each(base, &directory),
    }
}

// A number scattered over 32 bits; different numbers give different ones.
fn scattered(n: u32) -> u32 {
    let once = (n ^ (n >> 16)).wrapping_mul(0x85eb_ca6b);
    let twice = (once ^ (once >> 13)).wrapping_mul(0xc2b2_ae35);
    twice ^ (twice >> 16)
}

// What registers are like that are made up, and how often they are made, with other keys each time.
#[derive(Clone, Copy)]
struct Shape {
    name: &'static str,
    blocks: u32,
    columns: u64,
    most: bool,
    copies: u32,
}

impl Shape {
    fn rows(self, number: u32) -> u64 {
        match number % 9 {
            _ if self.most => 64,
            4 => 2 + u64::from(number % 3),
            _ => 1,
        }
    }

    // All copies of the registers, one behind the other.
    fn make(self) -> Vec<u64> {
        let mut base = Vec::new();
        let mut first = 0u32;
        for _ in 0..self.copies {
            base.push(u64::from(REGISTERS));
            for _ in 0..REGISTERS {
                base.extend([u64::from(self.blocks), self.columns]);
                for number in 0..self.blocks {
                    let key = u64::from(scattered(first.wrapping_add(number)));
                    base.extend([key, self.rows(number)]);
                    for _ in 0..self.rows(number) {
                        base.extend((0..self.columns).map(|column| (key ^ column) >> 1));
                    }
                }
                first = first.wrapping_add(self.blocks);
            }
        }
        base
    }

    // Look-ups of the keys from so many numbers on, in no order: the register and the key.
    fn questions(self, from: u32) -> Vec<(usize, u64)> {
        let all = self.blocks * REGISTERS;
        (0..QUESTIONS)
            .map(|i| scattered(i) % all)
            .map(|n| {
                let key = u64::from(scattered(n.wrapping_add(from)));
                ((n / self.blocks) as usize, key)
            })
            .collect()
    }
}

#[inline(never)]
fn find_all(index: &Index, questions: &[(usize, u64)]) -> u64 {
    questions
        .iter()
        .filter_map(|(t, key)| index.find(*t, *key))
        .fold(0, |sum, number| sum.wrapping_add(number as u64))
}

#[inline(never)]
fn read_all(index: &Index, questions: &[(usize, u64)]) -> u64 {
    questions
        .iter()
        .filter_map(|(t, key)| index.first_row(*t, index.find(*t, *key)?))
        .fold(0, |sum, row| sum.wrapping_add(row))
}

// The least time of several runs in nanoseconds, and the sum of what all found.
#[derive(Clone, Copy)]
struct Timed {
    least: u128,
    sum: u64,
}

impl Timed {
    const NONE: Timed = Timed {
        least: u128::MAX,
        sum: 0,
    };

    fn run(&mut self, work: impl FnOnce() -> u64) {
        let start = Instant::now();
        let found = black_box(work());
        self.least = self.least.min(start.elapsed().as_nanos());
        self.sum = self.sum.wrapping_add(found);
    }

    fn line(self, parts: u32, what: &str) {
        let tenths = self.least * 10 / u128::from(parts);
        println!("{:>10}.{} ns {what}", tenths / 10, tenths % 10);
    }
}

// The times of an index over the first copy: to make room and enter all blocks, and to look keys up.
struct Times {
    fill: Timed,
    present: Timed,
    read: Timed,
    absent: Timed,
}

impl Times {
    fn add_run<const SLOTS: usize, const PLACES: usize>(
        &mut self,
        base: &[u64],
        present: &[(usize, u64)],
        absent: &[(usize, u64)],
    ) {
        let directory = survey(base).unwrap();
        let start = Instant::now();
        let mut slots = [MaybeUninit::uninit(); SLOTS];
        let mut places = [MaybeUninit::uninit(); PLACES];
        let index = fill(base, &directory, &mut slots, &mut places).unwrap();
        self.fill.least = self.fill.least.min(start.elapsed().as_nanos());
        self.present.run(|| find_all(&index, present));
        self.absent.run(|| find_all(&index, absent));
        self.read.run(|| read_all(&index, present));
    }
}

fn tell(shape: Shape) {
    let base = shape.make();
    let len = base.len() / shape.copies as usize;
    println!("{}, {len} numbers", shape.name);
    let mut checked = Timed::NONE;
    let mut surveyed = Timed::NONE;
    for _ in 0..RUNS {
        checked.run(|| base.chunks(len).filter(|copy| check(copy)).count() as u64);
    }
    checked.line(shape.copies, "to check them");
    for _ in 0..RUNS {
        surveyed.run(|| {
            base.chunks(len)
                .filter_map(survey)
                .map(|found| found.blocks as u64)
                .sum()
        });
    }
    surveyed.line(shape.copies, "to survey them");
    let (present, absent) = (shape.questions(0), shape.questions(OTHERS));
    let mut times = Times {
        fill: Timed::NONE,
        present: Timed::NONE,
        read: Timed::NONE,
        absent: Timed::NONE,
    };
    for _ in 0..RUNS {
        match shape.blocks * REGISTERS {
            0..=16 => times.add_run::<80, 16>(&base[..len], &present, &absent),
            17..=512 => times.add_run::<2064, 512>(&base[..len], &present, &absent),
            _ => times.add_run::<65536, 32768>(&base[..len], &present, &absent),
        }
    }
    times.fill.line(1, "to make room and enter all blocks");
    times
        .present
        .line(QUESTIONS, "to look up a key that is there");
    times
        .read
        .line(QUESTIONS, "to look it up and add up its first row");
    times
        .absent
        .line(QUESTIONS, "to look up a key that is not there");
    let sum = [checked, surveyed, times.present, times.read, times.absent]
        .iter()
        .fold(0u64, |sum, timed| sum.wrapping_add(timed.sum));
    println!("             the sum of what was found is {sum}");
}

fn main() {
    println!("The least time of {RUNS} runs.");
    SHAPES.into_iter().for_each(tell);
}
