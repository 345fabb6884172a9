// The questions of program.txt in plain Rust, by the same design: routes and table in memory, and for a clash one pass over
// the steps of each movement, for a gap a second one. `pairs make` prints a full book: 64 movements of 24 steps, and 600 pairs.
use std::io::Read;

const SECTIONS: usize = 256;
const MOST_STEPS: usize = 24;
const MOST_MOVEMENTS: usize = 64;
const LAST_SECOND: u32 = 99_999_999;

#[derive(Clone, Copy, Default)]
struct Step {
    section: u8,
    set: u16,
    release: u16,
}

#[derive(Clone, Copy, Default)]
struct Route {
    priority: u8,
    count: usize,
    steps: [Step; MOST_STEPS],
}

#[derive(Clone, Copy)]
struct Listed {
    gap: u16,
    weight: u8,
}

struct Memory {
    routes: [Route; MOST_MOVEMENTS],
    table: [[Option<Listed>; MOST_MOVEMENTS]; MOST_MOVEMENTS],
}

struct Book {
    movements: usize,
}

impl Book {
    fn has(&self, movement: u8) -> bool {
        1 <= movement && movement as usize <= self.movements
    }

    fn steps<'m>(&self, memory: &'m Memory, movement: u8) -> &'m [Step] {
        if !self.has(movement) {
            return &[];
        }
        let route = &memory.routes[movement as usize - 1];
        &route.steps[0..route.count.min(MOST_STEPS)]
    }

    fn priority(&self, memory: &Memory, movement: u8) -> u8 {
        if !self.has(movement) {
            return 0;
        }
        memory.routes[movement as usize - 1].priority
    }

    fn listed(&self, memory: &Memory, first: u8, second: u8) -> Option<Listed> {
        if !self.has(first) || !self.has(second) {
            return None;
        }
        memory.table[first as usize - 1][second as usize - 1]
    }
}

trait Time: Copy {
    fn zero() -> Self;
    fn make(seconds: u32, weight: u16) -> Self;
    fn not_after(self, other: Self) -> bool;
    fn seconds(self) -> u32;

    fn later(self, other: Self) -> Self {
        if self.not_after(other) { other } else { self }
    }
}

#[derive(Clone, Copy)]
struct Plain {
    seconds: u32,
}

impl Time for Plain {
    fn zero() -> Self {
        Plain { seconds: 0 }
    }

    fn make(seconds: u32, _weight: u16) -> Self {
        Plain { seconds: seconds.min(LAST_SECOND) }
    }

    fn not_after(self, other: Self) -> bool {
        self.seconds() <= other.seconds()
    }

    fn seconds(self) -> u32 {
        self.seconds.min(LAST_SECOND)
    }
}

trait Headway {
    type Kind: Time;
    fn movements(&self) -> u8;
    fn clashes(&self, a: u8, b: u8) -> bool;
    fn gap(&self, a: u8, b: u8) -> Self::Kind;
}

fn marked_sections(steps: &[Step]) -> [bool; SECTIONS] {
    let mut marked = [false; SECTIONS];
    for step in steps {
        marked[step.section as usize] = true;
    }
    marked
}

fn share_section(first: &[Step], second: &[Step]) -> bool {
    let marked = marked_sections(first);
    second.iter().any(|step| marked[step.section as usize])
}

fn latest_releases(steps: &[Step]) -> [u16; SECTIONS] {
    let mut released = [0; SECTIONS];
    for step in steps {
        let section = step.section as usize;
        released[section] = step.release.max(released[section]);
    }
    released
}

fn section_gap(first: &[Step], second: &[Step]) -> u16 {
    let released = latest_releases(first);
    let mut gap = 0u16;
    for step in second {
        gap = gap.max(released[step.section as usize].saturating_sub(step.set));
    }
    gap
}

#[derive(Clone, Copy)]
struct BySections<'a> {
    book: &'a Book,
    memory: &'a Memory,
}

impl Headway for BySections<'_> {
    type Kind = Plain;

    fn movements(&self) -> u8 {
        self.book.movements as u8
    }

    fn clashes(&self, a: u8, b: u8) -> bool {
        if !self.book.has(a) || !self.book.has(b) {
            return false;
        }
        let first = self.book.steps(self.memory, a);
        let second = self.book.steps(self.memory, b);
        a == b || share_section(first, second)
    }

    fn gap(&self, a: u8, b: u8) -> Plain {
        if !self.clashes(a, b) {
            return Plain::zero();
        }
        let first = self.book.steps(self.memory, a);
        let second = self.book.steps(self.memory, b);
        let priority = self.book.priority(self.memory, a);
        Plain::make(section_gap(first, second) as u32, priority as u16)
    }
}

#[derive(Clone, Copy)]
struct ByTable<'a> {
    book: &'a Book,
    memory: &'a Memory,
}

impl Headway for ByTable<'_> {
    type Kind = Plain;

    fn movements(&self) -> u8 {
        self.book.movements as u8
    }

    fn clashes(&self, a: u8, b: u8) -> bool {
        if !self.book.has(a) || !self.book.has(b) {
            return false;
        }
        a == b
            || self.book.listed(self.memory, a, b).is_some()
            || self.book.listed(self.memory, b, a).is_some()
    }

    fn gap(&self, a: u8, b: u8) -> Plain {
        if !self.clashes(a, b) {
            return Plain::zero();
        }
        match self.book.listed(self.memory, a, b) {
            Some(listed) => Plain::make(listed.gap as u32, listed.weight as u16),
            None => Plain::zero(),
        }
    }
}

struct Union<A, B> {
    first: A,
    second: B,
}

impl<A: Headway, B: Headway<Kind = A::Kind>> Headway for Union<A, B> {
    type Kind = A::Kind;

    fn movements(&self) -> u8 {
        self.first.movements().max(self.second.movements())
    }

    fn clashes(&self, a: u8, b: u8) -> bool {
        self.first.clashes(a, b) || self.second.clashes(a, b)
    }

    fn gap(&self, a: u8, b: u8) -> A::Kind {
        match (self.first.clashes(a, b), self.second.clashes(a, b)) {
            (true, true) => self.first.gap(a, b).later(self.second.gap(a, b)),
            (true, false) => self.first.gap(a, b),
            (false, _) => self.second.gap(a, b),
        }
    }
}

fn clashes<R: Headway>(rule: &R) -> u32 {
    let mut count = 0u32;
    for a in 1..=rule.movements() {
        for b in 1..=rule.movements() {
            if rule.clashes(a, b) {
                count = count.saturating_add(1);
            }
        }
    }
    count
}

fn gaps<R: Headway>(rule: &R) -> u32 {
    let mut sum = 0u32;
    for a in 1..=rule.movements() {
        for b in 1..=rule.movements() {
            sum = sum.saturating_add(rule.gap(a, b).seconds());
        }
    }
    sum
}

// The book of a text that is known to be good.
fn read(text: &[u8], memory: &mut Memory) -> Book {
    let mut book = Book { movements: 0 };
    for line in text.split(|c| *c == b'\n') {
        let digit = |c: u8| (c as char).to_digit(16).unwrap_or(0) as u8;
        let bytes: Vec<u8> = line.chunks(2).map(|c| digit(c[0]) * 16 + digit(c[1])).collect();
        match bytes.as_slice() {
            [1, _, priority, steps @ ..] => {
                let route = &mut memory.routes[book.movements];
                route.priority = *priority;
                for s in steps.chunks(5) {
                    route.steps[route.count] = Step {
                        section: s[0],
                        set: u16::from_be_bytes([s[1], s[2]]),
                        release: u16::from_be_bytes([s[3], s[4]]),
                    };
                    route.count += 1;
                }
                book.movements += 1;
            }
            [2, first, second, high, low, weight] => {
                memory.table[*first as usize - 1][*second as usize - 1] = Some(Listed {
                    gap: u16::from_be_bytes([*high, *low]),
                    weight: *weight,
                });
            }
            _ => {}
        }
    }
    book
}

// Numbers that look random, the same in every run.
struct Draws(u32);

impl Draws {
    fn below(&mut self, end: u32) -> u32 {
        self.0 = self.0.wrapping_mul(1_664_525).wrapping_add(1_013_904_223);
        (self.0 >> 8) % end
    }
}

// Prints a full book. The sections of a movement are 24 different ones, spread by an odd stride.
fn make() {
    let mut draws = Draws(1);
    for movement in 1..=MOST_MOVEMENTS {
        print!("01{movement:02X}{:02X}", draws.below(10));
        let (from, stride) = (draws.below(256), 2 * draws.below(128) + 1);
        for i in 0..MOST_STEPS as u32 {
            let set = draws.below(600);
            let release = set + 1 + draws.below(600);
            print!("{:02X}{set:04X}{release:04X}", (from + i * stride) % 256);
        }
        println!();
    }
    for pair in 0..600 {
        let (first, second) = (pair / 64 * 6 + 1, pair % 64 + 1);
        println!("02{first:02X}{second:02X}{:04X}{:02X}", draws.below(2000), draws.below(10));
    }
    println!("0601000258");
}

fn main() {
    let question = std::env::args().nth(1).unwrap_or_default();
    if question == "make" {
        return make();
    }
    let mut text = Vec::new();
    std::io::stdin().read_to_end(&mut text).expect("standard input");
    let mut memory = Memory {
        routes: [Route::default(); MOST_MOVEMENTS],
        table: [[None; MOST_MOVEMENTS]; MOST_MOVEMENTS],
    };
    let book = read(&text, &mut memory);
    let sections = BySections { book: &book, memory: &memory };
    let table = ByTable { book: &book, memory: &memory };
    let union = Union { first: sections, second: table };
    let answer = match question.as_str() {
        "section-clashes" => clashes(&sections),
        "section-gaps" => gaps(&sections),
        "union-clashes" => clashes(&union),
        "union-gaps" => gaps(&union),
        _ => 0,
    };
    println!("{answer}");
}
