//! The comparison of many drawings: D with the marked cases first, then
//! generated ones; and of many lists made for joining.

use std::thread;

#[cfg(port)]
use crate::{against_port, port, port_sheet::Sheets};
use crate::{
    drawing::{drawing_d, Drawing, SHEET_OF_D},
    examine::{smallest_difference, Examined},
    generate, join,
    join_lists::Joins,
    listing::listing,
    marked,
    random::Random,
    report::MEASURES,
    reversed, sheet,
};

/// Compares `count` drawings, D first, and the lists made for joining, prints what
/// was met, and returns how many differ. Drawings and lists are shared out among as
/// many threads as there are processors; each depends on its number and the seed
/// alone.
pub fn check(count: u64, seed: u64) -> u64 {
    let threads = thread::available_parallelism().map_or(1, |threads| threads.get() as u64);
    let tallies: Vec<Tally> = thread::scope(|scope| {
        let running: Vec<_> = (0..threads)
            .map(|first| scope.spawn(move || part(first, threads, count, seed)))
            .collect();
        running
            .into_iter()
            .map(|thread| thread.join().expect("a thread compares to its end"))
            .collect()
    });
    let mut whole = Tally::default();
    for tally in tallies {
        whole.join(tally);
    }
    whole.print();
    whole.all_that_differ()
}

/// Every `step`th drawing, and list made for joining, from number `first` on.
fn part(first: u64, step: u64, count: u64, seed: u64) -> Tally {
    let mut tally = Tally {
        joins: Joins::part(first, step, seed),
        ..Tally::default()
    };
    for index in (first..count).step_by(step as usize) {
        let mut random = Random::for_drawing(seed, index);
        if index == 0 {
            let examined = Examined::new(drawing_d());
            let mut differences = examined.differences();
            differences.extend(differences_on_scopes_drawings());
            differences.extend(differences_on_reversed_drawings());
            differences.extend(tally.sheets.compare_d(&mut random));
            for case in reversed::cases() {
                differences.extend(tally.sheets.compare_drawing(&case.drawing, &mut random));
            }
            #[cfg(port)]
            differences.extend(against_port::differences_at_sizes());
            differences.extend(join::differences_at_sizes(join::PORT));
            tally.add(index, "drawing D", examined, differences);
        } else {
            let (name, examined) = generated(&mut random);
            let mut differences = examined.differences();
            differences.extend(tally.sheets.compare_drawing(&examined.drawing, &mut random));
            tally.add(index, name, examined, differences);
        }
    }
    tally
}

/// A generated drawing, with the name of its kind.
fn generated(random: &mut Random) -> (&'static str, Examined) {
    let (kind, name) = generate::any_kind(random);
    let most = generate::any_length(random);
    let mut examined = Examined::new(generate::drawing(kind, &most, random));
    examined.aim(generate::aims(random));
    (name, examined)
}

/// What SCOPE 11.5 and 13 say of single drawings: D's sheet and the marked cases.
/// Both computations must give it.
fn differences_on_scopes_drawings() -> Vec<String> {
    let mut found = Vec::new();
    for sheet in both_sheets(&drawing_d()) {
        if sheet != SHEET_OF_D {
            found.push(format!("drawing D's sheet: {sheet}"));
        }
    }
    for case in marked::cases() {
        for sheet in both_sheets(&case.drawing) {
            if !case.holds_on(&sheet) {
                found.push(format!("marked case ({}): {sheet}", case.name));
            }
        }
        for difference in Examined::new(case.drawing).differences() {
            found.push(format!("marked case ({}): {difference}", case.name));
        }
    }
    found
}

/// What SCOPE 2.8 and 7.5 say of segments whose start is above their end, or equal
/// to it. Both computations must give it.
fn differences_on_reversed_drawings() -> Vec<String> {
    let mut found = Vec::new();
    for case in reversed::cases() {
        for sheet in both_sheets(&case.drawing) {
            if sheet != case.sheet {
                found.push(format!("{}: {sheet}", case.name));
            }
        }
        for difference in Examined::new(case.drawing).differences() {
            found.push(format!("{}: {difference}", case.name));
        }
    }
    found
}

/// The Rust's sheet and the all-pairs sheet, or the fault in the place of one.
fn both_sheets(drawing: &Drawing) -> [String; 2] {
    [sheet::by_reference(drawing), sheet::by_pairs(drawing)]
        .map(|sheet| sheet.unwrap_or_else(|fault| fault.to_string()))
}

/// Without the port there are no sheets to compare.
#[cfg(not(port))]
#[derive(Default)]
struct Sheets;

#[cfg(not(port))]
impl Sheets {
    fn compare_d(&mut self, _random: &mut Random) -> Vec<String> {
        Vec::new()
    }

    fn compare_drawing(&mut self, _drawing: &Drawing, _random: &mut Random) -> Vec<String> {
        Vec::new()
    }

    fn join(&mut self, _other: &Self) {}
}

/// What a run met.
#[derive(Default)]
struct Tally {
    agree: u64,
    differ: u64,
    kinds: Vec<(&'static str, u64)>,
    segments: u64,
    reversed_segments: u64,
    reports: [u64; 3],
    refused: [u64; 3],
    sheets: Sheets,
    joins: Joins,
    first_to_differ: Vec<(u64, &'static str)>,
    smallest: Option<(Drawing, Vec<String>)>,
}

impl Tally {
    fn add(
        &mut self,
        index: u64,
        kind: &'static str,
        examined: Examined,
        differences: Vec<String>,
    ) {
        self.count_kind(kind, 1);
        let segments = &examined.drawing.segments;
        let reversed = segments
            .iter()
            .filter(|segment| segment.end < segment.start);
        self.segments += segments.len() as u64;
        self.reversed_segments += reversed.count() as u64;
        for (place, answer) in examined.answers.iter().enumerate() {
            match answer {
                Ok(Ok(_)) => self.reports[place] += 1,
                Ok(Err(_)) => self.refused[place] += 1,
                Err(_) => {}
            }
        }
        if differences.is_empty() {
            self.agree += 1;
            return;
        }
        self.differ += 1;
        self.note_differing(index, kind);
        self.note_smallest(examined.drawing, differences);
    }

    /// What another thread met besides.
    fn join(&mut self, other: Self) {
        self.agree += other.agree;
        self.differ += other.differ;
        for (kind, count) in other.kinds {
            self.count_kind(kind, count);
        }
        self.segments += other.segments;
        self.reversed_segments += other.reversed_segments;
        for place in 0..MEASURES.len() {
            self.reports[place] += other.reports[place];
            self.refused[place] += other.refused[place];
        }
        self.sheets.join(&other.sheets);
        self.joins.join(other.joins);
        for (index, kind) in other.first_to_differ {
            self.note_differing(index, kind);
        }
        if let Some((drawing, differences)) = other.smallest {
            self.note_smallest(drawing, differences);
        }
    }

    fn all_that_differ(&self) -> u64 {
        self.differ + self.joins.differ
    }

    fn count_kind(&mut self, kind: &'static str, more: u64) {
        match self.kinds.iter_mut().find(|(name, _)| *name == kind) {
            Some((_, count)) => *count += more,
            None => self.kinds.push((kind, more)),
        }
    }

    /// Keeps the ten lowest numbers.
    fn note_differing(&mut self, index: u64, kind: &'static str) {
        self.first_to_differ.push((index, kind));
        self.first_to_differ.sort_unstable();
        self.first_to_differ.truncate(10);
    }

    fn note_smallest(&mut self, drawing: Drawing, differences: Vec<String>) {
        let fewest = self.smallest.as_ref().map(|(kept, _)| kept.entries());
        if fewest.is_none_or(|fewest| drawing.entries() < fewest) {
            self.smallest = Some((drawing, differences));
        }
    }

    fn print(&self) {
        let kinds: Vec<String> = self
            .kinds
            .iter()
            .map(|(name, count)| format!("{name} {count}"))
            .collect();
        println!("drawings: {}", kinds.join(", "));
        println!(
            "segments: {}, of which {} are given from the greater end to the lesser one",
            self.segments, self.reversed_segments
        );
        for (place, measure) in MEASURES.into_iter().enumerate() {
            println!(
                "{}: {} reports, {} refused before work",
                measure.name(),
                self.reports[place],
                self.refused[place]
            );
        }
        #[cfg(port)]
        println!("the port: version {}, the five calls by columns and by records, the ratio, the tight pair and the join on every drawing", port::version());
        #[cfg(port)]
        println!("the sheet: {}", self.sheets.summary());
        #[cfg(not(port))]
        println!("the port: not linked");
        println!("made for joining: {}", self.joins.summary());
        if let Some(text) = self.joins.smallest_difference() {
            println!("the smallest list that differs:\n{text}");
        }
        if let Some((drawing, differences)) = &self.smallest {
            let first: Vec<String> = self
                .first_to_differ
                .iter()
                .map(|(index, kind)| format!("{index} ({kind})"))
                .collect();
            println!("first to differ: {}", first.join(", "));
            println!("the smallest that differs:");
            match smallest_difference(drawing) {
                Some(text) => println!("{text}"),
                None => println!("{}\n{}", listing(drawing), differences.join("\n")),
            }
        }
        println!("{} agree, {} differ", self.agree, self.all_that_differ());
    }
}
