//! Timing of several contenders on the same inputs. The machine's clock is noisy, so contenders
//! take turns, and the rounds of each line are spread over the whole run: a busy moment of the
//! machine then spoils some rounds of every line and not all rounds of one.

use std::hint::black_box;
use std::time::Instant;

/// How often all lines are visited, and how often the contenders take turns in a visit, forth and
/// back, so that none always comes after the one that empties the caches. The turns are even, which
/// leaves the contenders in their order. The quickest round of a contender counts.
const VISITS: usize = 20;
const TURNS: usize = 4;

/// A contender: a name, and a pass over all inputs that gives the sum of the answers. What a pass
/// changes it puts back, so that each begins with the same.
pub struct Contender {
    name: &'static str,
    pass: Box<dyn FnMut() -> u64>,
    quickest: f64,
}

/// A contender that answers each input with a number.
pub fn contender<I>(
    name: &'static str,
    inputs: &'static [I],
    mut answer: impl FnMut(&I) -> u32 + 'static,
) -> Contender {
    let pass = move || {
        let answers = inputs.iter().map(|input| answer(black_box(input)));
        answers.map(u64::from).sum()
    };
    Contender {
        name,
        pass: Box::new(pass),
        quickest: f64::INFINITY,
    }
}

/// The ratio to the second contender that must be kept, and the one that is aimed at.
#[derive(Clone, Copy)]
struct Limits {
    must: f64,
    aim: f64,
}

/// Contenders that answer the same question on the same inputs.
pub struct Line {
    label: String,
    inputs: usize,
    contenders: Vec<Contender>,
    limits: Option<Limits>,
}

/// Whether a limit is kept.
fn against(ratio: f64, limit: f64) -> String {
    let kept = if ratio <= limit { "yes" } else { "NO" };
    format!("{limit:.1} {kept:<3}")
}

impl Line {
    pub fn new(label: impl Into<String>, inputs: usize, contenders: Vec<Contender>) -> Line {
        Line {
            label: label.into(),
            inputs,
            contenders,
            limits: None,
        }
    }

    pub fn within(mut self, must: f64, aim: f64) -> Line {
        self.limits = Some(Limits { must, aim });
        self
    }

    /// All contenders must give the same sum.
    fn compare(&mut self) {
        let sum = (self.contenders[0].pass)();
        for other in &mut self.contenders {
            assert_eq!(sum, (other.pass)(), "{}, {}", self.label, other.name);
        }
    }

    fn measure(&mut self) {
        for _ in 0..TURNS {
            self.contenders.reverse();
            for contender in &mut self.contenders {
                let start = Instant::now();
                black_box((contender.pass)());
                let each = start.elapsed().as_nanos() as f64 / self.inputs as f64;
                contender.quickest = contender.quickest.min(each);
            }
        }
    }

    /// The ratio of the library, which comes first, to a contender.
    fn ratio(&self, other: &Contender) -> f64 {
        self.contenders[0].quickest / other.quickest
    }

    fn print(&self) {
        print!("{:<28}", self.label);
        for contender in &self.contenders {
            print!(
                "{:>17.1} {:>8.2}",
                contender.quickest,
                self.ratio(contender)
            );
        }
        println!();
    }

    /// Whether must and aim are kept, if there are limits.
    fn kept(&self) -> Option<(bool, bool)> {
        let ratio = self.ratio(&self.contenders[1]);
        let limits = self.limits?;
        Some((ratio <= limits.must, ratio <= limits.aim))
    }

    /// A row for each contender beside the library. The limits are those to the first of them.
    fn print_rows(&self) {
        let mut limits = self.limits;
        for other in &self.contenders[1..] {
            let ratio = self.ratio(other);
            let (must, aim) = limits.take().map_or(("-".into(), "-".into()), |limits| {
                (against(ratio, limits.must), against(ratio, limits.aim))
            });
            println!(
                "{:<42}{:>9.1}{:>10.1}{ratio:>8.2}  {must:<9}{aim:<9}{}",
                self.label, self.contenders[0].quickest, other.quickest, other.name
            );
        }
    }
}

/// Lines under a title.
pub struct Table {
    pub title: &'static str,
    pub lines: Vec<Line>,
}

impl Table {
    /// A row for each line, all of which have the same contenders.
    fn print(&self) {
        print!("\n{:<28}", self.title);
        for contender in &self.lines[0].contenders {
            print!("{:>26}", contender.name);
        }
        println!();
        self.lines.iter().for_each(Line::print);
    }

    /// A row for each contender beside the library.
    fn print_rows(&self) {
        println!(
            "\n{:<42}{:>9}{:>10}{:>8}  {:<9}{:<9}beside",
            self.title, "library", "other", "ratio", "must", "aim"
        );
        self.lines.iter().for_each(Line::print_rows);
        let kept: Vec<(bool, bool)> = self.lines.iter().filter_map(Line::kept).collect();
        if !kept.is_empty() {
            let must = kept.iter().filter(|(must, _)| *must).count();
            let aim = kept.iter().filter(|(_, aim)| *aim).count();
            let all = kept.len();
            println!("must: kept in {must} of {all}, aim: reached in {aim} of {all}");
        }
    }
}

/// Compares the answers, measures, and prints nanoseconds and the ratio of the first contender to
/// each: of `ratios` row by row with the limits, of `tables` as they are.
pub fn run(mut ratios: Vec<Table>, mut tables: Vec<Table>) {
    let mut all: Vec<&mut Line> = Vec::new();
    for table in ratios.iter_mut().chain(&mut tables) {
        all.extend(&mut table.lines);
    }
    all.iter_mut().for_each(|line| line.compare());
    for _ in 0..VISITS {
        all.iter_mut().for_each(|line| line.measure());
    }
    ratios.iter().for_each(Table::print_rows);
    tables.iter().for_each(Table::print);
}

/// Compares the answers, and measures the library alone. Prints table and label of each line, with a
/// tab between them, and an empty line; then, for each number that standard input has, the
/// picoseconds of a call in one visit of that line.
pub fn library(tables: Vec<Table>) {
    let mut all = Vec::new();
    for mut table in tables {
        for line in &mut table.lines {
            line.compare();
            line.contenders.truncate(1);
            println!("{}\t{}", table.title, line.label);
        }
        all.extend(table.lines);
    }
    println!();
    for number in std::io::stdin().lines() {
        let line: &mut Line = &mut all[number.unwrap().parse::<usize>().unwrap()];
        line.contenders[0].quickest = f64::INFINITY;
        line.measure();
        println!("{:.0}", line.contenders[0].quickest * 1000.0);
    }
}

/// The pass that bench/count counts: a function by itself, which has its name in the program and
/// calls the pass instead of jumping to it.
#[no_mangle]
#[inline(never)]
fn counted_pass(pass: &mut dyn FnMut() -> u64) -> u64 {
    black_box(pass())
}

/// Compares the answers, and makes one counted pass of each contender. Prints, for each in turn, the
/// table, the line, the contender and the number of calls, with tabs between them.
pub fn count(tables: Vec<Table>) {
    for mut table in tables {
        for line in &mut table.lines {
            line.compare();
            for contender in &mut line.contenders {
                black_box(counted_pass(&mut contender.pass));
                println!(
                    "{}\t{}\t{}\t{}",
                    table.title, line.label, contender.name, line.inputs
                );
            }
        }
    }
}
