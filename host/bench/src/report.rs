//! The tables that are printed.
use crate::format::Format;
use crate::operations::{Operation, Side, SIDES};
use crate::timing::Times;

/// One line of the table.
pub struct Line {
    pub picture: String,
    pub format: Format,
    pub operation: Operation,
    pub times: Times,
}

/// At most this share of a call goes into judging.
const JUDGING_AIM: f64 = 0.10;

impl Line {
    /// How many times as long a side takes as the library.
    fn ratio(&self, side: Side) -> f64 {
        self.times.sides[side as usize] / self.times.sides[Side::Library as usize]
    }

    fn judging_share(&self) -> f64 {
        self.times.judging / self.times.sides[Side::Library as usize]
    }
}

/// The times, the aims, and what the numbers mean.
pub fn print(lines: &[Line], calls: u32) {
    println!("CPU: {}\n", cpu());
    print_times(lines);
    println!();
    print_aims(lines);
    println!(
        "\nNanoseconds a sample of the plane that is filtered or classified; the quickest of {calls} calls, taking turns, each with the \
         core's caches full of other data. Luma has its classes in it. C: gcc -O3, blocks of 4 by 4; by rows: the same, but chroma and \
         cross-component by whole rows of a CTB; native: blocks, with -march=native. A call of the library judges its input and copies with \
         a margin as it goes; the C judges nothing, and its planes were padded beforehand, outside its time. Judging: a call that is \
         rejected at the last test, and its share of a whole call. All outputs were equal."
    );
}

fn print_times(lines: &[Line]) {
    let [library, c, rows, native] = SIDES.map(Side::name);
    println!("| picture | operation | {library} | {c} | {rows} | {native} | {c} / library | {rows} | {native} | judging | share |");
    println!("|---|---|---|---|---|---|---|---|---|---|---|");
    for line in lines {
        let [library, c, rows, native] = line.times.sides;
        println!(
            "| {} | {} | {library:.2} | {c:.2} | {rows:.2} | {native:.2} | **{:.2}** | {:.2} | {:.2} | {:.3} | {:.1}% |",
            line.picture,
            line.operation.name_in(line.format),
            line.ratio(Side::C),
            line.ratio(Side::CRows),
            line.ratio(Side::CNative),
            line.times.judging,
            100.0 * line.judging_share()
        );
    }
}

/// An aim is met where it is on every picture and in every format; one that compares two formats, where it is on average over the pictures.
fn print_aims(lines: &[Line]) {
    let c = Side::C.name();
    println!("| aim | least to most | |");
    println!("|---|---|---|");
    for (operation, aim) in [
        (Operation::Luma, 4.0),
        (Operation::Chroma(0), 2.0),
        (Operation::CrossComponent(0), 2.0),
        (Operation::Classes, 1.0),
    ] {
        let ratios = of(operation, lines).map(|line| line.ratio(Side::C));
        print_least(&format!("{}: {c} / library at least {aim}", operation.name()), aim, ratios);
    }
    for operation in [Operation::Chroma(0), Operation::CrossComponent(0)] {
        let [low, high] = [Format::Yuv420, Format::Yuv444].map(Format::name);
        let name = format!("{}: {c} / library in {high} over that in {low} at least 1", operation.name());
        print_mean(&name, 1.0, full_over_half(operation, lines).collect());
    }
    let (least, most) = range(lines.iter().map(Line::judging_share));
    let (least, most, aim) = (100.0 * least, 100.0 * most, 100.0 * JUDGING_AIM);
    println!(
        "| judging: at most {aim}% of a call | {least:.1}% to {most:.1}% | {} |",
        verdict(most <= aim)
    );
}

fn of(operation: Operation, lines: &[Line]) -> impl Iterator<Item = &Line> {
    lines.iter().filter(move |line| line.operation == operation)
}

/// For each picture that was measured in both formats: how many times faster than C the library is in 4:4:4, by how many times in 4:2:0.
fn full_over_half(operation: Operation, lines: &[Line]) -> impl Iterator<Item = f64> + '_ {
    let in_format = move |format| of(operation, lines).filter(move |line| line.format == format);
    in_format(Format::Yuv444).filter_map(move |full| {
        let half = in_format(Format::Yuv420).find(|line| line.picture == full.picture)?;
        Some(full.ratio(Side::C) / half.ratio(Side::C))
    })
}

/// A line for an aim that every number is to reach; none where the options leave no number.
fn print_least(name: &str, aim: f64, numbers: impl Iterator<Item = f64>) {
    let (least, most) = range(numbers);
    if least <= most {
        println!("| {name} | {least:.2} to {most:.2} | {} |", verdict(least >= aim));
    }
}

/// A line for an aim that numbers are to reach on average: each is a quotient of four times, all of which differ from run to run.
fn print_mean(name: &str, aim: f64, numbers: Vec<f64>) {
    let (least, most) = range(numbers.iter().copied());
    if least <= most {
        let mean = (numbers.iter().map(|number| number.ln()).sum::<f64>() / numbers.len() as f64).exp();
        println!("| {name} | {least:.2} to {most:.2}, mean {mean:.2} | {} |", verdict(mean >= aim));
    }
}

/// The least and the most; the least is above the most where there is no number.
fn range(numbers: impl Iterator<Item = f64>) -> (f64, f64) {
    numbers.fold((f64::INFINITY, 0.0), |(least, most): (f64, f64), number| {
        (least.min(number), most.max(number))
    })
}

fn verdict(met: bool) -> &'static str {
    if met {
        "met"
    } else {
        "missed"
    }
}

fn cpu() -> String {
    let info = std::fs::read_to_string("/proc/cpuinfo").unwrap_or_default();
    let model = info.lines().find_map(|line| line.strip_prefix("model name")?.split_once(':'));
    model.map_or("unknown".into(), |(_, name)| name.trim().into())
}
