//! The printed report. It has no times and no folders, so that two runs print the same.
use crate::causes::Causes;
use crate::filter::CTB_NUMBERS;
use crate::filtered::Filtered;
use crate::format::Format;
use crate::gallery::Shown;
use crate::hard_rows::HardRow;
use crate::isolation::{Count, Rewriting};
use crate::layout::{CTB, CTBS, SLICE_COUNT, SUBPICTURE_SWITCHES, VIRTUAL_COLUMNS, VIRTUAL_ROWS};
use crate::planes::{Change, BIT_DEPTH, CB, CR, HEIGHT, NAMES, WIDTH, Y};
use crate::reject::Rejection;

/// Digits in groups of three.
fn grouped(number: u64) -> String {
    if number < 1_000 {
        return number.to_string();
    }
    format!("{},{:03}", grouped(number / 1_000), number % 1_000)
}

fn numbers<T: ToString>(list: &[T]) -> String {
    list.iter().map(T::to_string).collect::<Vec<_>>().join(", ")
}

/// Whether filtering across a subpicture's sides is on.
fn switch(subpicture: u8) -> &'static str {
    ["off", "on"][usize::from(SUBPICTURE_SWITCHES[usize::from(subpicture)])]
}

/// The format of what depends on it; luma is the same in all.
fn format_of(component: usize, format: Format) -> &'static str {
    if component == Y {
        "any"
    } else {
        format.name()
    }
}

/// The size of a format's chroma planes.
fn chroma_size(filtered: &Filtered) -> String {
    let (width, height) = filtered.format.size(CB);
    format!("{}, {width} x {height} samples", filtered.format.name())
}

/// What is filtered.
pub fn picture([half, full]: [&Filtered; 2]) -> String {
    let switches: Vec<String> = (0..SUBPICTURE_SWITCHES.len() as u8).map(|k| format!("{k} {}", switch(k))).collect();
    let (columns, rows) = (numbers(&VIRTUAL_COLUMNS), numbers(&VIRTUAL_ROWS));
    format!(
        "\
The adaptive loop filter over a built-in picture: an ice edge from above

  picture             {WIDTH} x {HEIGHT} luma samples, {BIT_DEPTH} bits, {CTBS} CTBs of {CTB} x {CTB}
  chroma              {}; the same scene again in {}
  tiles               2 x 2, no filtering across them
  slices              {SLICE_COUNT}, no filtering across them
  subpictures         {}, filtering across their sides: {}
  virtual boundaries  columns {columns}; rows {rows}
  filters             made for this demo; the fixed ones are stand-ins, not the numbers of the standard
",
        chroma_size(half),
        chroma_size(full),
        switches.len(),
        switches.join(", ")
    )
}

/// A filter's name, its component, and what it was given and left.
type Step<'a> = (&'static str, usize, &'a [u16], &'a [u16]);

/// The steps that depend on the chroma format.
fn chroma_steps(filtered: &Filtered) -> [Step<'_>; 4] {
    let (before, outputs) = (&filtered.before, &filtered.outputs);
    [
        ("chroma filter", CB, &before[CB], &outputs.chroma[0]),
        ("chroma filter", CR, &before[CR], &outputs.chroma[1]),
        ("cross-component filter", CB, &outputs.chroma[0], &outputs.planes[CB]),
        ("cross-component filter", CR, &outputs.chroma[1], &outputs.planes[CR]),
    ]
}

fn change_line(format: Format, (operation, component, from, to): Step) -> String {
    let change = Change::between(from, to);
    format!(
        "  {operation:<22}  {:<9}  {:<6}  {:>7}  {:>7}  {:>5.1}%  {:>13.3}  {:>7}       0\n",
        NAMES[component],
        format_of(component, format),
        grouped(change.samples),
        grouped(change.changed),
        100.0 * change.changed as f64 / change.samples as f64,
        change.mean(),
        change.largest,
    )
}

/// What each filter changed. Whoever gets here had the answer 0 from every operation.
pub fn changes(formats: [&Filtered; 2]) -> String {
    let head = "  operation               component  chroma  samples  changed   share  mean |change|  largest  answer\n";
    let half = formats[0];
    let luma = change_line(half.format, ("luma filter", Y, &half.before[Y], &half.outputs.planes[Y]));
    let chroma = formats.map(|f| chroma_steps(f).map(|step| change_line(f.format, step)).concat());
    format!("\nWhat changed\n{head}{luma}{}", chroma.concat())
}

/// How many CTBs take which filters.
pub fn choices(formats: [&Filtered; 2]) -> String {
    let count = |f: &Filtered, test: &dyn Fn(&[u8]) -> bool| f.ctb_params.chunks(CTB_NUMBERS).filter(|p| test(p)).count();
    let luma = |test: &dyn Fn(u8) -> bool| count(formats[0], &|p| p[0] == 1 && test(p[3]));
    let (fixed, aps) = (luma(&|set| set < 16), luma(&|set| set >= 16));
    let chroma = formats.map(|f| {
        let [cb, cr, cross_cb, cross_cr] = [1, 2, 6, 7].map(|k| count(f, &|p| p[k] > 0));
        let format = f.format.name();
        format!("  chroma in {format}: {cb} in Cb, {cr} in Cr; cross-component: {cross_cb} in Cb, {cross_cr} in Cr\n")
    });
    format!(
        "\nFilters of the {CTBS} CTBs, each the one that brings the CTB nearest to the clean picture\n  \
           luma: {aps} from an APS, {fixed} fixed, {} unfiltered\n{}",
        CTBS - aps - fixed,
        chroma.concat()
    )
}

/// How many blocks have which class: a direction mark and an activity.
pub fn classes(class_map: &[u8]) -> String {
    let count = |class: u8| class_map.iter().filter(|&&entry| entry % 32 == class).count() as u64;
    let distinct = (0..25).filter(|&class| count(class) > 0).count();
    let mut text = format!(
        "\nClasses: answer 0, {} blocks of 4 x 4, {distinct} of 25 classes\n  direction           activity 0      1      2      3      4\n",
        grouped(class_map.len() as u64)
    );
    let names = ["none", "diagonal", "diagonal, strong", "straight", "straight, strong"];
    for (direction, name) in (0..).zip(names) {
        let row: String = (0..5)
            .map(|activity| format!("{:>7}", grouped(count(5 * direction + activity))))
            .collect();
        text += &format!("  {name:<22}{row}\n");
    }
    text
}

fn quality_line(filtered: &Filtered, component: usize) -> String {
    let stages = [&filtered.before, &filtered.outputs.planes];
    let [before, after] = stages.map(|planes| Change::between(&filtered.clean[component], &planes[component]).psnr());
    let (name, format, gain) = (NAMES[component], format_of(component, filtered.format), after - before);
    format!("  {name:<9}  {format:<6}  {before:>6.2}  {after:>6.2}  {gain:>+6.2}\n")
}

/// How near the picture is to the clean one, before and after.
pub fn quality(formats: [&Filtered; 2]) -> String {
    let luma = quality_line(formats[0], Y);
    let chroma = formats.map(|f| [CB, CR].map(|component| quality_line(f, component)).concat());
    format!(
        "\nPeak signal-to-noise ratio against the clean picture in the same format, in decibels\n  \
           component  chroma  before   after    gain\n{luma}{}",
        chroma.concat()
    )
}

fn hard_line(hard: &HardRow) -> String {
    let rows = format!("{} and {}", hard.row - 1, hard.row);
    format!(
        "  {:<9}  {:<6}  {rows:<12}  {:>13.2}  {:>12.2}  {:>21}\n",
        NAMES[hard.component],
        format_of(hard.component, hard.format),
        hard.beside,
        hard.around,
        hard.to_ctb_end()
    )
}

/// The hardest row of each component, and what closes luma's and, for comparison, the next edge between CTBs.
pub fn hard_rows(hard: &[HardRow], causes: &Causes) -> String {
    let lines: String = hard.iter().map(hard_line).collect();
    let row = hard[0].row;
    let rows = [row, (row + 1).next_multiple_of(CTB)];
    let edges: String = rows.iter().filter(|&&row| row < HEIGHT).map(|&row| edge(row, causes)).collect();
    format!(
        "\nHard rows in the difference of the luma and chroma filters: two rows that changed far less than the rows next to them\n  \
           component  chroma  between rows  mean |change|  next to them  rows to the CTB's end\n{lines}  \
           between rows  columns     from above            from below            (what closes luma's edge, and the next between CTBs)\n{edges}"
    )
}

/// What closes the edge above a row, a line for each run of columns.
fn edge(row: usize, causes: &Causes) -> String {
    let rows = format!("{} and {row}", row - 1);
    let runs = causes.along(row).into_iter();
    runs.map(|run| {
        let columns = format!("{} to {}", run.first, run.last);
        format!("  {rows:<12}  {columns:<10}  {:<20}  {}\n", run.upper, run.lower)
    })
    .collect()
}

/// What the isolation test said, and whether rewriting the outside bore it out.
pub fn isolation(rewritings: &[Rewriting]) -> String {
    let side = |c: Count| format!("{} of {}", grouped(c.differ), grouped(c.all));
    let mut text = "\nIsolation: all samples and CTB parameters outside a subpicture are rewritten, and all is filtered again\n  \
                    subpicture  switch  chroma  isolated  answer   differ inside       differ outside  (classes, and samples of Y, Cb and Cr)\n"
        .to_string();
    for r in rewritings {
        let (switch, isolated) = (switch(r.subpicture), if r.isolated { "yes" } else { "no" });
        text += &format!(
            "  {:<10}  {switch:<6}  {:<6}  {isolated:<8}       0  {:>14}  {:>19}\n",
            r.subpicture,
            r.format.name(),
            side(r.inside),
            side(r.outside)
        );
    }
    text
}

/// The rejected inputs, with number and meaning.
pub fn rejections(rejections: &[Rejection]) -> String {
    let mut text = "\nRejected: the luma filter is given an input that is wrong in one place\n".to_string();
    for r in rejections {
        let answer = r.answer.map_or_else(|fault| fault.to_string(), |()| "accepted".to_string());
        let output = if r.untouched { "left as it was" } else { "changed" };
        text += &format!("  {}, output {output}\n    {answer}\n", r.what);
    }
    text
}

/// The files, and what each shows.
pub fn files(shown: &[Shown]) -> String {
    let lines: String = shown.iter().map(|s| format!("  {:<14}  {}\n", s.name, s.shows)).collect();
    format!("\nPictures\n{lines}")
}

#[cfg(test)]
mod tests {
    use super::grouped;

    #[test]
    fn digits_are_grouped() {
        assert_eq!(
            [0, 999, 1_000, 145_920, 1_234_567].map(grouped),
            ["0", "999", "1,000", "145,920", "1,234,567"]
        );
    }
}
