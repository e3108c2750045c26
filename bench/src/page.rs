//! The tables of what was measured, and the page that holds them.

use crate::{
    aims::aim,
    calls::{ALL, OPS, Op, ROOM, Who, exists, ngtcp2_version},
    chart,
    measure::{self, Measured, at, callgrind, counts, stack},
    samples::Sample,
};
use std::fs;

const START: &str = "<!-- measured -->\n";
const END: &str = "<!-- /measured -->";
const NONE: &str = "–";

/// A number: one decimal below a hundred, else with commas between its thousands.
fn number(x: f64) -> String {
    if x < 99.95 {
        return format!("{x:.1}");
    }
    let digits = format!("{x:.0}");
    let first = digits.len() % 3;
    let thousands = digits.as_bytes()[first..].chunks(3).map(|d| String::from_utf8_lossy(d).into_owned());
    let parts = (first > 0).then(|| digits[..first].to_string()).into_iter().chain(thousands);
    parts.collect::<Vec<_>>().join(",")
}

/// A table in Markdown; the first columns hold words, the others numbers.
fn markdown(words: usize, rows: &[Vec<String>]) -> String {
    let width = |c: usize| rows.iter().map(|r| r[c].chars().count()).max().unwrap_or(0).max(3);
    let line = |cells: Vec<String>| format!("| {} |\n", cells.join(" | "));
    let row = |r: &Vec<String>| {
        let cells = r.iter().enumerate().map(|(c, cell)| {
            let w = width(c);
            if c < words { format!("{cell:w$}") } else { format!("{cell:>w$}") }
        });
        line(cells.collect())
    };
    let rule = (0..rows[0].len()).map(|c| if c < words { "-".repeat(width(c)) } else { "-".repeat(width(c) - 1) + ":" });
    let body: String = rows[1..].iter().map(row).collect();
    row(&rows[0]) + &line(rule.collect()) + &body
}

/// What a library is to reach of quinn's number, if that is said of the operation on the sample at this place.
pub type Aim = fn(Who, Op, usize) -> Option<f64>;

/// A ratio, and the aim in brackets.
fn against(ratio: f64, aim: Option<f64>) -> String {
    aim.map_or(format!("{ratio:.2}"), |aim| format!("{ratio:.2} ({aim:.2})"))
}

/// The row of an operation on a sample: quinn's number, then each other library's and its ratio to quinn's.
fn row(s: &Sample, sample: usize, op: Op, all: &[Measured], aim: Aim) -> Vec<String> {
    let quinn = at(all, sample, op, Who::Quinn).expect("quinn has every operation");
    let mut cells = vec![s.name.to_string(), op.name().to_string(), number(quinn)];
    for who in &ALL[1..] {
        let value = at(all, sample, op, *who);
        cells.push(value.map_or(NONE.into(), number));
        cells.push(value.map_or(NONE.into(), |x| against(x / quinn, aim(*who, op, sample))));
    }
    cells
}

/// A row for each operation on each sample.
pub fn table(samples: &[Sample], all: &[Measured], aim: Aim) -> String {
    let mut head = vec!["sample".to_string(), "operation".into(), Who::Quinn.name().into()];
    head.extend(ALL[1..].iter().flat_map(|who| [who.name().to_string(), "ratio".into()]));
    let mut rows = vec![head];
    for (i, s) in samples.iter().enumerate() {
        let present = OPS.into_iter().filter(|op| exists(Who::Quinn, *op, s));
        rows.extend(present.map(|op| row(s, i, op, all, aim)));
    }
    markdown(2, &rows)
}

/// How many aims are met, and which are not.
fn met(samples: &[Sample], all: &[Measured]) -> String {
    let judged = all.iter().filter_map(|m| {
        let ratio = m.value / at(all, m.sample, m.op, Who::Quinn)?;
        Some((m, ratio, aim(m.who, m.op, m.sample)?))
    });
    let judged: Vec<_> = judged.collect();
    // as the table shows it
    let missed = judged.iter().filter(|(_, ratio, aim)| (ratio * 100.0).round() / 100.0 > *aim);
    let missed = missed.map(|(m, ratio, aim)| {
        let (sample, op, who) = (samples[m.sample].name, m.op.name(), m.who.name());
        format!("- {sample}, {op}, {who}: {ratio:.2} for {aim:.2}\n")
    });
    let missed: Vec<_> = missed.collect();
    let list = if missed.is_empty() { String::new() } else { format!(" Missed:\n\n{}", missed.concat()) };
    format!("Aims met: {} of {}.{}\n", judged.len() - missed.len(), judged.len(), list.trim_end())
}

/// Bytes per nanosecond, of reading the long samples.
fn speeds(samples: &[Sample], all: &[Measured]) -> String {
    let mut rows = vec![vec!["sample".to_string()]];
    rows[0].extend(ALL.map(|who| who.name().to_string()));
    for (i, s) in samples.iter().enumerate().filter(|(_, s)| s.bytes.len() > ROOM) {
        let speed = |who: Who| number(s.bytes.len() as f64 / at(all, i, Op::Read, who).expect("all read it"));
        rows.push([s.name.to_string()].into_iter().chain(ALL.map(speed)).collect());
    }
    markdown(1, &rows)
}

/// What was timed.
pub fn times(samples: &[Sample], timed: &[Measured]) -> String {
    format!(
        "Nanoseconds per call, and the ratio to quinn's, with its aim in brackets:\n\n{}\n{}\n\
         Gigabytes per second, of reading 64 KiB of unknown parameters:\n\n{}",
        table(samples, timed, aim),
        met(samples, timed),
        speeds(samples, timed)
    )
}

/// The most that an operation uses on any sample.
fn stack_table(samples: &[Sample]) -> String {
    let columns = [Who::Rattle, Who::Interface, Who::Rust];
    let mut rows = vec![vec!["operation".to_string()]];
    rows[0].extend(columns.map(|who| who.name().to_string()));
    for op in OPS.into_iter().filter(|op| !op.many()) {
        let most = |who: Who| {
            let there = samples.iter().filter(|s| exists(who, op, s));
            there.map(|s| stack(who, op, s)).max().expect("a sample") as f64
        };
        let mut cells = vec![op.name().to_string()];
        cells.extend(columns.map(|who| number(most(who))));
        rows.push(cells);
    }
    markdown(1, &rows)
}

fn processor() -> String {
    let text = fs::read_to_string("/proc/cpuinfo").unwrap_or_default();
    let model = text.lines().find_map(|l| l.strip_prefix("model name")).unwrap_or(": an unnamed processor");
    model.trim_start_matches([' ', '\t', ':']).to_string()
}

/// The table of instructions, if callgrind is there.
fn instructions(samples: &[Sample]) -> String {
    if !callgrind() {
        return String::new();
    }
    format!("Instructions per call, and the ratio to quinn's:\n\n{}\n", table(samples, &counts(samples), |_, _, _| None))
}

/// What stands on the page between the two marks.
fn measured(samples: &[Sample], timed: &[Measured]) -> String {
    format!(
        "On {}; {}; ngtcp2 {}.\n\n{}\n{}\
         Bytes of stack, the most over the samples:\n\n{}",
        processor(),
        env!("COMPILER"),
        ngtcp2_version(),
        times(samples, timed),
        instructions(samples),
        stack_table(samples)
    )
}

/// The text with what stands between the two marks replaced.
fn replaced(text: &str, new: &str) -> Option<String> {
    let (before, rest) = text.split_once(START)?;
    let (_, after) = rest.split_once(END)?;
    Some(format!("{before}{START}{new}{END}{after}"))
}

/// Measures, and writes the page and its chart.
pub fn write(page: &str, svg: &str, samples: &[Sample]) -> std::io::Result<()> {
    let text = fs::read_to_string(page)?;
    let timed = measure::times(samples);
    let text = replaced(&text, &measured(samples, &timed)).expect("the page has both marks");
    fs::write(page, text)?;
    fs::write(svg, chart::svg(samples, &timed))
}
