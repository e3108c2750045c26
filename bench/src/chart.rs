//! The chart of the times: bars of the ratios to quinn's.

use crate::{
    calls::{ALL, OPS, Op, Who, exists},
    measure::{Measured, at},
    samples::Sample,
};

const WIDTH: f64 = 860.0;
const LEFT: f64 = 165.0;
const RIGHT: f64 = 50.0;
const TOP: f64 = 90.0;
const BAR: f64 = 12.0;
/// between two operations
const GAP: f64 = 9.0;
/// for a sample's name
const NAME: f64 = 30.0;

/// Drawn in this order: the grid, the bars, the line of quinn, all text.
struct Chart {
    grid: String,
    bars: String,
    text: String,
    /// where the next bar goes
    y: f64,
    /// the largest ratio on the axis
    most: f64,
}

fn color(who: Who) -> &'static str {
    match who {
        Who::Quinn => "#222222",
        Who::Rattle => "#1f5fbf",
        Who::Interface => "#6a9ee0",
        Who::Rust => "#b3cff2",
        Who::Ngtcp2 => "#c9822b",
    }
}

fn rect(x: f64, y: f64, width: f64, who: Who) -> String {
    let (height, fill) = (BAR - 1.0, color(who));
    format!("<rect x=\"{x:.1}\" y=\"{y:.1}\" width=\"{width:.1}\" height=\"{height}\" fill=\"{fill}\"/>\n")
}

/// A line from the top to `bottom`.
fn line(x: f64, bottom: f64, style: &str) -> String {
    format!("<line x1=\"{x:.1}\" y1=\"{TOP}\" x2=\"{x:.1}\" y2=\"{bottom:.1}\" {style}/>\n")
}

impl Chart {
    fn x(&self, ratio: f64) -> f64 {
        LEFT + ratio / self.most * (WIDTH - LEFT - RIGHT)
    }

    /// `style` has further attributes.
    fn text(&mut self, x: f64, y: f64, style: &str, text: &str) {
        self.text += &format!("<text x=\"{x:.1}\" y=\"{y:.1}\" {style}>{text}</text>\n");
    }

    /// A bar, and its ratio behind it, which is legible on the line of quinn too.
    fn bar(&mut self, who: Who, ratio: f64) {
        let end = self.x(ratio);
        self.bars += &rect(LEFT, self.y, end - LEFT, who);
        let halo = "font-size=\"10\" stroke=\"#ffffff\" stroke-width=\"3\" paint-order=\"stroke\"";
        self.text(end + 4.0, self.y + BAR - 2.5, halo, &format!("{ratio:.2}"));
        self.y += BAR;
    }

    /// The bars of an operation, and its name before them.
    fn operation(&mut self, op: Op, ratios: &[(Who, f64)]) {
        let middle = self.y + ratios.len() as f64 * BAR / 2.0 + 4.0;
        self.text(LEFT - 10.0, middle, "text-anchor=\"end\"", op.name());
        for (who, ratio) in ratios {
            self.bar(*who, *ratio);
        }
        self.y += GAP;
    }

    /// The bars of a sample, below its name.
    fn sample(&mut self, name: &str, operations: &[(Op, Vec<(Who, f64)>)]) {
        self.text(LEFT - 10.0, self.y + 20.0, "text-anchor=\"end\" font-weight=\"bold\"", name);
        self.y += NAME;
        for (op, ratios) in operations {
            self.operation(*op, ratios);
        }
    }

    fn legend(&mut self) {
        self.text(16.0, 26.0, "font-size=\"16\" font-weight=\"bold\"", "Time of a call, quinn = 1: shorter is faster");
        let names = ["Yuthpram", "Yuthpram through C", "Yuthpram through Rust", "ngtcp2"];
        for ((who, name), x) in ALL[1..].iter().zip(names).zip([16.0, 130.0, 300.0, 490.0]) {
            self.bars += &rect(x, 42.0, 22.0, *who);
            self.text(x + 28.0, 51.0, "", name);
        }
    }

    fn axis(&mut self) {
        let bottom = self.y;
        for half in 0..=(self.most * 2.0) as u32 {
            let ratio = f64::from(half) / 2.0;
            let x = self.x(ratio);
            self.grid += &line(x, bottom, "stroke=\"#dddddd\"");
            self.text(x, bottom + 16.0, "text-anchor=\"middle\"", &format!("{ratio}"));
        }
        let (one, middle) = (self.x(1.0), self.x(self.most / 2.0));
        self.bars += &line(one, bottom, &format!("stroke=\"{}\" stroke-width=\"1.5\"", color(Who::Quinn)));
        self.text(one, TOP - 6.0, "text-anchor=\"middle\" font-weight=\"bold\"", "quinn");
        self.text(middle, bottom + 36.0, "text-anchor=\"middle\"", "time divided by quinn's time");
    }

    fn svg(&self) -> String {
        let height = self.y + 50.0;
        format!(
            "<svg xmlns=\"http://www.w3.org/2000/svg\" viewBox=\"0 0 {WIDTH} {height}\" width=\"{WIDTH}\" height=\"{height}\" \
             font-family=\"sans-serif\" font-size=\"12\" fill=\"#222222\">\n\
             <rect width=\"{WIDTH}\" height=\"{height}\" fill=\"#ffffff\"/>\n{}{}{}</svg>\n",
            self.grid, self.bars, self.text
        )
    }
}

/// The ratios of an operation on a sample.
fn ratios(all: &[Measured], sample: usize, op: Op) -> Vec<(Who, f64)> {
    let quinn = at(all, sample, op, Who::Quinn).expect("quinn has every operation");
    ALL[1..].iter().filter_map(|who| Some((*who, at(all, sample, op, *who)? / quinn))).collect()
}

/// Where there are rows of one order and of many, the chart has the many.
fn charted(op: Op, s: &Sample) -> bool {
    let many = exists(Who::Quinn, Op::ReadOrders, s);
    exists(Who::Quinn, op, s) && !(many && matches!(op, Op::Read | Op::Ordered))
}

pub fn svg(samples: &[Sample], all: &[Measured]) -> String {
    let operations = |(i, s): (usize, &Sample)| {
        let there = OPS.into_iter().filter(|op| charted(*op, s));
        there.map(|op| (op, ratios(all, i, op))).collect::<Vec<_>>()
    };
    let every: Vec<_> = samples.iter().enumerate().map(operations).collect();
    let most = every.iter().flatten().flat_map(|(_, r)| r).map(|(_, ratio)| *ratio).fold(1.5, f64::max);
    let [grid, bars, text] = [(); 3].map(|_| String::new());
    let mut chart = Chart { grid, bars, text, y: TOP, most: (most * 2.0).ceil() / 2.0 };
    for (s, operations) in samples.iter().zip(&every) {
        chart.sample(s.name, operations);
    }
    chart.axis();
    chart.legend();
    chart.svg()
}
