//! The chart: a bar for every entry on every job, as long as its time over that of the fastest peer. An SVG without
//! scripts, whose colours follow the reader's light or dark.

use crate::measure::{Measured, Row};
use std::fmt::Write;
use std::fs;
use std::time::{SystemTime, UNIX_EPOCH};

const LEFT: f64 = 270.0;
const SCALE_WIDTH: f64 = 420.0;
const RIGHT: f64 = 360.0;
const TOP: f64 = 92.0;
const ROW: f64 = 24.0;
const FOOT: f64 = 62.0;

const STYLE: &str = "
    text { font: 12px system-ui, sans-serif; fill: #24292f }
    .title { font-size: 17px; font-weight: 600 }
    .faint, .axis { fill: #57606a }
    .grid { stroke: #d0d7de; stroke-width: 1 }
    .level { stroke: #24292f; stroke-width: 1.5 }
    .ahead { fill: #2da44e }
    .behind { fill: #d4a72c }
    .peer { fill: none; stroke: #57606a; stroke-width: 1.5 }
    @media (prefers-color-scheme: dark) {
      text { fill: #e6edf3 }
      .faint, .axis { fill: #9198a1 }
      .grid { stroke: #3d444d }
      .level { stroke: #e6edf3 }
      .ahead { fill: #3fb950 }
      .behind { fill: #d29922 }
      .peer { stroke: #9198a1 }
    }
  ";

pub fn write(all: &[Measured], file: &str) -> std::io::Result<()> {
    fs::write(file, chart(all, &machine(), &today()))?;
    println!("the chart is in {file}");
    Ok(())
}

/// An entry on a job.
struct Bar<'a> {
    measured: &'a Measured,
    row: &'a Row,
}

impl Bar<'_> {
    fn ratio(&self) -> f64 {
        self.row.nanoseconds / self.measured.fastest_peer().nanoseconds
    }

    fn peers(&self) -> impl Iterator<Item = f64> + '_ {
        let fastest = self.measured.fastest_peer().nanoseconds;
        self.measured.peers().map(move |row| row.nanoseconds / fastest)
    }

    fn beside(&self) -> String {
        let peer = self.measured.fastest_peer();
        let (time, best) = (self.row.nanoseconds, peer.nanoseconds);
        format!("{:.2}: {time:.1} ns against {best:.1} of {}", self.ratio(), peer.name)
    }
}

fn chart(all: &[Measured], machine: &str, date: &str) -> String {
    let bars: Vec<Bar> =
        all.iter().flat_map(|measured| measured.ours().map(move |row| Bar { measured, row })).collect();
    let most = bars.iter().map(Bar::ratio).fold(2.0, f64::max).ceil();
    let bottom = TOP + ROW * bars.len() as f64;
    let (width, height) = (LEFT + SCALE_WIDTH + RIGHT, bottom + FOOT);
    let at = |ratio: f64| LEFT + ratio / most * SCALE_WIDTH;

    let mut svg = String::new();
    let mut line = |words: String| writeln!(svg, "{words}").expect("a string takes any text");
    line(format!(
        "<svg xmlns=\"http://www.w3.org/2000/svg\" viewBox=\"0 0 {width} {height}\" width=\"{width}\" height=\"{height}\" role=\"img\">"
    ));
    line(format!("  <title>Time a call over that of the fastest peer</title>\n  <style>{STYLE}</style>"));
    line(text(16.0, 28.0, "title", "start", "Time a call, over that of the fastest peer"));
    line(text(
        16.0,
        48.0,
        "faint",
        "start",
        "Shorter is faster; at 1 an entry is level with the fastest peer. Rings: all peers.",
    ));
    for step in 0..=(2.0 * most) as u32 {
        let ratio = f64::from(step) / 2.0;
        let class = if step == 2 { "level" } else { "grid" };
        line(format!("  <path class=\"{class}\" d=\"M{:.1} {} V{bottom}\"/>", at(ratio), TOP - 6.0));
        line(text(at(ratio), TOP - 12.0, "axis", "middle", &ratio.to_string()));
    }
    let mut y = TOP;
    let mut before: Option<&Measured> = None;
    for bar in &bars {
        if before.is_some_and(|before| !std::ptr::eq(before, bar.measured)) {
            line(format!("  <path class=\"grid\" d=\"M16 {y} H{}\"/>", width - 16.0));
        }
        before = Some(bar.measured);
        let class = if bar.ratio() <= 1.0 { "ahead" } else { "behind" };
        let length = at(bar.ratio()) - LEFT;
        let label = format!("{}, {}", bar.measured.subject, bar.row.name);
        line(text(LEFT - 10.0, y + 16.0, "name", "end", &label));
        line(format!(
            "  <rect class=\"{class}\" x=\"{LEFT}\" y=\"{}\" width=\"{length:.1}\" height=\"{}\" rx=\"2\"/>",
            y + 5.0,
            ROW - 10.0
        ));
        for peer in bar.peers().filter(|&peer| peer <= most) {
            line(format!("  <circle class=\"peer\" cx=\"{:.1}\" cy=\"{}\" r=\"3.5\"/>", at(peer), y + ROW / 2.0));
        }
        line(text(LEFT + SCALE_WIDTH + 12.0, y + 16.0, "faint", "start", &bar.beside()));
        y += ROW;
    }
    let beyond = bars.iter().flat_map(Bar::peers).any(|peer| peer > most);
    let beyond = if beyond { format!(" Peers beyond {most} are not drawn.") } else { String::new() };
    line(text(
        16.0,
        bottom + 26.0,
        "faint",
        "start",
        &format!("{machine}, {date}. One process, random lengths, the best of 60 rounds.{beyond}"),
    ));
    line(text(
        16.0,
        bottom + 44.0,
        "faint",
        "start",
        "Drawn by make bench. Right of a bar: its ratio, its time, and that of the fastest peer.",
    ));
    svg.push_str("</svg>\n");
    svg
}

fn text(x: f64, y: f64, class: &str, anchor: &str, words: &str) -> String {
    let words = words.replace('&', "&amp;").replace('<', "&lt;").replace('>', "&gt;");
    format!("  <text class=\"{class}\" x=\"{x:.1}\" y=\"{y:.1}\" text-anchor=\"{anchor}\">{words}</text>")
}

fn machine() -> String {
    let known = fs::read_to_string("/proc/cpuinfo").unwrap_or_default();
    let model = known.lines().find_map(|line| line.strip_prefix("model name")?.split_once(':'));
    model.map_or("an unknown processor".to_string(), |(_, name)| name.trim().to_string())
}

/// The day in UTC, by the calendar's cycle of 400 years, counted from the first of March of the year 0.
fn today() -> String {
    let since = SystemTime::now().duration_since(UNIX_EPOCH).map_or(0, |time| time.as_secs());
    let days = since / 86_400 + 719_468;
    let (cycle, day) = (days / 146_097, days % 146_097);
    let year = (day - day / 1_460 + day / 36_524 - day / 146_096) / 365;
    let day = day - (365 * year + year / 4 - year / 100);
    let month = (5 * day + 2) / 153;
    let day_of_month = day - (153 * month + 2) / 5 + 1;
    let (year, month) = if month < 10 { (year, month + 3) } else { (year + 1, month - 9) };
    format!("{:04}-{month:02}-{day_of_month:02}", cycle * 400 + year)
}
