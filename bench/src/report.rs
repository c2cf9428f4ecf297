//! The table and the picture, from results.

use crate::work::PASSING;

/// A workload's results: of ours, quiche and the limit.
pub struct Result {
    work: String,
    micros: [Option<f64>; 3],
    instructions: [Option<f64>; 3],
}

/// Reads results on standard input, a line each.
pub fn results() -> Vec<Result> {
    let lines = std::io::stdin().lines().map(|line| line.expect("a line of text"));
    lines
        .map(|line| {
            let words: Vec<&str> = line.split_whitespace().collect();
            let number = |i: usize| words.get(i).and_then(|w| w.parse().ok());
            Result {
                work: words[0].to_string(),
                micros: [number(1), number(2), number(3)],
                instructions: [number(4), number(5), number(6)],
            }
        })
        .collect()
}

fn dash(text: Option<String>) -> String {
    text.unwrap_or("-".into())
}

fn time(n: Option<f64>) -> String {
    dash(n.map(|n| format!("{n:.1}")))
}

/// A count, a comma at each thousand.
fn count(n: Option<f64>) -> String {
    dash(n.map(|n| {
        let digits = format!("{n:.0}");
        let groups: Vec<&str> = digits
            .as_bytes()
            .rchunks(3)
            .rev()
            .map(|g| std::str::from_utf8(g).unwrap())
            .collect();
        groups.join(",")
    }))
}

fn ratio(of: &[Option<f64>; 3]) -> String {
    dash(of[0].zip(of[1]).map(|(ours, quiche)| format!("{:.1}", ours / quiche)))
}

/// The table, as Markdown. Columns that nothing was measured for are left out.
pub fn table(results: &[Result]) -> String {
    let timed = results.iter().any(|r| r.micros[0].is_some());
    let counted = results.iter().any(|r| r.instructions[0].is_some());
    let mut rows = vec![vec!["".to_string()]];
    if timed {
        rows[0].extend(["ours, µs", "quiche, µs", "ratio", "limit, µs"].map(String::from));
    }
    if counted {
        rows[0].extend(["ours, instr.", "quiche, instr.", "ratio", "limit, instr."].map(String::from));
    }
    rows.push(vec!["---".into()]);
    let columns = rows[0].len();
    rows[1].resize(columns, "---:".into());
    for r in results {
        let mut row = vec![r.work.clone()];
        if timed {
            row.extend([time(r.micros[0]), time(r.micros[1]), ratio(&r.micros), time(r.micros[2])]);
        }
        if counted {
            let i = &r.instructions;
            row.extend([count(i[0]), count(i[1]), ratio(i), count(i[2])]);
        }
        rows.push(row);
    }
    rows.iter().map(|row| format!("| {} |\n", row.join(" | "))).collect()
}

const STYLE: &str = "text{font:13px sans-serif;fill:#222}.t{font-size:16px;font-weight:bold}.n{font-size:12px}.s{fill:#555}\
.bg{fill:#fff}.g{stroke:#ddd}.b0{fill:#2f6db5}.b1{fill:#d9822b}.b2{fill:#8a8f98}\
@media(prefers-color-scheme:dark){text{fill:#e8e8e8}.s{fill:#b4b4b4}.bg{fill:#16181c}.g{stroke:#383c44}\
.b0{fill:#6aa5ea}.b1{fill:#f0a35a}.b2{fill:#9aa0aa}}";

/// Where the bars begin and how long the longest may be.
const LEFT: f64 = 262.0;
const WIDTH: f64 = 460.0;

fn told_of(work: &str) -> &'static str {
    match work {
        "W1" => "55 writes, 55 emits, 55 acks",
        "W1i" => "the same, piece by piece",
        "W2" => "one write of 64 KiB",
        "W3" => "55 frames in order, read",
        "W4" => "55 frames shuffled, 11 twice",
        "W5" => "64 inserts, 1,024 contains",
        _ => "the pair, every fifth lost",
    }
}

/// Which numbers the picture shows, and from which power of ten to which.
struct Scale {
    timed: bool,
    least: f64,
    most: f64,
}

impl Scale {
    fn of(results: &[&Result]) -> Scale {
        let timed = results.iter().any(|r| r.micros[0].is_some());
        let all = results
            .iter()
            .flat_map(|r| if timed { r.micros } else { r.instructions })
            .flatten();
        let (least, most) = all.fold((f64::MAX, 1.0), |(least, most), n| (n.min(least), n.max(most)));
        let least = least.log10().floor();
        Scale {
            timed,
            least,
            most: most.log10().ceil().max(least + 1.0),
        }
    }

    fn numbers(&self, r: &Result) -> [Option<f64>; 3] {
        if self.timed {
            r.micros
        } else {
            r.instructions
        }
    }

    fn at(&self, n: f64) -> f64 {
        LEFT + WIDTH * (n.log10() - self.least) / (self.most - self.least)
    }

    fn told(&self, n: f64) -> String {
        if self.timed {
            time(Some(n))
        } else {
            count(Some(n))
        }
    }

    fn lines(&self, bottom: f64) -> String {
        let line = |power| {
            let (at, n) = (self.at(10f64.powi(power)), 10f64.powi(power));
            format!(
                "<line class=\"g\" x1=\"{at:.1}\" x2=\"{at:.1}\" y1=\"62\" y2=\"{bottom}\"/>\
                 <text class=\"n s\" x=\"{at:.1}\" y=\"54\" text-anchor=\"middle\">{}</text>\n",
                if n < 1.0 { n.to_string() } else { count(Some(n)) }
            )
        };
        (self.least as i32..=self.most as i32).map(line).collect()
    }

    fn bars(&self, r: &Result, top: f64) -> String {
        let bar = |(i, n): (usize, f64)| {
            let (y, end) = (top + 18.0 * i as f64, self.at(n).max(LEFT + 1.0));
            format!(
                "<rect class=\"b{i}\" x=\"{LEFT}\" y=\"{y}\" width=\"{:.1}\" height=\"14\"/>\
                 <text class=\"n\" x=\"{:.1}\" y=\"{}\">{}</text>\n",
                end - LEFT,
                end + 5.0,
                y + 11.5,
                self.told(n)
            )
        };
        let known = |(i, n): (usize, Option<f64>)| n.map(|n| (i, n));
        self.numbers(r).into_iter().enumerate().filter_map(known).map(bar).collect()
    }
}

fn legend() -> String {
    let entry = |(i, at, name)| {
        let text = at + 17;
        format!(
            "<rect class=\"b{i}\" x=\"{at}\" y=\"17\" width=\"12\" height=\"12\"/><text x=\"{text}\" y=\"28\">{name}</text>\n"
        )
    };
    [(0, 500, "ours"), (1, 566, "quiche"), (2, 644, "limit: plain copies")]
        .map(entry)
        .concat()
}

/// The picture: bars of ours, quiche and the limit for each workload. Times where there are any, else instructions.
pub fn picture(results: &[Result]) -> String {
    let rows: Vec<&Result> = results.iter().filter(|r| !PASSING.contains(&r.work.as_str())).collect();
    let scale = Scale::of(&rows);
    let height = 106.0 + 66.0 * rows.len() as f64;
    let measured = if scale.timed {
        "Microseconds for a run, median"
    } else {
        "Instructions for a run"
    };
    let heading = format!("{measured}: {}", std::env::consts::ARCH);
    let mut svg = format!(
        "<svg xmlns=\"http://www.w3.org/2000/svg\" viewBox=\"0 0 820 {height}\" width=\"820\" height=\"{height}\" role=\"img\">\n\
         <title>{heading}: Valemkhor, quiche and plain copies</title>\n<style>{STYLE}</style>\n\
         <rect class=\"bg\" width=\"820\" height=\"{height}\"/>\n<text class=\"t\" x=\"20\" y=\"28\">{heading}</text>\n{}{}",
        legend(),
        scale.lines(height - 38.0)
    );
    for (row, r) in rows.into_iter().enumerate() {
        let top = 68.0 + 66.0 * row as f64;
        let (work, told, y) = (&r.work, told_of(&r.work), top + 23.0);
        svg += &format!("<text x=\"20\" y=\"{y}\">{work}</text><text class=\"s\" x=\"56\" y=\"{y}\">{told}</text>\n");
        svg += &scale.bars(r, top);
    }
    let note = "Fewer is better. The scale is logarithmic: from line to line ten times as many.";
    svg + &format!("<text class=\"n s\" x=\"20\" y=\"{}\">{note}</text>\n</svg>\n", height - 14.0)
}
