//! The tables as they are printed and stored: medians, and ratios with their spread from round to round.
use crate::groups::{Group, Part};
use crate::measure::Costs;

/// The value below which so many percent of them lie.
fn part(values: &[f64], percent: usize) -> f64 {
    let mut sorted = values.to_vec();
    sorted.sort_by(f64::total_cmp);
    sorted[((sorted.len() - 1) * percent + 50) / 100]
}

fn figure(value: f64) -> String {
    if value < 100.0 {
        format!("{value:.1}")
    } else {
        format!("{value:.0}")
    }
}

/// Nanoseconds, and beside them how many such there are in a second.
fn rate(value: f64) -> String {
    format!("{} ({} M/s)", figure(value), figure(1e3 / value))
}

/// Median and 10 to 90 % of the ratios, round by round.
fn ratio(ours: &[f64], rival: &[f64]) -> String {
    let ratios: Vec<f64> = ours.iter().zip(rival).map(|(ours, rival)| ours / rival).collect();
    let [middle, low, high] = [50, 10, 90].map(|percent| part(&ratios, percent)).map(|value| format!("{value:.0$}", if value < 10.0 { 2 } else { 1 }));
    format!("{middle} ({low} to {high})")
}

fn lines(group: &Group, costs: &Costs) -> Vec<Vec<String>> {
    let line = |name: String, cells: Vec<String>| [vec![name], cells].concat();
    let mut all = vec![line(String::new(), group.columns.clone())];
    all.extend(group.facts.iter().map(|(name, cells)| line(name.to_string(), cells.clone())));
    let shown = if group.rates { rate } else { figure };
    for (row, own) in group.rows.iter().zip(costs) {
        all.push(line(row.name.to_string(), own.iter().map(|rounds| shown(part(rounds, 50))).collect()));
        let rivals = group.rows.iter().zip(costs).filter(|(rival, _)| row.part == Part::Ours && rival.part == Part::Rival);
        for (rival, theirs) in rivals {
            all.push(line(format!("ratio to {}", rival.name), own.iter().zip(theirs).map(|(own, theirs)| ratio(own, theirs)).collect()));
        }
    }
    all
}

/// The group's heading, what it says of itself, and its table.
pub fn text(group: &Group, costs: &Costs) -> String {
    let lines = lines(group, costs);
    let width = |column: usize| lines.iter().map(|line| line[column].len()).max().unwrap_or(0);
    let mut text = format!("### {}\n\n{}.\n\n", group.title, group.about);
    for (i, line) in lines.iter().enumerate() {
        let cells: Vec<String> = line.iter().enumerate().map(|(column, cell)| format!("{cell:w$}", w = width(column))).collect();
        text += &format!("| {} |\n", cells.join(" | "));
        if i == 0 {
            text += &format!("|{}\n", "---|".repeat(line.len()));
        }
    }
    text + "\n"
}
