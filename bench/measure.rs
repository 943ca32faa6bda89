//! The rounds: in each, every side of every column in turn, so that what slows the machine for a while slows all of them.
use crate::clock::cost;
use crate::groups::Group;

/// By row, column and round, in the group's unit.
pub type Costs = Vec<Vec<Vec<f64>>>;

pub fn rounds(groups: &[Group], count: usize) -> Vec<Costs> {
    let mut all: Vec<Costs> = groups.iter().map(|group| vec![vec![Vec::new(); group.columns.len()]; group.rows.len()]).collect();
    for round in 1..=count {
        eprintln!("bench: round {round} of {count}");
        for (group, costs) in groups.iter().zip(&mut all) {
            once(group, costs);
        }
    }
    all
}

fn once(group: &Group, costs: &mut Costs) {
    for (column, unit) in group.unit.iter().enumerate() {
        for (row, costs) in group.rows.iter().zip(costs.iter_mut()) {
            costs[column].push(cost(&row.works[column]) / unit);
        }
    }
}
