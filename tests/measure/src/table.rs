//! The tables that are printed: a row for each case, a column for each size.

use measure::cases::{CASES, GROWING, SIZES};
use measure::sized::Size;

pub struct Cost {
    pub name: &'static str,
    pub size: Size,
    pub proved: f64,
    /// What of the proved side's is copying and clearing, where it is known.
    pub copying: Option<f64>,
    pub baseline: f64,
}

fn ratio(cost: &Cost) -> String {
    format!("{:.1}", cost.proved / cost.baseline)
}

/// Proved, copying where it is known, baseline, and the ratio.
fn whole(cost: &Cost) -> Vec<String> {
    let round = |count: f64| format!("{count:.0}");
    let mut cells = vec![round(cost.proved)];
    cells.extend(cost.copying.map(round));
    cells.extend([round(cost.baseline), ratio(cost)]);
    cells
}

fn print_head(columns: &[String]) {
    println!(
        "\n| | {} |\n|---|{}",
        columns.join(" | "),
        "---:|".repeat(columns.len())
    );
}

fn print_row(name: &str, cells: &[String]) {
    println!("| {name} | {} |", cells.join(" | "));
}

fn table(sizes: &[Size], costs: &[Cost], columns: &[&str], cells: impl Fn(&Cost) -> Vec<String>) {
    let head: Vec<String> = sizes
        .iter()
        .flat_map(|size| columns.iter().map(move |column| format!("{size}{column}")))
        .collect();
    print_head(&head);
    for case in &CASES {
        let row: Vec<String> = sizes
            .iter()
            .filter_map(|size| {
                costs
                    .iter()
                    .find(|c| c.name == case.name && c.size == *size)
            })
            .flat_map(&cells)
            .collect();
        print_row(case.name, &row);
    }
}

pub fn print(unit: &str, costs: &[Cost]) {
    println!("\n{unit} of a call");
    let counted = costs.iter().any(|cost| cost.copying.is_some());
    let columns: &[&str] = if counted {
        &["", " copying", " baseline", " ratio"]
    } else {
        &["", " baseline", " ratio"]
    };
    table(&GROWING, costs, columns, whole);
    println!("\n{unit}, ratio at each size");
    table(&SIZES, costs, &[""], |cost| vec![ratio(cost)]);
}

/// What the bench's program takes for an answer.
pub fn print_through(rows: &[(String, Vec<u64>)]) {
    print_head(&GROWING.map(|size| size.to_string()));
    for (name, figures) in rows {
        let cells: Vec<String> = figures.iter().map(u64::to_string).collect();
        print_row(name, &cells);
    }
}
