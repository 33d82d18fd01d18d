//! Tables and numbers as Markdown.

use reference::gen::Ways;

use crate::shapes::Inputs;
use crate::times::median;
use crate::SIZES;

pub fn size_heads() -> Vec<String> {
    SIZES.map(|n| format!("{n} stations")).into()
}

pub fn print_by_shape(shapes: &[Inputs], heads: &[String], cells: impl Fn(usize) -> Vec<String>) {
    let rows = shapes.iter().enumerate();
    let rows = rows.map(|(at, shape)| (shape.name, shape.ways, cells(at)));
    print!("{}", by_shape(heads, rows));
}

/// A row of cells for each shape, under the names of the two groups.
pub fn by_shape(
    heads: &[String],
    rows: impl Iterator<Item = (&'static str, Ways, Vec<String>)>,
) -> String {
    let mut text = head("tables", heads);
    let mut group = None;
    for (name, ways, cells) in rows {
        if group != Some(ways) {
            group = Some(ways);
            text += &row(group_name(ways), &vec![String::new(); heads.len()]);
        }
        text += &row(name, &cells);
    }
    text
}

fn group_name(ways: Ways) -> &'static str {
    match ways {
        Ways::Both => "**two-way**",
        Ways::One => "**one-way**",
    }
}

pub fn head(first: &str, heads: &[String]) -> String {
    format!("{}|---|{}\n", row(first, heads), "---|".repeat(heads.len()))
}

pub fn row(name: &str, cells: &[String]) -> String {
    format!("| {name} | {} |\n", cells.join(" | "))
}

pub fn capital(name: &str) -> String {
    name[..1].to_uppercase() + &name[1..]
}

pub fn unit(nanoseconds: f64) -> String {
    if nanoseconds < 1e3 {
        format!("{nanoseconds:.0} ns")
    } else if nanoseconds < 1e6 {
        format!("{:.2} µs", nanoseconds / 1e3)
    } else if nanoseconds < 1e9 {
        format!("{:.2} ms", nanoseconds / 1e6)
    } else {
        format!("{:.2} s", nanoseconds / 1e9)
    }
}

/// Median and highest, if there are any.
pub fn spread(numbers: Vec<f64>, text: impl Fn(f64) -> String) -> String {
    let Some(highest) = numbers.iter().copied().max_by(f64::total_cmp) else {
        return "–".into();
    };
    format!("{} / {}", text(median(numbers)), text(highest))
}

/// The digits in groups of three.
pub fn grouped(number: u32) -> String {
    match number {
        0..=999 => number.to_string(),
        _ => format!("{},{:03}", grouped(number / 1_000), number % 1_000),
    }
}
