//! What is printed: the tables of docs/SPEED.md, and what changed since a recorded table.

use crate::cases::{CASES, CONNECTIONS, Goals};
use crate::record::{Figure, Record};
use std::fmt::Write;

const BEGIN: &str = "<!-- drawn by bench from docs/speed.txt -->";
const END: &str = "<!-- up to here -->";

/// A row: the figures of a call and a size, by number of connections.
struct Row<'a> {
    call: &'a str,
    bytes: Option<usize>,
    cells: [Option<&'a Figure>; CONNECTIONS.len()],
}

fn rows(record: &Record) -> Vec<Row<'_>> {
    let mut rows: Vec<Row> = Vec::new();
    for figure in &record.figures {
        if !rows.iter().any(|r| (r.call, r.bytes) == (&figure.call, figure.bytes)) {
            let cells = CONNECTIONS.map(|n| {
                record.figures.iter().find(|f| (&f.call, f.bytes, f.connections) == (&figure.call, figure.bytes, n))
            });
            rows.push(Row { call: &figure.call, bytes: figure.bytes, cells });
        }
    }
    rows
}

fn goals(call: &str, bytes: Option<usize>) -> Option<Goals> {
    let case = CASES.iter().find(|c| c.name == call)?;
    case.rows.iter().find(|r| r.bytes == bytes)?.goals
}

/// A table with a column for each number of connections.
fn table(record: &Record, more: &str, cells: impl Fn(&Row) -> Option<Vec<String>>) -> String {
    let mut out = format!("| Call | Bytes |{more} {} |\n", CONNECTIONS.map(|n| n.to_string()).join(" | "));
    let columns = out.matches('|').count() - 1;
    let _ = writeln!(out, "|{}", "---|".repeat(columns));
    for row in rows(record) {
        if let Some(cells) = cells(&row) {
            let bytes = row.bytes.map_or("-".into(), |n| n.to_string());
            let _ = writeln!(out, "| {} | {bytes} | {} |", row.call, cells.join(" | "));
        }
    }
    out
}

fn each(row: &Row, cell: impl Fn(usize, &Figure) -> String) -> Vec<String> {
    let column = |(i, f): (usize, &Option<&Figure>)| f.map_or("-".into(), |f| cell(i, f));
    row.cells.iter().enumerate().map(column).collect()
}

/// By how much a ratio is above its goal, as the table shows both.
fn above(ratio: f64, goal: f64) -> Option<f64> {
    let shown = (ratio * 100.0).round() / 100.0;
    (shown > goal).then_some(shown - goal)
}

/// The tables of docs/SPEED.md.
pub fn tables(record: &Record) -> String {
    let mut out = format!(
        "Nanoseconds a call, library / ciplink (ratio), at so many connections. Processor: {}. Load: {}.\nPairs: {}, taken in turn in one process; the ratio is the median of the pairs' ratios.\n\n",
        record.processor, record.load, record.pairs
    );
    out += &table(record, "", |row| {
        Some(each(row, |_, f| format!("{:.0} / {:.0} ({:.2})", f.library, f.original, f.ratio)))
    });
    out += "\nThe ratios against their goals, and by how much a ratio is above its goal:\n\n";
    out += &table(record, " Goal |", |row| {
        let goals = goals(row.call, row.bytes)?;
        let same = goals.iter().all(|g| *g == goals[0]);
        let mut cells = vec![if same { goals[0].to_string() } else { goals.map(|g| g.to_string()).join(", ") }];
        cells.extend(each(row, |i, f| match above(f.ratio, goals[i]) {
            Some(more) => format!("{:.2}, above by {more:.2}", f.ratio),
            None => format!("{:.2}", f.ratio),
        }));
        Some(cells)
    });
    out
}

/// The page with the tables in it, between its two marks.
pub fn into_page(page: &str, record: &Record) -> Result<String, String> {
    let (before, rest) = page.split_once(BEGIN).ok_or_else(|| format!("has no line {BEGIN:?}"))?;
    let (_, after) = rest.split_once(END).ok_or_else(|| format!("has no line {END:?} behind {BEGIN:?}"))?;
    Ok(format!("{before}{BEGIN}\n{}{END}{after}", tables(record)))
}

/// What changed since a recorded table.
pub struct Changes {
    pub text: String,
    /// How many figures are slower by more than was allowed.
    pub slower: usize,
}

fn place(f: &Figure) -> String {
    let bytes = f.bytes.map_or(String::new(), |n| format!(", {n} bytes"));
    format!("{}{bytes}, at {} connections", f.call, f.connections)
}

/// Compares ratios to ciplink, not times: a machine that is slower today is slower for both.
pub fn changes(now: &Record, then: &Record, percent: f64) -> Result<Changes, String> {
    let was = |f: &Figure| then.figures.iter().find(|g| f.same_place(g)).map(|g| g.ratio);
    if !now.figures.iter().any(|f| was(f).is_some()) {
        return Err("the recorded table has none of the calls".into());
    }
    let mut text = String::from("Ratio to ciplink now and in the recorded table, and the one divided by the other.\n");
    if now.processor != then.processor {
        let _ = writeln!(text, "Another processor: now {}, recorded {}.", now.processor, then.processor);
    }
    let _ = writeln!(text, "Load: now {}, recorded {}.\n", now.load, then.load);
    text += &table(now, "", |row| {
        Some(each(row, |_, f| match was(f) {
            Some(was) => format!("now {:.2}, was {was:.2}: {:.2}", f.ratio, f.ratio / was),
            None => format!("now {:.2}, not recorded", f.ratio),
        }))
    });
    let mut slower = 0;
    for f in &now.figures {
        let Some(was) = was(f) else { continue };
        let (change, more) = (f.ratio / was, 1.0 + percent / 100.0);
        if change > more {
            slower += 1;
            let _ = write!(text, "\nslower: {}: now {:.3}, was {was:.3}: {change:.2}", place(f), f.ratio);
        } else if change * more < 1.0 {
            let _ = write!(text, "\nfaster: {}: now {:.3}, was {was:.3}: {change:.2}", place(f), f.ratio);
        }
    }
    let said = if slower == 0 { "nothing is".into() } else { format!("figures: {slower}") };
    let _ = write!(text, "\nslower by more than {percent} percent: {said}");
    Ok(Changes { text, slower })
}

#[cfg(test)]
mod tests {
    use super::*;
    use crate::record::sample;

    #[test]
    fn the_page_has_what_the_record_says() {
        let top = concat!(env!("CARGO_MANIFEST_DIR"), "/../../docs/");
        let file = |name: &str| std::fs::read_to_string(format!("{top}{name}")).expect(name);
        let record = Record::read(&file("speed.txt")).expect("docs/speed.txt");
        let page = file("SPEED.md");
        let drawn = into_page(&page, &record).expect("docs/SPEED.md");
        assert!(drawn == page, "docs/SPEED.md is not drawn from docs/speed.txt: run bench --read .. --page ..");
        for case in &CASES {
            for (row, connections) in case.rows.iter().flat_map(|r| CONNECTIONS.map(|n| (r, n))) {
                let there =
                    |f: &&Figure| (f.call.as_str(), f.bytes, f.connections) == (case.name, row.bytes, connections);
                assert!(record.figures.iter().any(|f| there(&f)), "not in docs/speed.txt: {}", case.name);
            }
        }
    }

    #[test]
    fn a_table_shows_goals_and_what_is_above_them() {
        let text = tables(&sample());
        assert!(text.contains("| receive, new data | 32 | 50 / 100 (0.50) | 75 / 100 (0.75) | - |"), "{text}");
        assert!(text.contains("| receive, new data | 32 | 0.5 | 0.50 | 0.75, above by 0.25 | - |"), "{text}");
        assert!(text.contains("| expire, nothing | - | 0.9, 0.22, 0.22 | 1.25, above by 0.35 | 0.12 | - |"), "{text}");
    }

    #[test]
    fn a_page_without_its_marks_is_refused() {
        let page = format!("before\n{BEGIN}\nold\n{END}\nafter\n");
        let drawn = into_page(&page, &sample()).expect("marks");
        assert!(drawn.starts_with("before\n") && drawn.ends_with("\nafter\n") && !drawn.contains("old"), "{drawn}");
        assert_eq!(into_page(&drawn, &sample()), Ok(drawn.clone()));
        assert!(into_page(&page.replace(BEGIN, ""), &sample()).is_err());
        assert!(into_page(&page.replace(END, ""), &sample()).is_err());
        assert!(into_page(&format!("{END}{BEGIN}"), &sample()).is_err());
    }

    #[test]
    fn nothing_changed_since_itself() {
        let found = changes(&sample(), &sample(), 10.0).expect("the same calls");
        assert_eq!(found.slower, 0);
        assert!(found.text.ends_with("slower by more than 10 percent: nothing is"), "{}", found.text);
        assert!(found.text.contains("now 0.50, was 0.50: 1.00"), "{}", found.text);
    }

    #[test]
    fn what_is_slower_is_counted_and_named() {
        let mut now = sample();
        now.figures[0].ratio = 0.56;
        now.figures[1].ratio = 0.81;
        now.figures[3].ratio = 0.0625;
        let found = changes(&now, &sample(), 10.0).expect("the same calls");
        assert_eq!(found.slower, 1);
        let said = "slower: receive, new data, 32 bytes, at 1 connections: now 0.560, was 0.500: 1.12";
        assert!(found.text.contains(said), "{}", found.text);
        assert!(found.text.contains("faster: expire, nothing, at 8 connections: now 0.062"), "{}", found.text);
        assert_eq!(changes(&now, &sample(), 5.0).expect("the same calls").slower, 2);
        assert_eq!(changes(&now, &sample(), 20.0).expect("the same calls").slower, 0);
    }

    #[test]
    fn a_table_of_other_calls_is_refused() {
        let mut other = sample();
        other.figures.iter_mut().for_each(|f| f.connections += 1);
        assert!(changes(&sample(), &other, 10.0).is_err());
        other.figures[0].connections -= 1;
        let found = changes(&sample(), &other, 10.0).expect("one call is in both");
        assert!(found.text.contains("now 0.75, not recorded"), "{}", found.text);
    }

    #[test]
    fn another_processor_is_said() {
        let other = Record { processor: "another".into(), ..sample() };
        let found = changes(&sample(), &other, 10.0).expect("the same calls");
        assert!(found.text.contains("Another processor: now a processor, recorded another."), "{}", found.text);
    }
}
