//! A recorded table: a text of lines `WORD: VALUE`, one line a figure.

use std::fmt;

/// What a call costs at a number of connections.
#[derive(Clone, Debug, PartialEq)]
pub struct Figure {
    pub call: String,
    /// The data's size; None where it does not matter.
    pub bytes: Option<usize>,
    pub connections: usize,
    /// Nanoseconds a call.
    pub library: f64,
    pub original: f64,
    /// The median of the pairs' ratios.
    pub ratio: f64,
}

#[derive(Clone, Debug, PartialEq)]
pub struct Record {
    pub processor: String,
    pub load: String,
    pub pairs: String,
    pub figures: Vec<Figure>,
}

impl fmt::Display for Figure {
    fn fmt(&self, f: &mut fmt::Formatter<'_>) -> fmt::Result {
        let bytes = self.bytes.map_or("-".into(), |n| n.to_string());
        write!(f, "call: {}; bytes: {bytes}; connections: {}; ", self.call, self.connections)?;
        write!(f, "library: {:.1} ns; ciplink: {:.1} ns; ratio: {:.3}", self.library, self.original, self.ratio)
    }
}

impl fmt::Display for Record {
    fn fmt(&self, f: &mut fmt::Formatter<'_>) -> fmt::Result {
        writeln!(f, "# Made by bench --record (host/README.md): the tables of docs/SPEED.md are drawn from it, and")?;
        writeln!(f, "# bench --against says what changed since.")?;
        writeln!(f, "processor: {}", self.processor)?;
        writeln!(f, "load: {}", self.load)?;
        writeln!(f, "pairs: {}", self.pairs)?;
        self.figures.iter().try_for_each(|figure| writeln!(f, "{figure}"))
    }
}

impl Figure {
    /// Whether both are of the same call, size and number of connections.
    pub fn same_place(&self, other: &Figure) -> bool {
        (&self.call, self.bytes, self.connections) == (&other.call, other.bytes, other.connections)
    }

    fn read(line: &str) -> Option<Figure> {
        let mut fields = line.split("; ").map(|part| part.split_once(": "));
        let mut value = |name: &str| fields.next()?.filter(|(word, _)| *word == name).map(|(_, value)| value);
        let time = |text: &str| text.strip_suffix(" ns")?.parse::<f64>().ok().filter(|n| n.is_finite() && *n >= 0.0);
        let figure = Figure {
            call: value("call")?.into(),
            bytes: Some(value("bytes")?).filter(|s| *s != "-").map(str::parse).transpose().ok()?,
            connections: value("connections")?.parse().ok()?,
            library: time(value("library")?)?,
            original: time(value("ciplink")?)?,
            ratio: value("ratio")?.parse::<f64>().ok().filter(|n| n.is_finite() && *n > 0.0)?,
        };
        fields.next().is_none().then_some(figure)
    }
}

impl Record {
    /// Reads what `Display` writes; says which line it cannot read.
    pub fn read(text: &str) -> Result<Record, String> {
        let mut record =
            Record { processor: String::new(), load: String::new(), pairs: String::new(), figures: Vec::new() };
        for (number, line) in text.lines().enumerate().filter(|(_, l)| !l.starts_with('#') && !l.is_empty()) {
            let wrong = || format!("line {}: cannot read {line:?}", number + 1);
            match line.split_once(": ").ok_or_else(wrong)? {
                ("processor", value) => record.processor = value.into(),
                ("load", value) => record.load = value.into(),
                ("pairs", value) => record.pairs = value.into(),
                _ => {
                    let figure = Figure::read(line).ok_or_else(wrong)?;
                    if record.figures.iter().any(|f| f.same_place(&figure)) {
                        return Err(format!("line {}: there twice: {line:?}", number + 1));
                    }
                    record.figures.push(figure);
                }
            }
        }
        if record.figures.is_empty() {
            return Err("no line begins with 'call: '".into());
        }
        Ok(record)
    }
}

#[cfg(test)]
pub fn sample() -> Record {
    let figure = |call: &str, bytes, connections, ratio: f64| Figure {
        call: call.into(),
        bytes,
        connections,
        library: 100.0 * ratio,
        original: 100.0,
        ratio,
    };
    Record {
        processor: "a processor".into(),
        load: "0.10 before and 0.20 after, on 2 cores".into(),
        pairs: "101 of batches of 1000 microseconds".into(),
        figures: vec![
            figure("receive, new data", Some(32), 1, 0.5),
            figure("receive, new data", Some(32), 8, 0.75),
            figure("expire, nothing", None, 1, 1.25),
            figure("expire, nothing", None, 8, 0.125),
        ],
    }
}

#[cfg(test)]
mod tests {
    use super::*;

    #[test]
    fn what_is_written_is_read_again() {
        assert_eq!(Record::read(&sample().to_string()), Ok(sample()));
    }

    #[test]
    fn what_is_no_record_is_refused() {
        let good = sample().to_string();
        for (old, new, why) in [
            ("bytes: 32", "bytes: few", "line 6"),
            ("bytes: -", "bytes: ", "line 8"),
            ("library: 50.0 ns", "library: 50.0", "line 6"),
            ("ratio: 0.500", "ratio: NaN", "line 6"),
            ("ratio: 0.500", "ratio: 0", "line 6"),
            ("ratio: 0.500", "ratio: 0.5; more: 1", "line 6"),
            ("connections: 8", "connections: 1", "there twice"),
            ("load: ", "weight: ", "line 4"),
            ("load: ", "load", "line 4"),
        ] {
            assert!(good.contains(old), "{old}");
            let said = Record::read(&good.replacen(old, new, 1)).expect_err(new);
            assert!(said.contains(why), "{new}: {said}");
        }
        assert!(Record::read("# nothing\n").is_err());
    }
}
