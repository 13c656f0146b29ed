//! The list of planted wrong readings, read from its text.

pub struct Plant {
    pub name: String,
    /// What it reads wrongly.
    #[allow(dead_code)]
    pub says: String,
    pub file: String,
    pub old: String,
    pub new: String,
}

/// The plants of a list; a message with the line where its form is broken.
pub fn read(text: &str) -> Result<Vec<Plant>, String> {
    let mut plants: Vec<Plant> = Vec::new();
    let mut lines = text.lines().enumerate().filter(|(_, l)| !l.trim().is_empty() && !l.starts_with('#'));
    while let Some((at, head)) = lines.next() {
        let wrong = |what: &str| format!("line {}: {what}", at + 1);
        let (name, says) = head.split_once(": ").ok_or_else(|| wrong("no \"NAME: meaning\""))?;
        let plain = name.chars().all(|c| c.is_ascii_lowercase() || c.is_ascii_digit() || c == '_');
        if !plain || plants.iter().any(|p| p.name == name) {
            return Err(wrong(&format!("{name:?} is no name, or is there twice")));
        }
        let (_, file) = lines.next().ok_or_else(|| wrong("no file"))?;
        let mut part = |mark: &str| {
            let line = lines.next().and_then(|(_, l)| l.strip_prefix(mark));
            line.map(str::to_owned).ok_or_else(|| wrong(&format!("no line that begins with {mark:?}")))
        };
        let (old, new) = (part("- ")?, part("+ ")?);
        plants.push(Plant { name: name.into(), says: says.into(), file: file.into(), old, new });
    }
    Ok(plants)
}
