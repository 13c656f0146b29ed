#[path = "../original/copies.rs"]
#[allow(dead_code)]
mod copies;
#[path = "src/list.rs"]
mod list;

use copies::{Copy, Edit};
use std::fs;
use std::path::Path;

fn main() {
    println!("cargo::rerun-if-changed=list.txt");
    println!("cargo::rerun-if-changed=src/list.rs");
    let text = match fs::read_to_string("list.txt") {
        Ok(text) => text,
        Err(e) => copies::fail(&format!("cannot read plants/list.txt: {e}")),
    };
    let plants = match list::read(&text) {
        Ok(plants) => plants,
        Err(e) => copies::fail(&format!("plants/list.txt: {e}")),
    };
    let all: Vec<Copy> =
        plants.iter().map(|p| Copy { name: p.name.clone(), edits: vec![Edit::new(&p.file, &p.old, &p.new)] }).collect();
    copies::write(&all, false);
    let mut table =
        String::from("pub fn side(name: &str) -> Option<fn() -> Box<dyn compare::Side>> {\n    match name {\n");
    for p in &plants {
        table += &format!("        {:?} => Some(|| Box::new({}::Original::default())),\n", p.name, p.name);
    }
    table += "        _ => None,\n    }\n}\n";
    let out = std::env::var_os("OUT_DIR").expect("run by cargo");
    let path = Path::new(&out).join("copies.rs");
    let declared = fs::read_to_string(&path).expect("just written");
    if let Err(e) = fs::write(&path, declared + &table) {
        copies::fail(&format!("cannot write {}: {e}", path.display()));
    }
}
