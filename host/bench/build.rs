#[path = "../original/copies.rs"]
#[allow(dead_code)]
mod copies;

fn main() {
    copies::write(&[copies::Copy::unchanged("original")], true);
}
