#[path = "../original/copies.rs"]
mod copies;

use copies::{Copy, Edit};

fn main() {
    let copies = [
        Copy::unchanged("reference"),
        Copy::unchanged("again"),
        // D1 as the rules say it, in the text itself: shows that the runner's own way with D1 is exact
        Copy {
            name: "documented".into(),
            edits: vec![
                Edit::new("state.rs", "        if conn.produces\n", "        if conn.produces && conn.multicast\n"),
                Edit::new("side.rs", "const MEND_D1: bool = true;", "const MEND_D1: bool = false;"),
            ],
        },
    ];
    copies::write(&copies, false);
}
