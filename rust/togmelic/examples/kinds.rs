//! The kinds of the records of a draft, each with its text.

use togmelic::Kind;

fn main() {
    let draft = "fn f(){assert!(jet::eq_8((a,0x1F)))}";
    let tree = togmelic::read(draft.as_bytes()).expect("an accepted draft");
    for record in tree.iter().filter(|record| record.kind != Kind::Name) {
        println!("{:<11} {}", record.kind, &draft[record.place()]);
    }
}
