//! The stored list of sheets with deno_graph's own answers. REPLAY names it, else crates/replay/data/replay.bin of the repository; beside it
//! stands a file with the names of its sheets. Their formats stand at the head of tools/replay.rs.

const DEFAULT: &str = "../../crates/replay/data/replay.bin";

// each test uses some of it
#[allow(dead_code)]
pub struct Item {
    /// The number of the answer, and the case's name.
    pub name: String,
    pub sheet: Vec<u8>,
    pub number: u8,
    pub report: Vec<u8>,
}

pub fn stored() -> Vec<Item> {
    let name = std::env::var("REPLAY").unwrap_or(DEFAULT.to_string());
    let bytes = std::fs::read(&name).unwrap_or_else(|e| panic!("the stored list {name}: {e} (REPLAY names another)"));
    let names = std::fs::read_to_string(name.replace(".bin", ".names")).expect("the names of the stored list");
    let mut names = names.lines();
    let mut rest = &bytes[..];
    let mut take = |n: usize| {
        let (part, after) = rest.split_at_checked(n).expect("the stored list is cut off");
        rest = after;
        part.to_vec()
    };
    let number = |b: Vec<u8>| u32::from_le_bytes(b.try_into().expect("four bytes")) as usize;
    let count = number(take(4));
    let mut items = Vec::new();
    for _ in 0..count {
        let n = number(take(4));
        let sheet = take(n);
        let refusal = take(1)[0];
        let n = number(take(4));
        let name = names.next().expect("a name for each sheet").to_string();
        items.push(Item { name, sheet, number: refusal, report: take(n) });
    }
    assert!(rest.is_empty() && names.next().is_none(), "bytes or names follow the stored list");
    assert!(items.iter().any(|i| i.number == 0) && items.iter().any(|i| i.number != 0), "the stored list has too little");
    items
}
