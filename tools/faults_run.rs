//! faults_run LIST NAMES
//! Runs second.rs, which stands beside this file, on the stored list and prints how many answers differ and the first such case.
//! The status is 1 if one differs.

#[path = "second.rs"]
#[allow(dead_code)]
mod second;

fn main() {
    let args: Vec<String> = std::env::args().skip(1).collect();
    let [list, names] = &args[..] else { panic!("usage: faults_run LIST NAMES") };
    let list = std::fs::read(list).expect("the list");
    let names = std::fs::read_to_string(names).expect("the names");
    // a fault may make it panic: that is an answer that differs
    std::panic::set_hook(Box::new(|_| {}));
    let mut rest = &list[4..];
    let mut differ = Vec::new();
    for name in names.lines() {
        let sheet = part(&mut rest);
        let number = rest[0];
        rest = &rest[1..];
        let report = part(&mut rest);
        let expected = if number == 0 { Ok(report) } else { Err(&number) };
        match std::panic::catch_unwind(|| second::answer(sheet)) {
            Ok(answer) if answer.as_deref() == expected => {}
            _ => differ.push(name),
        }
    }
    assert!(rest.is_empty(), "the names are not those of the list");
    if let Some(first) = differ.first() {
        println!("{} ({first})", differ.len());
        std::process::exit(1)
    }
}

/// The next length and bytes.
fn part<'a>(stream: &mut &'a [u8]) -> &'a [u8] {
    let (head, rest) = stream.split_first_chunk::<4>().expect("a length");
    let (bytes, rest) = rest.split_at(u32::from_le_bytes(*head) as usize);
    *stream = rest;
    bytes
}
