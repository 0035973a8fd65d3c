//! A second answer to scan sums, from the words of the request (docs/CHANGES.md, #111), compared with the library's on generated bodies.
//! It is slow and plain on purpose.
//!   scan SEED COUNT    prints how many bodies were compared; the status is 1 at the first that differs

const LONGEST: usize = 32_764;

unsafe extern "C" {
    fn scan_sum_answer(body: *const u8, n: usize) -> u64;
}

fn library(body: &[u8]) -> Option<u64> {
    // the pointer of a slice is never null
    unsafe { scan_sum_answer(body.as_ptr(), body.len()) }.checked_sub(1)
}

// ---- the second answer ----

fn up_to(after: &[u8], word: &[u8]) -> usize {
    (0..after.len()).find(|i| after[*i..].starts_with(word)).unwrap_or(after.len())
}

fn scan_length(after: &[u8]) -> usize {
    up_to(after, b"}").min(up_to(after, b"import")).min(after.len())
}

fn second(body: &[u8]) -> Option<u64> {
    if body.len() > LONGEST || !body.starts_with(b"*") {
        return None;
    }
    let braces = (0..body.len()).filter(|i| body[*i] == b'{');
    Some(braces.map(|i| scan_length(&body[i + 1..]) as u64).sum())
}

/// The greatest sum of a star-opened body of n bytes, n at least 1.
fn greatest(n: u64) -> u64 {
    (n - 1) * n.saturating_sub(2) / 2
}

// ---- bodies ----

const WORDS: [&[u8]; 16] =
    [b"{", b"{{{{", b"}", b"import", b"impor", b"mport", b"iimport", b"Import", b"i", b"*", b" ", b"\n", b"a", b"\xC3\xA9", b"\xFF", b"\0"];

struct Random(u64);

impl Random {
    fn below(&mut self, n: usize) -> usize {
        self.0 ^= self.0 << 13;
        self.0 ^= self.0 >> 7;
        self.0 ^= self.0 << 17;
        (self.0.wrapping_mul(0x2545_F491_4F6C_DD1D) >> 33) as usize % n
    }

    /// Words one after the other, mostly behind a star. A body has its own few words, so that runs without an end are there too.
    fn body(&mut self, most: usize) -> Vec<u8> {
        let mut body = if self.below(8) == 0 { Vec::new() } else { b"*".to_vec() };
        let some: Vec<&[u8]> = (0..1 + self.below(5)).map(|_| WORDS[self.below(WORDS.len())]).collect();
        let long = self.below(most + 1);
        while body.len() < long {
            body.extend(some[self.below(some.len())]);
        }
        body
    }
}

/// Every body of at most six of these words.
fn every(each: &mut impl FnMut(&[u8])) {
    fn go(body: &[u8], left: usize, each: &mut impl FnMut(&[u8])) {
        each(body);
        if left > 0 {
            for word in [b"*" as &[u8], b"{", b"}", b"import", b"impor", b"t"] {
                go(&[body, word].concat(), left - 1, each);
            }
        }
    }
    go(b"", 6, each)
}

// ---- the comparison ----

fn main() {
    let mut args = std::env::args().skip(1).map(|a| a.parse::<u64>().expect("a number"));
    let (seed, count) = (args.next().expect("SEED"), args.next().expect("COUNT"));
    let (mut bodies, mut counted) = (0u64, 0u64);
    let mut compare = |body: &[u8]| {
        let (ours, other) = (library(body), second(body));
        if ours != other || ours.is_some_and(|sum| sum > greatest(body.len() as u64)) {
            println!(
                "scan: {ours:?}, and the second answer is {other:?}, for a body of {} bytes, which begins {:?}",
                body.len(),
                String::from_utf8_lossy(&body[..body.len().min(200)])
            );
            std::process::exit(1);
        }
        bodies += 1;
        counted += u64::from(ours.is_some());
    };

    every(&mut compare);
    let mut random = Random(seed.wrapping_mul(0x9E37_79B9_7F4A_7C15) | 1);
    for i in 0..count {
        let most = if i % 1000 == 0 { 2000 } else { 60 };
        compare(&random.body(most));
    }
    for n in [LONGEST - 1, LONGEST, LONGEST + 1, LONGEST + 2] {
        let mut body = random.body(0);
        body.resize(n, b'}');
        compare(&body);
        body[0] = b'*';
        compare(&body);
        body[1..].fill(b'{');
        compare(&body);
    }
    for n in 1..=LONGEST {
        let mut body = vec![b'{'; n];
        body[0] = b'*';
        if library(&body) != Some(greatest(n as u64)) {
            println!("scan: {:?} for a star and {} braces", library(&body), n - 1);
            std::process::exit(1);
        }
    }
    println!(
        "scan: {bodies} bodies, {counted} of them counted, as the second answer has it; a star and braces reach the greatest sum at each length"
    );
}
