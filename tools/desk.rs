//! desk SEED COUNT
//! Compares the library of crates/desk, through bindings/desk, with a second model on COUNT generated runs of calls, each from a fresh desk.
//! The model is written from request #110 and has no queues: one list of all sheets that wait, in the order accepted.
//! Beside the model it is counted how many turns a sheet is at the front of its queue. The status is 1 if an answer differs.

use desk::{DEPOSITORS, Desk, PLACES, Refusal, Served};

#[derive(Default)]
struct Model {
    /// Depositor and sheet.
    waiting: Vec<(u32, u32)>,
    last_served: Option<u32>,
}

impl Model {
    fn hand_in(&mut self, depositor: u32, sheet: u32) -> Result<(), Refusal> {
        if depositor > 15 {
            return Err(Refusal::NoDepositor);
        }
        if self.waiting.iter().filter(|w| w.0 == depositor).count() == 8 {
            return Err(Refusal::EightWaiting);
        }
        self.waiting.push((depositor, sheet));
        Ok(())
    }

    /// Of the sheets whose depositor is nearest after the one last served, the one accepted first.
    fn turn(&mut self) -> Option<Served> {
        let last = self.last_served.unwrap_or(15);
        let nearest = |at: &usize| ((self.waiting[*at].0 + 15 - last) % 16, *at);
        let at = (0..self.waiting.len()).min_by_key(nearest)?;
        let (depositor, sheet) = self.waiting.remove(at);
        self.last_served = Some(depositor);
        Some(Served { depositor, sheet })
    }
}

/// SplitMix64.
struct Random(u64);

impl Random {
    fn below(&mut self, n: u64) -> u64 {
        self.0 = self.0.wrapping_add(0x9E37_79B9_7F4A_7C15);
        let mut z = self.0;
        z = (z ^ (z >> 30)).wrapping_mul(0xBF58_476D_1CE4_E5B9);
        z = (z ^ (z >> 27)).wrapping_mul(0x94D0_49BB_1331_11EB);
        (z ^ (z >> 31)) % n
    }

    fn of(&mut self, numbers: &[u32]) -> u32 {
        numbers[self.below(numbers.len() as u64) as usize]
    }

    /// Few different sheets, so that equal ones wait together; now and then any.
    fn sheet(&mut self) -> u32 {
        if self.below(4) == 0 { self.below(1 << 32) as u32 } else { self.of(&[0, 1, 7, u32::MAX]) }
    }

    /// One of the depositors that take part in the run; now and then one over 15.
    fn depositor(&mut self, part: &[u32]) -> u32 {
        if self.below(30) == 0 { self.of(&[16, 17, 255, 65_536, u32::MAX]) } else { self.of(part) }
    }
}

#[derive(Default)]
struct Counts {
    accepted: u64,
    refused: u64,
    served: u64,
    idle: u64,
    longest: u64,
}

/// One run: who takes part and how often a turn is called are drawn first.
fn run(random: &mut Random, counts: &mut Counts) -> Result<(), String> {
    let (mut desk, mut model) = (Desk::fresh(), Model::default());
    let part: Vec<u32> = match random.below(16) {
        0..4 => (0..DEPOSITORS).collect(),
        n => (0..n).map(|_| random.below(16) as u32).collect(),
    };
    let turns = random.below(100);
    // how many turns the front sheet of each depositor has seen
    let mut seen = [0; DEPOSITORS as usize];
    for call in 0..random.below(600) {
        if random.below(100) < turns {
            let (got, expected) = (desk.turn(), model.turn());
            if got != expected {
                return Err(format!("call {call}, a turn: {expected:?} is expected, got {got:?}"));
            }
            match got {
                Some(_) => counts.served += 1,
                None => counts.idle += 1,
            }
            for d in 0..DEPOSITORS {
                let at = &mut seen[d as usize];
                let waits = model.waiting.iter().any(|w| w.0 == d);
                let served = got.is_some_and(|s| s.depositor == d);
                *at = if waits || served { *at + 1 } else { 0 };
                counts.longest = counts.longest.max(*at);
                if served {
                    *at = 0;
                }
            }
        } else {
            let (depositor, sheet) = (random.depositor(&part), random.sheet());
            let (got, expected) = (desk.hand_in(depositor, sheet), model.hand_in(depositor, sheet));
            if got != expected {
                return Err(format!("call {call}, a hand-in of {sheet} by {depositor}: {expected:?} is expected, got {got:?}"));
            }
            match got {
                Ok(()) => counts.accepted += 1,
                Err(_) => counts.refused += 1,
            }
        }
    }
    // what is left is served, and then nothing
    for _ in 0..=DEPOSITORS as usize * PLACES {
        let (got, expected) = (desk.turn(), model.turn());
        if got != expected {
            return Err(format!("at the end: {expected:?} is expected, got {got:?}"));
        }
    }
    Ok(())
}

fn main() {
    let numbers: Vec<u64> = std::env::args().skip(1).map(|a| a.parse().expect("usage: desk SEED COUNT")).collect();
    let [seed, count] = numbers[..] else { panic!("usage: desk SEED COUNT") };
    let mut counts = Counts::default();
    for index in 0..count {
        if let Err(words) = run(&mut Random(seed.wrapping_add(index << 32)), &mut counts) {
            println!("desk: run {index} of seed {seed}, {words}");
            std::process::exit(1);
        }
    }
    let Counts { accepted, refused, served, idle, longest } = counts;
    println!("desk: {count} runs, {accepted} sheets accepted, {refused} refused, {served} served, {idle} idle turns: as the second model");
    println!("desk: a front sheet was served after {longest} turns at most");
    if longest > 16 {
        std::process::exit(1);
    }
}
