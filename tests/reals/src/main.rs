//! reals [--stride N]: the proved conversions against the machine's floats, over every N-th of the 2^32 patterns (all of them by default),
//! and every level from 0 to 6,553,600 out and back. Prints what both sides took and refused, and how many of the patterns lie exactly
//! between two units (§5); status 1 at the first difference.

mod hardware;
mod proved;

use std::ops::AddAssign;
use std::process::ExitCode;

use hardware::Even;

/// What a side took and refused.
#[derive(Clone, Copy, Default, PartialEq, Eq)]
struct Count {
    taken: u64,
    refused: u64,
}

impl Count {
    fn add(&mut self, units: Option<u32>) {
        match units {
            Some(_) => self.taken += 1,
            None => self.refused += 1,
        }
    }
}

/// What both sides of a conversion did.
#[derive(Clone, Copy, Default)]
struct Counts {
    ours: Count,
    theirs: Count,
    /// Patterns exactly between two units, by the even one, to which they went.
    ties_below: u64,
    ties_above: u64,
}

impl AddAssign for Counts {
    fn add_assign(&mut self, other: Counts) {
        self.ours.taken += other.ours.taken;
        self.ours.refused += other.ours.refused;
        self.theirs.taken += other.theirs.taken;
        self.theirs.refused += other.theirs.refused;
        self.ties_below += other.ties_below;
        self.ties_above += other.ties_above;
    }
}

/// One conversion, as both sides have it.
#[derive(Clone, Copy)]
struct Conversion {
    name: &'static str,
    ours: fn(u32) -> Option<u32>,
    theirs: fn(u32) -> Option<u32>,
    /// The least REAL that is rounded.
    rounded_from: f32,
}

const CONVERSIONS: [Conversion; 3] = [
    Conversion { name: "level", ours: proved::level, theirs: hardware::level, rounded_from: 1.0 },
    Conversion { name: "limit", ours: proved::limit, theirs: hardware::limit, rounded_from: 1.0 },
    Conversion { name: "amount", ours: proved::amount, theirs: hardware::amount, rounded_from: 0.125 },
];

/// Both sides of one conversion, over the patterns `first`, `first + step` and so on.
fn compare(conversion: Conversion, first: u64, step: u64) -> Result<Counts, String> {
    let mut counts = Counts::default();
    let mut pattern = first;
    while pattern < 1 << 32 {
        let bits = pattern as u32;
        let (ours, theirs) = ((conversion.ours)(bits), (conversion.theirs)(bits));
        if ours != theirs {
            return Err(format!("{}: pattern {bits:08X}: proved {ours:?}, hardware {theirs:?}", conversion.name));
        }
        counts.ours.add(ours);
        counts.theirs.add(theirs);
        match hardware::tie(conversion.rounded_from, bits) {
            Some(Even::Below) => counts.ties_below += 1,
            Some(Even::Above) => counts.ties_above += 1,
            None => {}
        }
        pattern += step;
    }
    Ok(counts)
}

/// Every level out and back: the REAL equal to it, and itself again but for 1 to 65,535.
fn levels() -> Result<u64, String> {
    for units in 0..=6_553_600_u32 {
        let bits = proved::read_out(units);
        if bits != hardware::read_out(units) || f64::from(f32::from_bits(bits)) * 65_536.0 != f64::from(units) {
            return Err(format!("level {units} reads out as {bits:08X}"));
        }
        let back = if units == 0 { 0 } else { units.max(65_536) };
        if proved::level(bits) != Some(back) {
            return Err(format!("level {units} comes back as {:?}", proved::level(bits)));
        }
    }
    Ok(6_553_601)
}

fn run(stride: u64) -> Result<(), String> {
    for conversion in CONVERSIONS {
        // two halves side by side
        let halves: Vec<_> = (0..2)
            .map(|half| std::thread::spawn(move || compare(conversion, half * stride, 2 * stride)))
            .collect();
        let mut counts = Counts::default();
        for half in halves {
            counts += half.join().map_err(|_| "a thread ended early".to_string())??;
        }
        let (name, Counts { ours, theirs, ties_below, ties_above }) = (conversion.name, counts);
        println!(
            "{name}: proved took {} and refused {}; hardware took {} and refused {}",
            ours.taken, ours.refused, theirs.taken, theirs.refused
        );
        println!(
            "{name}: {} exactly between two units; {ties_below} became the even unit below, {ties_above} the one above",
            ties_below + ties_above
        );
    }
    println!("levels out and back: {}", levels()?);
    Ok(())
}

fn main() -> ExitCode {
    let words: Vec<String> = std::env::args().skip(1).collect();
    let stride = match words.as_slice() {
        [] => 1,
        [word, number] if word == "--stride" => match number.parse() {
            Ok(stride) if stride > 0 => stride,
            _ => {
                eprintln!("reals: --stride takes a number, 1 or more");
                return ExitCode::from(2);
            }
        },
        _ => {
            eprintln!("reals [--stride N]");
            return ExitCode::from(2);
        }
    };
    match run(stride) {
        Ok(()) => ExitCode::SUCCESS,
        Err(difference) => {
            println!("DIFFERENCE {difference}");
            ExitCode::FAILURE
        }
    }
}
