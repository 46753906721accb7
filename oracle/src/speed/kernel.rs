//! What is measured: calls in each format, and the ways in which each is done.
use super::appending::Appending;
use super::clearing::Clearing;
use super::heads::{Scores, Sums};
use super::magnitude::{self, Magnitude};
use super::reading::Reading;
use super::stores::{Inputs, Ours, Size};
use crate::record::{BF16, F32, INT4, INT8};

/// A way to do the work: the library's, the lifted Rust's, or the least that memory has to do for it.
#[derive(Clone, Copy, Debug, PartialEq)]
pub enum Way {
    Ours,
    Rust,
    Memory,
}

/// A call that is measured.
#[derive(Clone, Copy, Debug, PartialEq, Eq, PartialOrd, Ord)]
pub enum Call {
    Open,
    Append,
    Truncate,
    Read,
    Scores,
    Sums,
    Magnitude,
}

impl Call {
    /// Every call.
    pub const ALL: [Call; 7] = [
        Call::Open,
        Call::Append,
        Call::Truncate,
        Call::Read,
        Call::Scores,
        Call::Sums,
        Call::Magnitude,
    ];

    /// Its name in a table.
    pub fn name(self) -> &'static str {
        match self {
            Call::Open => "open",
            Call::Append => "append",
            Call::Truncate => "truncate",
            Call::Read => "read a row",
            Call::Scores => "scores",
            Call::Sums => "sums",
            Call::Magnitude => "largest magnitude",
        }
    }

    /// The state of memory before a run of it.
    pub fn state(self) -> &'static str {
        match self {
            Call::Open | Call::Truncate => "dirty: every byte was just written over",
            Call::Append => {
                "warm: the same append was just made, and cut again; the layer is empty"
            }
            Call::Read => "warm: every row was just read",
            Call::Scores => "warm: the same scores were just taken",
            Call::Sums => "warm: the same sums were just taken",
            Call::Magnitude => "warm: 64 runs of 128 numbers, just scanned",
        }
    }

    /// The formats in which it is measured.
    pub fn formats(self) -> &'static [u32] {
        match self {
            Call::Scores | Call::Sums => &[F32, INT4],
            Call::Magnitude => &[INT8],
            _ => &[F32, BF16, INT8, INT4],
        }
    }
}

/// A call in a format.
#[derive(Clone, Copy, Debug, PartialEq, Eq, PartialOrd, Ord)]
pub struct Kernel {
    pub call: Call,
    pub format: u32,
}

impl Kernel {
    /// Its name in a table.
    pub fn name(&self) -> String {
        match self.call {
            Call::Magnitude => self.call.name().to_string(),
            call => format!("{} {}", call.name(), self.format_name()),
        }
    }

    /// The name of its format.
    fn format_name(&self) -> &'static str {
        match self.format {
            F32 => "F32",
            BF16 => "BF16",
            INT8 => "INT8",
            _ => "INT4",
        }
    }

    /// The ways in which it is done: the Rust neither clears memory nor reads a row, save an INT4 group.
    pub fn ways(&self) -> &'static [Way] {
        match (self.call, self.format) {
            (Call::Open | Call::Truncate, _) => &[Way::Ours, Way::Memory],
            (Call::Read, F32 | BF16 | INT8) => &[Way::Ours, Way::Memory],
            (Call::Magnitude, _) => &[Way::Ours, Way::Rust],
            _ => &[Way::Ours, Way::Rust, Way::Memory],
        }
    }

    /// The way that ours is held to: the Rust's where there is one, else memory's.
    pub fn other(&self) -> Way {
        self.ways()[1]
    }

    /// The numbers that one call of it goes through, or as many calls as go through a layer once.
    pub fn numbers(&self, size: &Size) -> usize {
        match self.call {
            Call::Scores | Call::Sums => size.side_numbers(),
            Call::Magnitude => magnitude::runs(size) * size.head_size,
            _ => 2 * size.side_numbers(),
        }
    }

    /// Its bench on some inputs, whose results were compared.
    pub fn compared<'a>(&self, inputs: &'a Inputs) -> Result<Box<dyn Bench + 'a>, String> {
        let mut bench = self.bench(inputs);
        if bench.agrees() {
            Ok(bench)
        } else {
            Err(format!("{}: the results differ", self.name()))
        }
    }

    /// Its bench on some inputs.
    fn bench<'a>(&self, inputs: &'a Inputs) -> Box<dyn Bench + 'a> {
        let format = self.format;
        match self.call {
            Call::Open => Box::new(Clearing::new(Ours::open, inputs.size, format)),
            Call::Truncate => Box::new(Clearing::new(Ours::truncate, inputs.size, format)),
            Call::Append => Box::new(Appending::new(inputs, format)),
            Call::Read => again(Reading::new(inputs, format)),
            Call::Scores => again(Scores::new(inputs, format)),
            Call::Sums => again(Sums::new(inputs, format)),
            Call::Magnitude => again(Magnitude::new(inputs)),
        }
    }
}

/// A kernel on a store of ours and, where the Rust has it, on one of the Rust's; memory is moved where ours lies. A run is
/// one call of it, or several one after the other.
pub trait Bench {
    /// Whether each way gives what it has to, bit by bit.
    fn agrees(&mut self) -> bool;

    /// Makes a run so many calls long.
    fn repeat(&mut self, calls: usize);

    /// Brings a way's memory into the state before a run, and into the cache as far as it fits.
    fn prepare(&mut self, way: Way);

    /// A run, the part that is timed.
    fn run(&mut self, way: Way);
}

/// A call that leaves its store as it is, so that a run can make it on the same one again.
pub trait Asking {
    /// Whether each way answers what it has to, bit by bit.
    fn agrees(&mut self) -> bool;

    /// One call.
    fn ask(&mut self, way: Way);
}

/// The bench of a call that leaves its store as it is.
struct Again<A> {
    asking: A,
    calls: usize,
}

/// The bench that makes a call again and again.
fn again<'a>(asking: impl Asking + 'a) -> Box<dyn Bench + 'a> {
    Box::new(Again { asking, calls: 1 })
}

impl<A: Asking> Bench for Again<A> {
    fn agrees(&mut self) -> bool {
        self.asking.agrees()
    }

    fn repeat(&mut self, calls: usize) {
        self.calls = calls;
    }

    fn prepare(&mut self, way: Way) {
        self.asking.ask(way);
    }

    fn run(&mut self, way: Way) {
        for _ in 0..self.calls {
            self.asking.ask(way);
        }
    }
}

#[cfg(test)]
mod tests {
    use super::*;

    const SMALL: Size = Size {
        head_size: 64,
        heads: 2,
        positions: 3,
    };

    /// Every kernel there is.
    fn every_kernel() -> Vec<Kernel> {
        let kernels = |call: Call| {
            let formats = call.formats().iter();
            formats.map(move |&format| Kernel { call, format })
        };
        Call::ALL.into_iter().flat_map(kernels).collect()
    }

    #[test]
    fn every_kernel_agrees_before_and_after_runs() {
        let inputs = Inputs::new(SMALL);
        for kernel in every_kernel() {
            let mut bench = kernel.bench(&inputs);
            assert!(bench.agrees(), "{}", kernel.name());
            bench.repeat(3);
            for way in kernel.ways().repeat(2) {
                bench.prepare(way);
                bench.run(way);
            }
            assert!(bench.agrees(), "{} after runs", kernel.name());
        }
    }

    #[test]
    fn a_number_that_differs_is_seen_by_every_kernel_that_has_it() {
        let mut inputs = Inputs::new(SMALL);
        inputs.keys.floats[0] = 1e6;
        inputs.values.floats[0] = 1e6;
        for kernel in every_kernel() {
            let takes_numbers = !matches!(kernel.call, Call::Open | Call::Truncate);
            assert_eq!(
                kernel.bench(&inputs).agrees(),
                !takes_numbers,
                "{}",
                kernel.name()
            );
        }
    }
}
