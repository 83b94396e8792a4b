//! How often each of some edges, or of the broken rules, was met.

use std::fmt;

#[derive(Clone, Debug)]
pub struct Counted {
    names: Vec<&'static str>,
    met: Vec<usize>,
}

impl Counted {
    /// None of them met.
    pub fn new(names: impl Iterator<Item = &'static str>) -> Counted {
        let names: Vec<&str> = names.collect();
        let met = vec![0; names.len()];
        Counted { names, met }
    }

    /// Adds, one by one, whether it was met.
    pub fn add(&mut self, met: impl Iterator<Item = bool>) {
        for (times, is_met) in self.met.iter_mut().zip(met) {
            *times += usize::from(is_met);
        }
    }

    /// Their names, each with how often it was met.
    fn times(&self) -> impl Iterator<Item = (&'static str, usize)> + '_ {
        self.names.iter().copied().zip(self.met.iter().copied())
    }

    /// Those that were met less than so many times.
    pub fn missed(&self, least: usize) -> Vec<String> {
        self.times()
            .filter(|&(_, times)| times < least)
            .map(|(name, times)| format!("\"{name}\" met {times} times"))
            .collect()
    }
}

impl fmt::Display for Counted {
    fn fmt(&self, out: &mut fmt::Formatter<'_>) -> fmt::Result {
        for (name, times) in self.times() {
            writeln!(out, "{name:36}{times:>10}")?;
        }
        Ok(())
    }
}
