//! How often what was met over a run.

use std::collections::BTreeMap;

#[derive(Default)]
pub struct Count(BTreeMap<String, u64>);

impl Count {
    pub fn add(&mut self, name: impl Into<String>) {
        *self.0.entry(name.into()).or_default() += 1;
    }

    /// Each of these, so often at least.
    pub fn check(&self, least: u64, names: &[&str]) {
        for (name, times) in &self.0 {
            println!("{name}: {times}");
        }
        for name in names {
            let times = self.0.get(*name).copied().unwrap_or(0);
            if times < least {
                println!("| {name}: only {times}");
                panic!("too few");
            }
        }
    }
}
