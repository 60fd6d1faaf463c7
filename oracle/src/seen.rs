//! How often a test saw each answer.

use std::collections::BTreeMap;
use std::io::Write;

#[derive(Default)]
pub struct Seen(BTreeMap<u32, u64>);

impl Seen {
    pub fn saw(&mut self, answer: u32) {
        *self.0.entry(answer).or_default() += 1;
    }

    pub fn all(&self) -> u64 {
        self.0.values().sum()
    }

    /// Says it, past the test harness, which would keep it to itself. A test that has not seen an
    /// answer that it is about fails.
    pub fn finish(self, test: &str, name: fn(u32) -> String, expected: &[u32]) {
        let each = |(&answer, count): (&u32, &u64)| format!("{}: {count}", name(answer));
        let each: Vec<String> = self.0.iter().map(each).collect();
        let mut out = std::io::stdout();
        writeln!(out, "{test}; {}", each.join("; ")).unwrap();
        for answer in expected {
            assert!(self.0.contains_key(answer), "{answer} was never seen");
        }
    }
}
