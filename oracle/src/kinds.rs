//! How many files of each kind were drawn.

/// The kinds in the order in which they came.
#[derive(Default)]
pub struct Kinds {
    times: Vec<(&'static str, usize)>,
}

impl Kinds {
    pub fn count(&mut self, kind: &'static str) {
        match self.times.iter_mut().find(|(name, _)| *name == kind) {
            Some((_, times)) => *times += 1,
            None => self.times.push((kind, 1)),
        }
    }

    /// The number of files of all kinds.
    pub fn all(&self) -> usize {
        self.times.iter().map(|(_, times)| times).sum()
    }

    /// `3 traces: 2 whole, 1 mark`.
    pub fn line(&self, files: &str) -> String {
        let kinds: Vec<String> = self
            .times
            .iter()
            .map(|(kind, times)| format!("{times} {kind}"))
            .collect();
        format!("{} {files}: {}\n", self.all(), kinds.join(", "))
    }
}
