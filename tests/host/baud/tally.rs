//! What was done in all parts together, and how much of it there has to be.

#[derive(Default)]
pub struct Tally {
    pub plans: u64,
    pub plans_refused: u64,
    pub checks: u64,
    pub checks_refused: u64,
    pub accepted: u64,
    pub rows: u64,
    /// Ties that were constructed, and those that a search met.
    pub ties: u64,
    pub ties_searched: u64,
    /// Exact halves of the figure, by the error's sign.
    pub halves_above: u64,
    pub halves_below: u64,
}

impl Tally {
    /// Fails where so little was met that the test would say nothing.
    pub fn complete(&self) -> Result<(), String> {
        let least = [
            ("plans", self.plans, 300_000),
            ("plans refused", self.plans_refused, 10_000),
            ("checks", self.checks, 1_000_000),
            ("checks refused", self.checks_refused, 100_000),
            ("proposals accepted", self.accepted, 50_000),
            ("ties", self.ties, 8_000),
            ("ties by search", self.ties_searched, 50),
            ("halves above", self.halves_above, 5_000),
            ("halves below", self.halves_below, 5_000),
        ];
        match least.iter().find(|(_, count, least)| count < least) {
            Some((name, count, least)) => Err(format!("{name}: {count}, fewer than {least}")),
            None => Ok(()),
        }
    }

    /// So many wrong programs were seen too.
    pub fn print(&self, wrong: usize) {
        println!(
            "baud: {} rows of 000 and 001, {} plans ({} of them 11), {} checks ({} of them 11, {} yes)",
            self.rows,
            self.plans,
            self.plans_refused,
            self.checks,
            self.checks_refused,
            self.accepted
        );
        println!(
            "baud: {} ties constructed, {} met by search, {} halves above, {} below: no difference; \
             {wrong} wrong programs seen",
            self.ties, self.ties_searched, self.halves_above, self.halves_below
        );
    }
}
