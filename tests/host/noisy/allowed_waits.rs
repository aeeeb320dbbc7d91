//! Of frames that wait (document 02, M-103), what lines with allowed noise have to show. Reads come so that none waits
//! when a start is accepted: each frame that waits is moved in by a read.

use crate::tally::print_row;
use crate::waits::Waits;

/// The rows of the table that these lines fill; the others tell of flags, losses and settings, and stay empty.
const FILLED: [&str; 4] = [
    "frames that waited",
    "waiting frames with split votes",
    "waiting frames moved in by a read",
    ".. in the next start bit",
];

impl Waits {
    fn filled(&self) -> Vec<(String, u64)> {
        let mut rows = self.rows().to_vec();
        rows.retain(|(_, count)| *count > 0);
        rows
    }

    pub fn complete_allowed(&self) -> Result<(), String> {
        let filled = self.filled();
        if !filled.iter().map(|(name, _)| name).eq(&FILLED) {
            return Err(format!("allowed noise, of frames that wait: {filled:?}"));
        }
        if self.moved_in != self.waited {
            let (waited, moved_in) = (self.waited, self.moved_in);
            return Err(format!("{waited} frames waited, {moved_in} were moved in"));
        }
        Ok(())
    }

    pub fn print_allowed(&self) {
        for (name, count) in self.filled() {
            print_row(&name, count);
        }
    }
}
