//! A sample of scripts with toydb's answers, for the program that replays them.

use crate::calls::{KINDS, script};
use crate::scratch;
use crate::script::Script;

/// The first line of the sample; what stands before it in a file of ours is not ours to write.
pub const HEADING: &str = "Recorded from toydb by oracle/record: a script of each kind, with what toydb answered";

/// Cases of one script that are kept.
const CASES: usize = 40;

/// The lines alone, or with toydb's answers.
pub fn record(answers: bool) -> bool {
    println!("{HEADING}");
    for kind in KINDS {
        let mut theirs = Script::new(&scratch());
        for line in script(kind, 1, &scratch()).iter().take(CASES) {
            let answered = theirs.line(line);
            println!("{}", if answers { &answered } else { line });
        }
    }
    true
}
