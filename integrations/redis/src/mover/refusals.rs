//! Why a partition refuses, in words for an operator.

use super::partition::{rank, Partition};
use crate::fault::Fault;
use squall::Rank;

impl Partition {
    /// Why a partition refused, in words for an operator.
    pub fn explain(&self, error: &str) -> Fault {
        let (part, number) = (self.part, &self.number);
        let Some(said) = error.strip_prefix("SQUALL ") else {
            if error.contains("Function not found") {
                return Fault::new(format!(
                    "partition {part} has functions of an earlier version: run the mover of its course first"
                ));
            }
            return Fault::new(format!("partition {part}: {error}"));
        };
        let words: Vec<&str> = said.split(' ').collect();
        let known = words.get(1).copied().unwrap_or("0");
        match words[0] {
            // The mover begins again, and sees where the keys are.
            "BACK" => {
                Fault::lost(format!("partition {part}: another mover gives keys back to partition {known}"))
            }
            "OPEN" => Fault::lost(format!("partition {part}: course {known} is not closed there")),
            "CLASH" | "LATE" | "COURSE" | "GAP" | "OTHER" | "RUNNING" | "EMPTY" | "EDGE" => {
                Fault::new(of_course(part, number, &words))
            }
            "BEFORE" => Fault::new(format!(
                "partition {part}: it or partition {known} was let in with less meanwhile; start this mover again"
            )),
            "CLOSED" => Fault::new(format!(
                "partition {part}: course {known} is being turned back, and gives nothing more"
            )),
            "EARLY" => Fault::new(format!(
                "partition {part}: course {number} has not begun everywhere; start its mover first"
            )),
            "FULL" => Fault::new(format!(
                "partition {part}: {known} keys were pulled from there ahead of the mover, and it keeps no more; \
                 pull others once the mover is past some of them"
            )),
            "CHANGED" => Fault::new(format!(
                "partition {part}: another mover has changed it; start this mover again"
            )),
            _ => Fault::new(format!("partition {part}: {said}")),
        }
    }
}

/// Why a course of that number does not begin at a partition, or is over there.
fn of_course(part: u32, number: &str, words: &[&str]) -> String {
    let known = words.get(1).copied().unwrap_or("0");
    match words[0] {
        "CLASH" => {
            format!("partition {part}: course {number} has begun with other plans; this one is refused")
        }
        "GAP" => format!(
            "partition {part} is in course {known}: the next one has the number after it, and not {number}"
        ),
        "OTHER" => {
            format!("partition {part}: course {known} ended at another plan than this one begins at")
        }
        "RUNNING" => format!("partition {part}: course {known} is not over; run its mover to the end"),
        "EMPTY" => format!(
            "partition {part} has begun no course, and the old plan gives it keys: did it lose its data? \
             (--init begins course 1, --accept-loss {part} goes on without it)"
        ),
        "EDGE" => format!(
            "partition {part}: the keys are not where the plan has them with which course {number} is to begin, from {} on",
            words.get(2).and_then(|lo| rank(lo)).unwrap_or(Rank::END)
        ),
        _ => format!("partition {part}: course {known} has begun; course {number} is over"),
    }
}
