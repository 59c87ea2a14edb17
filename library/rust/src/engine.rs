//! The engine's calls: libengine_library.a.

use crate::{answer, c, Case, Refused, CHANNELS, LINE, LINKS, PAIRS};

/// Room for the lines of any round: a line for each link and pair, two for each channel and one more. The calls ask for that much by the case's own
/// counts, also where nothing is written.
pub const ROOM: usize = LINE * (LINKS + PAIRS + 2 * CHANNELS + 1);

/// What a round came to.
#[derive(Clone, Copy, Debug, PartialEq, Eq)]
pub enum Round {
    /// Nothing is left to do, and nothing was written.
    Settled,
    /// A round was made.
    Made {
        /// The bytes of its lines, from the output's first byte.
        bytes: usize,
        /// The ceiling after it.
        bound: i64,
    },
    /// A void line was written: no lawful plan exists. It is no round, and the table stays.
    Void {
        /// The bytes of its lines, from the output's first byte.
        bytes: usize,
    },
}

/// How a run ended.
#[derive(Clone, Copy, Debug, PartialEq, Eq)]
pub enum Ending {
    /// Nothing is left to do.
    Settled,
    /// As many rounds as its limit were made, and it is not settled.
    Limit,
    /// A void line was written after the rounds: no lawful plan exists.
    Void,
    /// It was refused, by this number.
    Refused(u64),
}

/// What a run came to.
#[derive(Clone, Copy, Debug, PartialEq, Eq)]
pub struct Run {
    /// How it ended.
    pub ending: Ending,
    /// The rounds made.
    pub rounds: u64,
    /// The ceiling after them.
    pub bound: i64,
}

impl Round {
    fn of(r: &c::Round) -> Round {
        match (r.none_lawful, r.bytes) {
            (0, 0) => Round::Settled,
            (0, bytes) => Round::Made { bytes, bound: r.bound },
            (_, bytes) => Round::Void { bytes },
        }
    }
}

impl Run {
    fn of(r: c::Run) -> Run {
        let ending = match (r.number, r.limit, r.none_lawful) {
            (0, 0, 0) => Ending::Settled,
            (0, _, 0) => Ending::Limit,
            (0, _, _) => Ending::Void,
            (number, _, _) => Ending::Refused(number),
        };
        Run { ending, rounds: r.rounds, bound: r.bound }
    }
}

/// The version of libengine_library.a, as [`crate::version`] is that of libchecker_library.a.
pub fn engine_version() -> u64 {
    unsafe { c::ceiling_engine_version() }
}

/// A pair gains if the greatest weights of the pair and its two links add up to more than these three weights do for any two channels that are not
/// barred. Its round shifts the links' weights into the pair, which keeps every lawful plan's total. A pair is passed over if no two channels
/// are free of bars at both links and in the pair, or if its round would leave the working range or not lower the ceiling.
///
/// Where no gap limits a press, because everything that it closes is barred and every other channel of its link, a void line is written in its stead: no
/// lawful plan exists. Another answer promises nothing of that: the engine may also settle, end by its limit or be refused by number 11.
impl Case {
    /// One round, of the lowest pair that gains and is not passed over, or else a press, or a void line: its lines at the output's first bytes; none
    /// where it is settled. [`ROOM`] bytes are always enough.
    ///
    /// ```
    /// // One link on two channels, alone: its best channel is the ceiling, and nothing can lower it.
    /// let text = b"\
    /// 10   1   2   0           0
    /// 11   0   0   0           3
    /// 11   0   1   0           5
    /// ";
    /// let (case, mut table) = ceiling::read_case(text)?;
    /// let mut out = vec![0; ceiling::ROOM];
    /// assert_eq!(case.round(&mut table, &mut out)?, ceiling::Round::Settled);
    /// assert_eq!(case.upper_bound(&table)?, 5);
    /// # Ok::<(), ceiling::Refused>(())
    /// ```
    pub fn round(&self, table: &mut [i64], out: &mut [u8]) -> Result<Round, Refused> {
        let r = unsafe { c::ceiling_round(self.0.as_ptr(), table.as_mut_ptr(), table.len(), out.as_mut_ptr(), out.len()) };
        answer(r.number, 0, Round::of(&r))
    }

    /// At most `limit` rounds, each writing from the output's first byte. A void line ends them, and is written even at the limit. Refused by number
    /// 11, the earlier rounds stand.
    ///
    /// ```
    /// // Each of two links has channel 0 alone, and they may not both use it.
    /// let text = b"\
    /// 10   2   2   1           0
    /// 11   0   0   0           0
    /// 14   0   1   0           0
    /// 11   1   0   0           0
    /// 14   1   1   0           0
    /// 12   0   0   1           0
    /// 15   0   0   0           0
    /// 13   0   0   1           0
    /// 13   0   1   0           0
    /// 13   0   1   1           0
    /// ";
    /// let (case, mut table) = ceiling::read_case(text)?;
    /// let mut out = vec![0; ceiling::ROOM];
    /// let run = case.run(&mut table, &mut out, 0);
    /// assert_eq!((run.ending, run.rounds), (ceiling::Ending::Void, 0));
    /// assert_eq!(&out[..27], b" 5   0   2   0           0\n");
    /// # Ok::<(), ceiling::Refused>(())
    /// ```
    pub fn run(&self, table: &mut [i64], out: &mut [u8], limit: u64) -> Run {
        let (t, o) = (table.len(), out.len());
        Run::of(unsafe { c::ceiling_run(self.0.as_ptr(), table.as_mut_ptr(), t, out.as_mut_ptr(), o, limit) })
    }

    /// The same with pair rounds only: settled where no pair gains but those passed over, also where a press or a void line is left. Never refused by
    /// number 11, and never void.
    ///
    /// ```
    /// // Two links that get 2 each on channel 0, and 3 less together: their weights are shifted into the pair.
    /// let text = b"\
    /// 10   2   2   1           0
    /// 11   0   0   0           2
    /// 11   0   1   0           0
    /// 11   1   0   0           2
    /// 11   1   1   0           0
    /// 12   0   0   1           0
    /// 13   0   0   0          -3
    /// 13   0   0   1           0
    /// 13   0   1   0           0
    /// 13   0   1   1           0
    /// ";
    /// let (case, mut table) = ceiling::read_case(text)?;
    /// let mut out = vec![0; ceiling::ROOM];
    /// let run = case.run_pairs(&mut table, &mut out, 100);
    /// assert_eq!((run.ending, run.rounds, run.bound), (ceiling::Ending::Settled, 1, 2));
    /// assert_eq!(table[..8], [0, 0, 0, 0, 1, 2, 2, 0]);
    /// # Ok::<(), ceiling::Refused>(())
    /// ```
    pub fn run_pairs(&self, table: &mut [i64], out: &mut [u8], limit: u64) -> Run {
        let (t, o) = (table.len(), out.len());
        Run::of(unsafe { c::ceiling_run_pairs(self.0.as_ptr(), table.as_mut_ptr(), t, out.as_mut_ptr(), o, limit) })
    }
}
