//! Safe calls of the ceiling library: a verified checker and engine for channel plans.
//!
//! A case has links, channels and pairs of links, and a table of weights, in which a channel may be barred ([`BARRED`]). A plan is lawful if it
//! uses nothing barred, and the ceiling is a number that no lawful plan's total is above. The engine lowers it in rounds and logs each move, and the
//! checker replays such logs, whoever wrote them. docs/LIBRARY.md tells what each call answers, docs/RULES.md how case files and logs are written
//! and judged.
//!
//! Every table has the length of a full case with as many channels ([`table_length`]), whatever the case's links and pairs: its own weights stand
//! first, and 0 at all places past them. [`read_case`] makes such a table; of another length a call answers number 4, of another number there 8.
//!
//! The functions called are proved; this wrapper is not. It hands over whole slices and arrays of the right size, borrowed for the call alone:
//! that is all that the library asks. Nothing is kept between calls, so that calls on different tables may run at once on different threads.
//!
//! ```
//! use ceiling::{read_case, End, Replay, LINE};
//!
//! let text = b"\
//! 10   2   2   1           0
//! 11   0   0   0           2
//! 11   0   1   0           0
//! 11   1   0   0           2
//! 11   1   1   0           0
//! 12   0   0   1           0
//! 13   0   0   0          -3
//! 13   0   0   1           0
//! 13   0   1   0           0
//! 13   0   1   1           0
//! ";
//! let log = [
//!     " 2   0   2   0           2\n",
//!     " 3   1   0   0           0\n",
//!     " 3   2   0   0           0\n",
//!     " 4   0   0   0           2\n",
//! ]
//! .concat();
//!
//! let (case, mut table) = read_case(text)?;
//! assert_eq!(case.upper_bound(&table)?, 4);
//! assert_eq!(case.objective(&table, &[0, 1])?, 2);
//!
//! let mut replay = Replay::start(&case, &table)?;
//! replay.lines(&case, &mut table, log.as_bytes())?;
//! assert_eq!(replay.end(&case, log.len() % LINE)?, End::Accepted(1)); // one round
//! assert_eq!(case.upper_bound(&table)?, 2); // so the plan above is a best one
//! # Ok::<(), ceiling::Refused>(())
//! ```

#![deny(missing_docs)]

mod c;
#[cfg(feature = "engine")]
mod engine;

#[cfg(feature = "engine")]
pub use engine::{engine_version, Ending, Round, Run, ROOM};

/// The most links of a case.
pub const LINKS: usize = 48;

/// The most channels.
pub const CHANNELS: usize = 8;

/// The most pairs.
pub const PAIRS: usize = 96;

/// The bytes of a line.
pub const LINE: usize = 27;

/// What a table holds where a channel, or a pair of channels, is barred.
pub const BARRED: i64 = -2_000_000_000;

/// What stands in place of a partner where the channel is outside the family.
pub const OUTSIDE: u8 = 255;

/// Room for the partners of any case.
pub const PARTNERS: usize = 2 * PAIRS * CHANNELS;

/// The bytes of a case.
pub const CASE: usize = 32 + 2 * PAIRS;

/// The bytes of a replay's record.
pub const RECORD: usize = 52 + LINKS + PAIRS;

/// The length of every table of a case with so many channels, whatever its links and pairs: that of a case with the most of both.
///
/// ```
/// assert_eq!([1, 2, 8].map(ceiling::table_length), [144, 480, 6528]);
/// ```
pub const fn table_length(channels: usize) -> usize {
    LINKS * channels + PAIRS * channels * channels
}

/// A case as the library reads it. The calls ask its limits: any bytes may be handed over. The last eight are its carry, from −20,000,000,000 to
/// 20,000,000,000 (else number 5), which counts in every ceiling and in no plan's total; a case that was read has carry 0.
#[derive(Clone, Debug, PartialEq, Eq)]
pub struct Case([u8; CASE]);

/// What stands between the lines of a log.
#[derive(Clone, Debug, PartialEq, Eq)]
pub struct Replay([u8; RECORD]);

/// Why a call was refused.
#[derive(Clone, Copy, Debug, PartialEq, Eq)]
pub struct Refused {
    /// The number of the rule that was broken, 1 to 16.
    pub number: u64,
    /// In a file or a block of lines the line, counted from 0; else 0.
    pub line: usize,
}

/// The words of the programs: `refused`, the number, the line.
impl std::fmt::Display for Refused {
    fn fmt(&self, to: &mut std::fmt::Formatter) -> std::fmt::Result {
        write!(to, "refused {} {}", self.number, self.line)
    }
}

impl std::error::Error for Refused {}

/// What the end of a log says that was not refused.
#[derive(Clone, Copy, Debug, PartialEq, Eq)]
pub enum End {
    /// The log is accepted, with so many rounds.
    Accepted(u64),
    /// The log ends with a void line: no lawful plan exists.
    Void,
}

/// What the head of a case file says.
#[derive(Clone, Copy, Debug, PartialEq, Eq)]
pub struct Size {
    /// Links.
    pub n: usize,
    /// Channels.
    pub d: usize,
    /// Pairs.
    pub m: usize,
    /// The length of the case's table, [`table_length`] of its channels.
    pub table: usize,
}

fn answer<T>(number: u64, line: usize, value: T) -> Result<T, Refused> {
    if number == 0 { Ok(value) } else { Err(Refused { number, line }) }
}

/// The library's version: major times 10,000, minor times 100, patch.
///
/// ```
/// assert_eq!(ceiling::version() / 10000, 2);
/// ```
pub fn version() -> u64 {
    unsafe { c::ceiling_version() }
}

/// What the head of a case file says.
///
/// ```
/// let size = ceiling::case_size(b"10   3   2   3           0\n")?;
/// assert_eq!((size.n, size.d, size.m, size.table), (3, 2, 3, 480));
/// assert_eq!(ceiling::case_size(b"10  49   2   3           0\n").unwrap_err().number, 3);
/// # Ok::<(), ceiling::Refused>(())
/// ```
pub fn case_size(text: &[u8]) -> Result<Size, Refused> {
    let r = unsafe { c::ceiling_case_size(text.as_ptr(), text.len()) };
    answer(r.number, 0, Size { n: r.n, d: r.d, m: r.m, table: r.table })
}

/// A case file with nothing after it: the case, and a table with its starting weights and 0 past them.
///
/// ```
/// // One link on one channel.
/// let (case, table) = ceiling::read_case(b"10   1   1   0           0\n11   0   0   0           9\n")?;
/// assert_eq!((table.len(), table[0]), (144, 9));
/// assert!(table[1..].iter().all(|&weight| weight == 0));
/// assert_eq!(case.upper_bound(&table)?, 9);
/// assert_eq!(case.upper_bound(&table[..1]).unwrap_err().number, 4);
/// # Ok::<(), ceiling::Refused>(())
/// ```
pub fn read_case(text: &[u8]) -> Result<(Case, Vec<i64>), Refused> {
    let mut case = Case([0; CASE]);
    let mut table = vec![0; case_size(text)?.table];
    let r = unsafe { c::ceiling_read_case(text.as_ptr(), text.len(), case.0.as_mut_ptr(), table.as_mut_ptr(), table.len()) };
    answer(r.number, r.lines, (case, table))
}

/// That round's lines in the log itself, its bound line included. The moves are not checked.
///
/// ```
/// let log = b" 4   0   0   0           7\n 4   0   0   0           5\n";
/// assert_eq!(ceiling::view(log, 1)?, &log[27..]);
/// # Ok::<(), ceiling::Refused>(())
/// ```
pub fn view(log: &[u8], round: u64) -> Result<&[u8], Refused> {
    let r = unsafe { c::ceiling_round_span(log.as_ptr(), log.len(), round) };
    answer(r.number, r.line, &log[r.from..r.to])
}

impl Case {
    /// A case from bytes that were kept (docs/LIBRARY.md, Layouts).
    pub fn from_bytes(bytes: [u8; CASE]) -> Case {
        Case(bytes)
    }

    /// The case's bytes.
    pub fn bytes(&self) -> &[u8; CASE] {
        &self.0
    }

    /// The ceiling: the sum over scopes of the greatest weight, and the carry. No lawful plan's total with the carry added is above it.
    ///
    /// ```
    /// use ceiling::{read_case, Case, CASE};
    ///
    /// let (case, table) = read_case(b"10   1   1   0           0\n11   0   0   0           9\n")?;
    /// let mut bytes = *case.bytes();
    /// bytes[CASE - 8..].copy_from_slice(&5_i64.to_le_bytes());
    /// let case = Case::from_bytes(bytes);
    /// assert_eq!((case.upper_bound(&table)?, case.objective(&table, &[0])?), (14, 9));
    /// # Ok::<(), ceiling::Refused>(())
    /// ```
    pub fn upper_bound(&self, table: &[i64]) -> Result<i64, Refused> {
        let r = unsafe { c::ceiling_upper_bound(self.0.as_ptr(), table.as_ptr(), table.len()) };
        answer(r.number, 0, r.total)
    }

    /// A plan's total; a plan is one channel for each link. An unlawful one is number 5.
    pub fn objective(&self, table: &[i64], plan: &[u8]) -> Result<i64, Refused> {
        let r = unsafe { c::ceiling_objective(self.0.as_ptr(), table.as_ptr(), table.len(), plan.as_ptr(), plan.len()) };
        answer(r.number, 0, r.total)
    }

    /// The plan with the greater total on starting weights, the first on a tie. Unlawful plans are level, below the lawful.
    pub fn better<'a>(&self, table: &[i64], first: &'a [u8], second: &'a [u8]) -> Result<&'a [u8], Refused> {
        let (a, b) = (first, second);
        let r = unsafe {
            c::ceiling_better_of(self.0.as_ptr(), table.as_ptr(), table.len(), a.as_ptr(), a.len(), b.as_ptr(), b.len())
        };
        answer(r.number, 0, if r.choice == 0 { first } else { second })
    }

    /// Why a channel was kept: the lowest active channel of the link that is not refuted with all other scopes raised. Active are the channels
    /// with the link's greatest weight. The channel's largest family is written to `family`, a byte for each link, bit k for channel k; the lowest
    /// partner of each of the family's channels to `partners`, the byte at (2 · pair + end) · channels + channel, [`OUTSIDE`] where the channel is
    /// outside its link's set.
    ///
    /// `family` needs a byte for each link, `partners` 2 · pairs · channels ([`PARTNERS`] is enough), or the number is 4; bytes past these are left
    /// as they are. A link that is not there is number 5. So is, asked last of all, a link without such a channel: all its active channels are
    /// refuted, and a press or a void line of it is left. Refused, nothing is written.
    ///
    /// ```
    /// use ceiling::{read_case, OUTSIDE};
    ///
    /// let text = b"\
    /// 10   2   2   1           0
    /// 11   0   0   0           3
    /// 11   0   1   0           4
    /// 11   1   0   0           6
    /// 11   1   1   0           2
    /// 12   0   0   1           0
    /// 13   0   0   0          -2
    /// 13   0   0   1          -4
    /// 13   0   1   0           1
    /// 13   0   1   1           1
    /// ";
    /// let (case, table) = read_case(text)?;
    /// let (mut family, mut partners) = ([0; 2], [0; 4]);
    /// assert_eq!(case.supported_value(&table, 0, &mut family, &mut partners)?, 1);
    /// assert_eq!(family, [0b10, 0b01]); // channel 1 of link 0 with channel 0 of link 1
    /// assert_eq!(partners, [OUTSIDE, 0, 1, OUTSIDE]);
    /// assert_eq!(case.supported_value(&table, 2, &mut family, &mut partners).unwrap_err().number, 5);
    /// # Ok::<(), ceiling::Refused>(())
    /// ```
    pub fn supported_value(&self, table: &[i64], link: usize, family: &mut [u8], partners: &mut [u8]) -> Result<usize, Refused> {
        let (f, p) = (family.len(), partners.len());
        let (family, partners) = (family.as_mut_ptr(), partners.as_mut_ptr());
        let r = unsafe { c::ceiling_supported_value(self.0.as_ptr(), table.as_ptr(), table.len(), link, family, f, partners, p) };
        answer(r.number, 0, r.value)
    }

    /// Whether the pairs form no loop. No table is asked for: only the case's limits, carry and pairs' ends.
    ///
    /// ```
    /// use ceiling::{Case, CASE};
    ///
    /// // Three links, one channel, and the pairs (0,1), (1,2) and (0,2), of which at first two count (docs/LIBRARY.md, Layouts).
    /// let mut bytes = [0; CASE];
    /// (bytes[0], bytes[8], bytes[16]) = (3, 1, 2);
    /// bytes[24..27].copy_from_slice(&[0, 1, 0]);
    /// bytes[120..123].copy_from_slice(&[1, 2, 2]);
    /// assert_eq!(Case::from_bytes(bytes).is_acyclic(), Ok(true));
    /// bytes[16] = 3;
    /// assert_eq!(Case::from_bytes(bytes).is_acyclic(), Ok(false));
    /// bytes[0] = 2; // link 2 is not there
    /// assert_eq!(Case::from_bytes(bytes).is_acyclic().unwrap_err().number, 5);
    /// ```
    pub fn is_acyclic(&self) -> Result<bool, Refused> {
        let r = unsafe { c::ceiling_is_acyclic(self.0.as_ptr()) };
        answer(r.number, 0, r.yes != 0)
    }
}

impl Replay {
    /// A replay that begins with these starting weights.
    pub fn start(case: &Case, table: &[i64]) -> Result<Replay, Refused> {
        let mut replay = Replay([0; RECORD]);
        let number = unsafe { c::ceiling_replay_start(case.0.as_ptr(), table.as_ptr(), table.len(), replay.0.as_mut_ptr()) };
        answer(number, 0, replay)
    }

    /// A record from bytes that were kept (docs/LIBRARY.md, What a record is worth).
    pub fn from_bytes(bytes: [u8; RECORD]) -> Replay {
        Replay(bytes)
    }

    /// The record's bytes.
    pub fn bytes(&self) -> &[u8; RECORD] {
        &self.0
    }

    /// Whole lines, on the table that the last call left; bytes of a part line at the end are not looked at. How many lines, or the first
    /// refusal and its line in this block.
    pub fn lines(&mut self, case: &Case, table: &mut [i64], lines: &[u8]) -> Result<usize, Refused> {
        let (t, record) = (table.len(), self.0.as_mut_ptr());
        let r = unsafe { c::ceiling_replay_lines(case.0.as_ptr(), table.as_mut_ptr(), t, record, lines.as_ptr(), lines.len()) };
        answer(r.number, r.lines, r.lines)
    }

    /// The end of the log: its rounds, or that it is void. `part` is how many bytes of a part line are left after the last whole line.
    ///
    /// ```
    /// use ceiling::{read_case, End, Replay, BARRED};
    ///
    /// // Each of two links has channel 0 alone, and they may not both use it.
    /// let text = b"\
    /// 10   2   2   1           0
    /// 11   0   0   0           0
    /// 14   0   1   0           0
    /// 11   1   0   0           0
    /// 14   1   1   0           0
    /// 12   0   0   1           0
    /// 15   0   0   0           0
    /// 13   0   0   1           0
    /// 13   0   1   0           0
    /// 13   0   1   1           0
    /// ";
    /// // A void line of link 0 with two raise lines.
    /// let log = [" 5   0   2   0           0\n", " 3   1   0   0           0\n", " 3   2   0   0           0\n"].concat();
    ///
    /// let (case, mut table) = read_case(text)?;
    /// assert_eq!(table[..8], [0, BARRED, 0, BARRED, BARRED, 0, 0, 0]);
    /// let mut replay = Replay::start(&case, &table)?;
    /// replay.lines(&case, &mut table, log.as_bytes())?;
    /// assert_eq!(replay.end(&case, 0)?, End::Void);
    /// # Ok::<(), ceiling::Refused>(())
    /// ```
    pub fn end(&self, case: &Case, part: usize) -> Result<End, Refused> {
        let r = unsafe { c::ceiling_replay_end(case.0.as_ptr(), self.0.as_ptr(), part) };
        answer(r.number, 0, if r.is_void == 0 { End::Accepted(r.rounds) } else { End::Void })
    }
}
