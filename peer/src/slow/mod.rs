//! A second, naive reading of document 01 and of changes 1 to 3 and 5: every family tried,
//! every assignment listed, maxima by scanning, trimming one scope after another, pair
//! rounds shift by shift, cases taken apart into scopes and put together again. It shares
//! only the data types with the fast reading.

pub mod case;
pub mod engine;
pub mod families;
pub mod figures;
pub mod line;
pub mod links;
pub mod moves;
pub mod programs;
pub mod refute;
pub mod replay;
pub mod score;
pub mod view;
