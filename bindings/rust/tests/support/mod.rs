//! What the tests share: random numbers, cards to ask about, and questions put to both sides.
// each test file uses a part of it
#![allow(dead_code, unused_imports)]

pub mod angles;
pub mod ask;
pub mod ask_all;
pub mod ask_corrections;
pub mod ask_lists;
pub mod ask_pairs;
pub mod ask_sheet;
pub mod blank_faults;
pub mod blanks;
pub mod contain;
pub mod corrections;
pub mod cuts;
pub mod damage;
pub mod edges;
pub mod faults;
pub mod index;
pub mod make;
pub mod random;
pub mod raw_blocks;

use fordcask::{Pair, Series};

pub use ask::{Ask, RETIRED};
pub use blanks::{no_blanks, or_zero};
pub use random::{seeded, Random};

/// Both pairs of questions (02, E8).
pub const PAIRS: [Pair; 2] = [Pair::Corner, Pair::Centre];

/// The worked card of document 01, for 1:1,000,000 zone 1.
pub const WORKED: &[u8; 98] = b"30036966400400384-0022935.07+113032.23000000000127000255000000\
00200100012800012801008BASE0101.IMGN";

/// What is stated beside the worked card.
pub const WORKED_SERIES: Series = Series::chart(1_000_000, 1);

/// Both ends of i64 and their neighbours, zero and its neighbours.
pub const SIGNED_ENDS: [i64; 9] =
    [i64::MIN, i64::MIN + 1, i64::MIN / 2, -1, 0, 1, i64::MAX / 2, i64::MAX - 1, i64::MAX];
