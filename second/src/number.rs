//! "The numbers given back", each named once.

pub type Number = u32;

pub const DONE: Number = 0;
/// "machine not good; memory over its limit or past 2^32; listing over 65,536 bytes or base odd;
/// .. end address above 0xFFFFFFFE"; order 6: "a resume whose stored place disagrees with R15"
pub const UNFIT: Number = 1;
/// "record short, trailing bytes, unknown kind, field not as above"
pub const MALFORMED: Number = 2;
/// "restricted form"; order 1: "stepping a filler alone"
pub const RESTRICTED: Number = 3;
/// "wrong spot in a block"; order 1: "an ill-placed filler"
pub const MISPLACED: Number = 4;
/// "unaligned access not permitted"
pub const UNALIGNED: Number = 5;
/// "some accessed byte is not in memory"
pub const OUTSIDE: Number = 6;
/// "value for R15 by LDR, LDM, BX or BLX has bit 0 clear, or value for R13 is not a multiple of 4"
pub const BAD_VALUE: Number = 7;
/// "R15 is neither a record's address nor the end, or the waiting list differs from the layout's";
/// order 1: "R15 at a filler"
pub const STRAY: Number = 8;
/// "direct branch to a non-landing place"
pub const NO_LANDING: Number = 9;
/// "steps used up"
pub const USED_UP: Number = 10;
