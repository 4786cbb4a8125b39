//! The published numbers (the table in "Requests and calls", and of the later
//! requests Point 1 for 19, Point 4 for 20, Point 5 for 15 and 21 and Point 6 for
//! 22 and 23).

/// Granted, loaded, blanked, run: the call did what was asked.
pub const GRANTED: u8 = 0;
/// No byte left, or body cut short.
pub const BOOK_CUT: u8 = 1;
/// Kind above 7.
pub const KIND_UNKNOWN: u8 = 2;
/// Kind 1 not first, or again.
pub const MASK_PLACE: u8 = 3;
/// Value outside its range.
pub const OUT_OF_RANGE: u8 = 4;
/// Number or pair already declared.
pub const DECLARED_BEFORE: u8 = 5;
/// Firm not declared earlier.
pub const FIRM_UNDECLARED: u8 = 6;
/// q is 0: nothing enables "create".
pub const CREATE_ENABLED: u8 = 7;
/// Pairs form a circle, p to p included.
pub const CIRCLE: u8 = 8;
/// A step enables but is not enabled.
pub const NEVER_ENABLED: u8 = 9;
/// History not 18,944 bytes.
pub const HISTORY_LENGTH: u8 = 10;
/// Tables that no load gives.
pub const TABLES_NOT_GIVEN: u8 = 11;
/// Request kind unknown or record cut.
pub const REQUEST_CUT: u8 = 12;
/// Person or folder undeclared, step above 15.
pub const UNDECLARED: u8 = 13;
/// Refused by the wall.
pub const WALL: u8 = 14;
/// Refused by low-water: the rank is too low, also when a compartment is missing
/// besides.
pub const LOW_WATER_RANK: u8 = 15;
/// Refused by roles.
pub const ROLES: u8 = 16;
/// Refused by the pipeline.
pub const PIPELINE: u8 = 17;
/// Fewer answer bytes than answers due.
pub const ANSWERS_SHORT: u8 = 18;
/// Kind 7 names a folder not declared earlier.
pub const FOLDER_UNDECLARED: u8 = 19;
/// Level buffer not 128 bytes.
pub const LEVELS_LENGTH: u8 = 20;
/// Refused by low-water: the rank suffices and a compartment is missing. It is
/// checked in the place of 15.
pub const LOW_WATER_COMPARTMENT: u8 = 21;
/// A list of jobs longer than 64, or with a start or a record that 12 or 13 would
/// refuse.
pub const JOBS_REFUSED: u8 = 22;
/// No order of the jobs is granted throughout.
pub const NO_ORDER: u8 = 23;
