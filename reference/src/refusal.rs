//! The refusal numbers that the reference gives; 0 is done. The C header says what each means.

pub use crate::header::{
    ADDRESSING, BUFFER_TOO_SHORT, CUT, FRAME_TOO_LONG, MISSING_OR_TWICE, OUT_OF_LIMITS, SECURED, SHAPE, TABLE_FULL,
    UNKNOWN_NEIGHBOUR, WRONG_TYPE,
};
