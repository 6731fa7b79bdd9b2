//! Switches for the places where document 01 departs from the Rust.

/// One switch for each exception of document 01; `false` is "as the Rust is", `true` is "repaired".
#[derive(Clone, Copy, Debug, PartialEq, Eq)]
pub struct Rules {
    /// A sweep with an event at time -1: the Rust takes it for "no interval open" and loses it.
    pub minus_one: bool,
    /// An update in a plan with a usage over the capacity: the Rust's insertion compares only
    /// covered pieces; repaired, every update of a live table looks for a row over the capacity.
    pub heavy: bool,
    /// Negative usage or duration: the Rust drops the job; repaired, the load refuses 5 or 6.
    pub negative: bool,
    /// More than 128 rows: the Rust's vector grows; repaired, the update refuses 8.
    pub rows: bool,
}

impl Rules {
    /// The Rust as it is.
    pub const PLAIN: Rules = Rules {
        minus_one: false,
        heavy: false,
        negative: false,
        rows: false,
    };

    /// Document 01.
    pub const REPAIRED: Rules = Rules {
        minus_one: true,
        heavy: true,
        negative: true,
        rows: true,
    };
}
