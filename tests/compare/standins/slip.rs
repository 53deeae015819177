// Stand-in for src/slip.rs: only the name that lib.rs hands on.
pub struct Slip;
