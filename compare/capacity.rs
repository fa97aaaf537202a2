// Document 01's capacities as 02's Ticket 6 raises them, for all drivers.
pub const STATEMENTS: usize = 63;
pub const SCANS: usize = STATEMENTS;
pub const SLOTS: usize = 126;
pub const SELECTS: usize = 32;
pub const SEARCHED: usize = 6;
pub const ELEMENTS: usize = STATEMENTS;
