//! What calls are given and what they fill, laid out as in C.

#[repr(C)]
pub struct Sizes {
    pub slots: u32,
    pub list_words: u32,
    pub pool_words: u32,
}

#[repr(C)]
#[derive(Default)]
pub struct UpdateAnswer {
    pub stamp: u64,
    pub applied: u32,
}

#[repr(C)]
#[derive(Default)]
pub struct ReadAnswer {
    pub value: u64,
    pub stamp: u64,
}

#[repr(C)]
#[derive(Default)]
pub struct ScanAnswer {
    pub stamp: u64,
    pub collects: u32,
    pub borrowed: u32,
}

#[repr(C)]
#[derive(Default)]
pub struct PortState {
    pub number: u32,
    pub pool_spent: u32,
    pub slots_spent: u32,
}

/// The sizes of an arena of a long-lived memory.
#[repr(C)]
#[derive(Clone, Copy, Debug, PartialEq, Eq)]
pub struct Arena {
    pub list_words: u32,
    pub pool_words: u32,
}
