//! Room on the stack for a call.

/// Bytes of stack that are enough for every call, as `include/givuntha.h` states them.
pub const STACK: usize = 524_288;
