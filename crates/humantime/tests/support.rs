//! Memory that is refused, for tests and examples.

use std::process::Abort;

/// The number of allocations that succeed in each test, before one that `rt try` lets fail.
const GRANTED: u32 = 59;

/// Allocates until the next allocation is the one that fails, `made` of them having been made
/// before.
pub(crate) fn refuse_memory(rt: &(impl Abort + AllocGlobal), made: u32) {
    for _ in made..GRANTED {
        let _taken = Box::new(rt.alloc(), 0_u8).expect(rt, "no memory");
    }
}

/// Asserts that nothing was allocated since: the next allocation is still the one that fails.
pub(crate) fn assert_nothing_allocated(rt: &(impl Abort + AllocGlobal)) {
    assert!(rt;
        Box::new(rt.alloc(), 0_u8).is_err(),
        "something was allocated"
    );
}
