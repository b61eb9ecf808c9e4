//! Printing into a `String` succeeds, or is an error if an allocation fails, and nothing is
//! allocated afterwards.

use crate::support::{assert_nothing_allocated, refuse_memory};
use humantime::{
    Duration, DurationError, StdDuration, Timestamp, TimestampError, UNIX_EPOCH,
    format_rfc3339_millis,
};
use std::alloc::{AllocError, Allocator, Global};
use std::cell::Cell;
use std::fmt::Display;
use std::process::Abort;

/// Memory that grants a number of allocations and then fails.
#[derive(Drop)]
struct Refusing {
    memory: Global,
    /// The number of allocations that are still granted, less the number of those that failed.
    left: Cell<i32>,
}

unsafe impl Allocator for Refusing {
    ghost dealloc_token = { λ heap ty ptr. Global.dealloc_token heap.memory ty ptr };

    fn allocate(&self, size: usize, align: usize) -> Result<*mut u8, AllocError> {
        let left = self.left.get();
        self.left.set(left - 1);
        if left > 0 {
            self.memory.allocate(size, align)
        } else {
            Err(AllocError)
        }
    }

    unsafe fn deallocate(&self, ptr: *mut u8, size: usize, align: usize) {
        self.memory.deallocate(ptr, size, align);
    }
}

/// Returns whether the value is printed, as this text and after another one, if this many
/// allocations are granted. If it is not, one was refused, and none follows it.
fn is_printed<D: Display>(
    rt: &(impl Abort + AllocGlobal),
    value: &D,
    before: &str,
    wanted: &str,
    granted: i32,
) -> bool {
    let memory = Refusing {
        memory: rt.alloc(),
        left: Cell::new(granted),
    };
    let printed = if before == "" {
        value.to_string(&memory)
    } else {
        format!(in &memory; "{before}{value}")
    };
    let left = memory.left.get();
    if let Ok(text) = &printed {
        assert_eq!(rt; text.as_str().strip_prefix(before), Some(wanted));
        assert!(rt; left >= 0, "{wanted}");
    } else {
        assert_eq!(rt; left, -1, "{wanted}");
    }
    printed.is_ok()
}

/// Asserts that the value is printed as this text if enough allocations are granted, and that it
/// needs one.
fn assert_printed<D: Display>(rt: &(impl Abort + AllocGlobal), value: &D, wanted: &str) {
    for before in ["", "kept "] {
        let needed = (0..100).find(|granted| is_printed(rt, value, before, wanted, *granted));
        assert!(rt; needed > Some(0), "{wanted}");
    }
}

#[test]
fn results_are_printed_into_a_string_or_memory_is_refused(rt: HostRuntime) {
    // From here on no allocation of `rt` fails.
    refuse_memory(&rt, 0);
    assert_nothing_allocated(&rt);
    assert_printed(
        &rt,
        &Duration::new(StdDuration::new(9420, 5_001)),
        "2h 37m 5µs 1ns",
    );
    assert_printed(&rt, &Timestamp::from(UNIX_EPOCH), "1970-01-01T00:00:00Z");
    assert_printed(
        &rt,
        &format_rfc3339_millis(UNIX_EPOCH),
        "1970-01-01T00:00:00.000Z",
    );
    assert_printed(
        &rt,
        &DurationError::NumberExpected(3),
        "expected number at 3",
    );
    assert_printed(
        &rt,
        &TimestampError::OutOfRange,
        "numeric component is out of range",
    );
}
