//! On a machine with too little memory a store is refused, and the stores that are there go on.
mod common;

use common::{bits, row_size, with};
use karonjeenu::{Format, Refusal, Shape, Side, Store};
use std::alloc::{GlobalAlloc, Layout, System};
use std::sync::atomic::{AtomicUsize, Ordering};
use std::{panic, ptr};

/// The bytes that the machine has.
const MEMORY: usize = 48 << 20;

static TAKEN: AtomicUsize = AtomicUsize::new(0);

struct Machine;

#[global_allocator]
static MACHINE: Machine = Machine;

// SAFETY: what is not refused is the system's own memory, under the layout that was asked for.
unsafe impl GlobalAlloc for Machine {
    unsafe fn alloc(&self, layout: Layout) -> *mut u8 {
        let taken = TAKEN.fetch_add(layout.size(), Ordering::Relaxed);
        if taken + layout.size() > MEMORY {
            TAKEN.fetch_sub(layout.size(), Ordering::Relaxed);
            return ptr::null_mut();
        }
        unsafe { System.alloc(layout) }
    }

    unsafe fn dealloc(&self, memory: *mut u8, layout: Layout) {
        TAKEN.fetch_sub(layout.size(), Ordering::Relaxed);
        unsafe { System.dealloc(memory, layout) }
    }
}

/// A store of 1 GiB cannot be opened, and one of 32 MiB opens and cannot be copied.
#[test]
fn lack_of_memory_is_refused() {
    let most = Shape {
        format: Format::F32,
        layers: 2,
        heads: 64,
        head_size: 256,
        capacity: 4096,
    };
    assert!(most.need().is_ok());
    assert_eq!(Store::open(most), Err(Refusal::Memory));
    let mut store = Store::open(with(most, "capacity", 128)).expect("memory for one");
    assert_eq!(store.try_clone(), Err(Refusal::Memory));
    // A panic that prints a backtrace wants memory of its own.
    panic::set_hook(Box::new(|_| ()));
    let cloned = panic::catch_unwind(|| store.clone());
    drop(panic::take_hook());
    assert!(cloned.is_err());
    let row = vec![1.0; row_size(most)];
    store.append(1, &row, &row).expect("the store goes on");
    let mut out = vec![0.0; most.head_size];
    store
        .read_row(1, Side::Values, 63, 0, &mut out)
        .expect("a row");
    assert_eq!(bits(&out), bits(&row[..most.head_size]));
}
