//! The crate's `Pool` behind two C functions, so that `compare pool-speed` can measure it beside the others. Records are of up to 16,384
//! bytes; one thread calls them.

use std::cell::RefCell;

use vigbuso::{Block, Pool, PAGE_BYTES};

const PAGES: usize = 2_048;
const GRANULE_BYTES: usize = 16;

struct Arena {
    pool: Pool,
    bytes: Vec<u8>,
}

thread_local! {
    static ARENA: RefCell<Arena> = RefCell::new(Arena {
        pool: Pool::open(PAGES as u64).expect("a length"),
        bytes: vec![0; PAGES * PAGE_BYTES],
    });
}

#[no_mangle]
pub extern "C" fn rust_pool_alloc(bytes: usize) -> *mut u8 {
    ARENA.with_borrow_mut(|arena| {
        let block = arena.pool.alloc(bytes).expect("there is room");
        arena.bytes[block.range(8)].as_mut_ptr()
    })
}

#[no_mangle]
pub extern "C" fn rust_pool_free(record: *mut u8) {
    ARENA.with_borrow_mut(|arena| {
        let granule = (record as usize - arena.bytes.as_ptr() as usize) / GRANULE_BYTES;
        let block = Block::small(granule as u64).expect("a granule");
        arena.pool.free(block).expect("it is out");
    });
}
