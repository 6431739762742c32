//! The parts of the original's source that are replaced before it is compiled: what document 01 shims ("What the editor
//! lends"), and what makes its answers visible. A part that a request of document 02 replaces by a reference of our own is
//! renamed here, so that both are there, and the reference is the file beside this one that is added at the end.

/// What stands in a file from `from` on, which is there once, through the next `to`. With `to` empty it is `from` itself.
pub struct Part {
    pub file: &'static str,
    pub why: &'static str,
    pub from: &'static str,
    pub to: &'static str,
    pub put: &'static str,
}

/// The end of a function or block in a module's own column.
const END: &str = "\n}\n";

pub const PARTS: [Part; 17] = [
    Part {
        file: "arena.rs",
        why: "the system's answers come from the host word",
        from: "extern \"C\" {\n",
        to: END,
        put: "use crate::oracle::host::{mmap, munmap};\n",
    },
    Part {
        file: "arena.rs",
        why: "an arena of the history's length, a new one for each history",
        from: "static ARENA: Arena = Arena::new();\n",
        to: "",
        put: "static ARENA: crate::oracle::slot::Slot<Arena> = crate::oracle::slot::Slot::new();\n",
    },
    Part {
        file: "arena.rs",
        why: "the table of spans has a slot for each page of the longest arena (document 02, A.11)",
        from: "const BIG_MAP_SLOTS: usize = ARENA_SIZE / ARENA_ALIGN;\n",
        to: "",
        put: "const BIG_MAP_SLOTS: usize = crate::words::MAX_PAGES as usize;\n",
    },
    Part {
        file: "arena.rs",
        why: "document 02's choice of a hole stands beside the original's (A.8)",
        from: "    fn holes_take(&self, pages: usize) -> *mut u8 {\n",
        to: "",
        put: "    fn original_take(&self, pages: usize) -> *mut u8 {\n",
    },
    Part {
        file: "arena.rs",
        why: "document 02's joining of holes stands beside the original's give (A.4)",
        from: "    fn holes_give(&self, base: *mut u8, pages: usize) {\n",
        to: "",
        put: "    fn original_give(&self, base: *mut u8, pages: usize) {\n",
    },
    Part {
        file: "sys/unix.rs",
        why: "the system's answers come from the host word",
        from: "extern \"C\" {\n    fn mmap(\n",
        to: END,
        put: "use crate::oracle::host::{madvise, mmap, munmap};\n",
    },
    Part {
        file: "sys/unix.rs",
        why: "no page comes from outside the arena",
        from: "pub(crate) unsafe fn map(size: usize) -> *mut u8 {\n",
        to: END,
        put: "pub(crate) unsafe fn map(_size: usize) -> *mut u8 {\n    core::ptr::null_mut()\n}\n",
    },
    Part {
        file: "sys/unix.rs",
        why: "whether a discard zeroes is the host word's bit 3",
        from: "unsafe fn dontneed_zeroes() -> bool {\n",
        to: END,
        put: "unsafe fn dontneed_zeroes() -> bool {\n    crate::oracle::host::discard_zeroes()\n}\n",
    },
    Part {
        file: "heap.rs",
        why: "a page's fate is made visible",
        from: "unsafe fn act_page_fate(page: *mut PageHeader, fate: PageFate) {\n",
        to: "",
        put: "unsafe fn act_page_fate(page: *mut PageHeader, fate: PageFate) {\n    \
              crate::oracle::fates::push(match fate {\n        PageFate::Keep => 0,\n        \
              PageFate::Cold => 1,\n        PageFate::Unmap => 2,\n    });\n",
    },
    Part {
        file: "heap.rs",
        why: "a span's fate is made visible",
        from: "unsafe fn mact_fate(base: *mut u8, fate: SpanFate) {\n",
        to: "",
        put: "unsafe fn mact_fate(base: *mut u8, fate: SpanFate) {\n    \
              crate::oracle::fates::push(match fate {\n        SpanFate::Keep => 0,\n        \
              SpanFate::Unmap(_) => 2,\n    });\n",
    },
    Part {
        file: "heap.rs",
        why: "a small class's empty limit is its row's, if rows are given (document 02, A.9)",
        from: "    if list.empty_count < EMPTY_PAGE_CACHE_PER_CLASS {\n",
        to: "",
        put: "    if list.empty_count < crate::oracle::limits::empty((*page).class as usize, EMPTY_PAGE_CACHE_PER_CLASS) {\n",
    },
    Part {
        file: "heap.rs",
        why: "and its cold limit",
        from: "    } else if (list.cold_len as usize) < MAX_COLD_PAGE_SLOTS\n",
        to: "",
        put: "    } else if (list.cold_len as usize) < crate::oracle::limits::cold((*page).class as usize, MAX_COLD_PAGE_SLOTS)\n",
    },
    Part {
        file: "heap.rs",
        why: "a medium class's empty limit is its row's; its 8 MiB stay beside it",
        from: "        if list.empty_count < EMPTY_SPAN_CACHE_PER_CLASS\n",
        to: "",
        put: "        let class = crate::oracle::original::classes::NUM_CLASSES + (*span).mclass as usize;\n        \
              if list.empty_count < crate::oracle::limits::empty(class, EMPTY_SPAN_CACHE_PER_CLASS)\n",
    },
    Part {
        file: "heap.rs",
        why: "and its cold limit",
        from: "        } else if (list.cold_len as usize) < MAX_COLD_SPAN_SLOTS\n",
        to: "",
        put: "        } else if (list.cold_len as usize) < crate::oracle::limits::cold(class, MAX_COLD_SPAN_SLOTS)\n",
    },
    Part {
        file: "heap.rs",
        why: "whether a group retired its page is read from its chunk",
        from: "const PAGE_RELEASE_RETIRED: u16 = 0x8000;\n",
        to: "",
        put: "pub(crate) const PAGE_RELEASE_RETIRED: u16 = 0x8000;\n",
    },
    Part {
        file: "heap.rs",
        why: "one heap for each history, none for the process",
        from: "pub(crate) static HEAP: GlobalHeap = GlobalHeap::new();\n",
        to: "",
        put: "",
    },
    Part {
        file: "heap.rs",
        why: "one heap for each history, none for the process",
        from: "pub(crate) static MEDIUM_HEAP: MediumHeap = MediumHeap::new();\n",
        to: "",
        put: "",
    },
];
