// ---------------------------------------------------------------------------
// What the comparison asks of the heaps.
// ---------------------------------------------------------------------------

impl GlobalHeap {
    /// Pages in the empty and cold stores of every class.
    pub(crate) fn parked_pages(&self) -> usize {
        let parked = |class: &Mutex<ListHead>| {
            let list = class.lock();
            list.empty_count as usize + list.cold_bytes / PAGE_SIZE
        };
        self.classes.iter().map(parked).sum()
    }
}

impl MediumHeap {
    /// Pages of the spans in the empty and cold stores of every class.
    pub(crate) fn parked_pages(&self) -> usize {
        let parked = |class: &Mutex<MSpanList>| {
            let list = class.lock();
            (list.empty_bytes + list.cold_bytes) / PAGE_SIZE
        };
        self.classes.iter().map(parked).sum()
    }
}
