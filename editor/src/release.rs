//! Releases of whole lists, and which block a refused one is about.

use alloc::vec::Vec;

use crate::{ffi, Block, Chunk, Class, Fate, Heap, Host, Kind, Refusal, ReleaseError};

/// A page with so many listed blocks is released by list, which costs less for each of them than a chunk does.
const BY_LIST: usize = 8;

/// Chunks of one call. A call may have many more ([`Chunk::MOST`]), but gains nothing by it.
const CHUNKS: usize = 64;

impl<B: AsRef<[u32]> + AsMut<[u32]>> Heap<B> {
    /// Releases blocks of one class, small or medium, wherever they are. The list is sorted and goes back page by page, several
    /// pages in one call where they have few blocks each. An empty list is fine.
    ///
    /// ```
    /// use vigbuso::{Class, Heap};
    ///
    /// let mut heap = Heap::open(64)?;
    /// for bytes in [24, 16_384, 20_000] {
    ///     let class = Class::for_size(bytes).unwrap();
    ///     let mut blocks = Vec::new();
    ///     for _ in 0..5 {
    ///         blocks.extend(heap.take(class)?);
    ///     }
    ///     heap.release_all(class, &mut blocks)?;
    /// }
    /// # Ok::<(), vigbuso::Refusal>(())
    /// ```
    ///
    /// # Errors
    ///
    /// [`Refusal::WrongKind`], [`Repeated`](Refusal::Repeated), [`NotOut`](Refusal::NotOut), with the first block to blame and its
    /// place in the sorted list. Blocks before it may be back already: [`ReleaseError::released`] tells how many.
    pub fn release_all(&mut self, class: Class, blocks: &mut [Block]) -> Result<(), ReleaseError> {
        self.release_all_with(self.host, class, blocks)
    }

    /// [`Heap::release_all`] with the system's answers, the same for each page.
    ///
    /// ```
    /// # use vigbuso::{Class, Heap, Host};
    /// let mut heap = Heap::open(64)?;
    /// let class = Class::for_size(24).unwrap();
    /// let mut blocks = heap.take(class)?;
    /// heap.release_all_with(Host::ALL, class, &mut blocks)?;
    /// # Ok::<(), vigbuso::Refusal>(())
    /// ```
    ///
    /// # Errors
    ///
    /// As [`Heap::release_all`].
    pub fn release_all_with(&mut self, host: Host, class: Class, blocks: &mut [Block]) -> Result<(), ReleaseError> {
        blocks.sort_unstable();
        let mut released = 0;
        while released < blocks.len() {
            let rest = &blocks[released..];
            let done = match class.kind() {
                Kind::Small => self.release_pages(host, class, rest),
                Kind::Medium => self.release_span(host, class, rest),
            };
            released += done.map_err(|error| error.after(released))?;
        }
        Ok(())
    }

    /// Releases the first blocks of a sorted list: those of one page if it has many, otherwise those of several pages that have
    /// few. Answers how many.
    fn release_pages(&mut self, host: Host, class: Class, sorted: &[Block]) -> Result<usize, ReleaseError> {
        let mut chunks = [Chunk::FILLER; CHUNKS];
        let (mut used, mut done) = (0, 0);
        for page in sorted.chunk_by(|a, b| a.page() == b.page()) {
            if page.len() >= BY_LIST || used == CHUNKS {
                break;
            }
            chunks[used] = Chunk::one(page[0].page());
            page[1..].iter().for_each(|_| chunks[used].add());
            (used, done) = (used + 1, done + page.len());
        }
        if used > 1 {
            let mut fates = [Fate::Kept; CHUNKS];
            self.release_chunks_with(host, class, &sorted[..done], &chunks[..used], &mut fates)?;
            return Ok(done);
        }
        let page = first_where(sorted, Block::page);
        self.release_with(host, class, page)?;
        Ok(page.len())
    }

    /// Releases the blocks of a sorted list that are in its first one's span. Answers how many.
    fn release_span(&mut self, host: Host, class: Class, sorted: &[Block]) -> Result<usize, ReleaseError> {
        let span = first_where(sorted, |block| class.first_page(block));
        self.release_with(host, class, span)?;
        Ok(span.len())
    }

    /// Why a list was refused, with the first block that it is about.
    #[cold]
    pub(crate) fn blame(&mut self, refusal: Refusal, class: Class, blocks: &[Block]) -> ReleaseError {
        let run = |block: &Block| class.first_page(*block);
        let place = match refusal {
            Refusal::WrongKind => blocks.iter().position(|block| block.kind() != class.kind()),
            Refusal::Repeated => self.first_repeated(class, blocks),
            Refusal::NotOut => blocks.iter().position(|&block| !self.is_out(class, block)),
            Refusal::OtherPage => blocks.iter().position(|block| run(block) != run(&blocks[0])),
            _ => None,
        };
        ReleaseError::new(refusal, place.map(|place| (place, blocks[place])))
    }

    /// The same for a list with chunks. If they are not the list's, it is the first block whose page has none or a wrong one.
    #[cold]
    pub(crate) fn blame_chunks(
        &mut self,
        refusal: Refusal,
        class: Class,
        blocks: &[Block],
        chunks: &[Chunk],
    ) -> ReleaseError {
        if refusal != Refusal::OtherPage {
            return self.blame(refusal, class, blocks);
        }
        let wrong = Chunk::of(blocks).into_iter().find(|chunk| !chunks.contains(chunk));
        let place = wrong.and_then(|chunk| blocks.iter().position(|block| block.page() == chunk.page()));
        ReleaseError::new(refusal, place.map(|place| (place, blocks[place])))
    }

    /// The first place at which a block that is out stands for the second time.
    fn first_repeated(&mut self, class: Class, blocks: &[Block]) -> Option<usize> {
        let mut places: Vec<usize> = (0..blocks.len()).collect();
        places.sort_unstable_by_key(|&place| (blocks[place], place));
        let again = places.windows(2).filter(|pair| blocks[pair[0]] == blocks[pair[1]]).map(|pair| pair[1]);
        again.filter(|&place| self.is_out(class, blocks[place])).min()
    }

    /// A list with one block twice is always refused, so this call changes nothing; the number tells whether the block is out.
    fn is_out(&mut self, class: Class, block: Block) -> bool {
        ffi::release(self.book.as_mut(), class, self.host, &[block, block]) == Err(Refusal::Repeated)
    }
}

/// The first blocks of a list that have the same as its first one. The list is not empty.
fn first_where<T: PartialEq>(blocks: &[Block], of: impl Fn(Block) -> T) -> &[Block] {
    let first = of(blocks[0]);
    let len = blocks.iter().take_while(|&&block| of(block) == first).count();
    &blocks[..len]
}
