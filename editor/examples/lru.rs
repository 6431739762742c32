//! A store that keeps the values used latest: at most so many, and the one not used for longest goes first. Values stand in
//! a pool's blocks, in a ring with the latest after its head and the oldest before it; a map has each key's block and length.
//!
//!     cargo run --release --example lru

use std::collections::HashMap;
use std::error::Error;

use vigbuso::{Block, Pool, Word, PAGE_BYTES};

/// A record begins with three words: its neighbours in the ring and its key. The value follows.
const NEWER: usize = 0;
const OLDER: usize = 8;
const KEY: usize = 16;
const HEAD: usize = 24;

pub(crate) struct Lru {
    pool: Pool,
    arena: Vec<u8>,
    blocks: HashMap<u64, (Block, usize)>,
    head: Block,
    most: usize,
}

impl Lru {
    pub fn open(pages: usize, most: usize) -> Result<Lru, Box<dyn Error>> {
        let mut pool = Pool::open(pages as u64)?;
        let (head, arena) = (pool.alloc(HEAD)?, vec![0; pages * PAGE_BYTES]);
        let mut lru = Lru { pool, arena, blocks: HashMap::new(), head, most };
        lru.join(head, head);
        Ok(lru)
    }

    pub fn get(&mut self, key: u64) -> Option<&[u8]> {
        let (block, len) = *self.blocks.get(&key)?;
        self.join(self.link(block, NEWER), self.link(block, OLDER));
        self.put_first(block);
        Some(&self.arena[block.range(HEAD + len)][HEAD..])
    }

    pub fn put(&mut self, key: u64, value: &[u8]) -> Result<(), Box<dyn Error>> {
        self.remove(key)?;
        if self.blocks.len() >= self.most {
            self.remove(self.word(self.link(self.head, NEWER), KEY))?;
        }
        let block = self.pool.alloc(HEAD + value.len())?;
        self.arena[block.range(HEAD + value.len())][HEAD..].copy_from_slice(value);
        self.set_word(block, KEY, key);
        self.put_first(block);
        self.blocks.insert(key, (block, value.len()));
        Ok(())
    }

    pub fn remove(&mut self, key: u64) -> Result<(), Box<dyn Error>> {
        let Some((block, _)) = self.blocks.remove(&key) else { return Ok(()) };
        self.join(self.link(block, NEWER), self.link(block, OLDER));
        Ok(self.pool.free(block)?)
    }

    fn put_first(&mut self, block: Block) {
        self.join(block, self.link(self.head, OLDER));
        self.join(self.head, block);
    }

    fn join(&mut self, newer: Block, older: Block) {
        self.set_word(newer, OLDER, older.word());
        self.set_word(older, NEWER, newer.word());
    }

    fn link(&self, block: Block, place: usize) -> Block {
        Block::from_word(self.word(block, place)).expect("a ring has no end")
    }

    fn word(&self, block: Block, place: usize) -> Word {
        let bytes = &self.arena[block.range(HEAD)][place..][..size_of::<Word>()];
        Word::from_le_bytes(bytes.try_into().expect("a word's bytes"))
    }

    fn set_word(&mut self, block: Block, place: usize, word: Word) {
        self.arena[block.range(HEAD)][place..][..size_of::<Word>()].copy_from_slice(&word.to_le_bytes());
    }
}

fn main() -> Result<(), Box<dyn Error>> {
    let mut lru = Lru::open(64, 1_000)?;
    (0..100_000).try_for_each(|turn| lru.put(turn % 1_500, format!("turn {turn}").as_bytes()))?;
    assert_eq!(lru.get(99_999 % 1_500), Some(&b"turn 99999"[..]));
    println!("{}", lru.pool.report()?);
    Ok(())
}
