//! Two jugs and a tap: which pours leave so many litres in one of them? One arena is used in three ways, side by side: a search's
//! states come from the heap in batches and go back all at once, each answer has a block of the pool, and which states were seen
//! stands in a page that is held by hand. States and short answers have one size; neither can be given back as the other.
//!
//!     cargo run --release --example mixed

use vigbuso::{AllocError, Block, Class, Error, Pool, Run, PAGE_BYTES};

/// Bytes of a state: the litres in each jug, and the place of the state before.
const STATE: usize = 4;

pub(crate) struct Jugs {
    pub pool: Pool,
    pub arena: Vec<u8>,
    /// A byte for each state.
    pub seen: Run,
    /// The class of states, their blocks in the order of a search, and how many have one.
    pub class: Class,
    pub states: Vec<Block>,
    used: usize,
}

impl Jugs {
    pub fn open(pages: usize) -> Result<Jugs, Error> {
        let (mut pool, arena) = (Pool::open(pages as u64)?, vec![0; pages * PAGE_BYTES]);
        let seen = pool.commit(1)?.ok_or(AllocError::Full)?.run;
        let class = Class::for_size(STATE).ok_or(AllocError::TooLarge)?;
        Ok(Jugs { pool, arena, seen, class, states: Vec::new(), used: 0 })
    }

    fn state(&self, place: usize) -> ([u8; 2], usize) {
        let bytes = &self.arena[self.states[place].range(STATE)];
        ([bytes[0], bytes[1]], u16::from_le_bytes([bytes[2], bytes[3]]).into())
    }

    /// Adds a state that was not seen. Where every block has one, there is a batch more.
    fn add(&mut self, litres: [u8; 2], before: usize) -> Result<(), Error> {
        let mark = &mut self.arena[self.seen.range()][usize::from(u16::from_le_bytes(litres))];
        if std::mem::replace(mark, 1) == 1 {
            return Ok(());
        }
        if self.used == self.states.len() {
            self.states.extend(self.pool.heap_mut().take(self.class)?);
        }
        let block = self.states.get(self.used).ok_or(AllocError::Full)?;
        let before = u16::try_from(before).expect("a search has at most 65,536 states").to_le_bytes();
        self.arena[block.range(STATE)].copy_from_slice(&[litres, before].concat());
        self.used += 1;
        Ok(())
    }

    /// The place of the first state with so many litres in a jug; 0 if there is none.
    fn search(&mut self, jugs: [u8; 2], litres: u8) -> Result<usize, Error> {
        self.arena[self.seen.range()].fill(0);
        self.used = 0;
        self.add([0, 0], 0)?;
        let mut place = 0;
        while place < self.used {
            let (now, _) = self.state(place);
            if now.contains(&litres) {
                return Ok(place);
            }
            for (jug, other) in [(0, 1), (1, 0)] {
                let [mut full, mut none, mut poured] = [now; 3];
                let pours = now[jug].min(jugs[other] - now[other]);
                (full[jug], none[jug]) = (jugs[jug], 0);
                (poured[jug], poured[other]) = (now[jug] - pours, now[other] + pours);
                [full, none, poured].into_iter().try_for_each(|next| self.add(next, place))?;
            }
            place += 1;
        }
        Ok(0)
    }

    /// The answer's block and length: the pours, from the last to the first. All states are back then.
    pub fn solve(&mut self, jugs: [u8; 2], litres: u8) -> Result<(Block, usize), Error> {
        let mut place = self.search(jugs, litres)?;
        let mut text = if place == 0 { format!("{litres}: never") } else { format!("{litres}:") };
        while place != 0 {
            let ([one, two], before) = self.state(place);
            text += &format!(" {one}+{two}");
            place = before;
        }
        self.pool.heap_mut().release_all(self.class, &mut std::mem::take(&mut self.states))?;
        let block = self.pool.alloc(text.len())?;
        self.arena[block.range(text.len())].copy_from_slice(text.as_bytes());
        Ok((block, text.len()))
    }
}

fn main() -> Result<(), Error> {
    let mut jugs = Jugs::open(16)?;
    for (sizes, litres) in [([5, 3], 4), ([6, 4], 5), ([9, 4], 6), ([11, 7], 5)] {
        let (block, len) = jugs.solve(sizes, litres)?;
        println!("{} and {} leave {}", sizes[0], sizes[1], String::from_utf8_lossy(&jugs.arena[block.range(len)]));
    }
    println!("{}", jugs.pool.report()?);
    Ok(())
}
