//! A server's cache: bodies of all sizes come, get longer and go, in any order. When there is no room, the oldest ones go; so many
//! pages are always enough.
//!
//!     cargo run --release --example server -- 2000000

use std::collections::VecDeque;
use std::time::Instant;

use vigbuso::{AllocError, Error, Handle, Region};

pub(crate) struct Server {
    region: Region,
    /// The oldest first.
    bodies: VecDeque<Handle>,
    random: u64,
    pub evicted: usize,
    pub resized: usize,
}

impl Server {
    pub fn open(pages: u64) -> Result<Server, Error> {
        Ok(Server { region: Region::open(pages)?, bodies: VecDeque::new(), random: 1, evicted: 0, resized: 0 })
    }

    fn below(&mut self, limit: usize) -> usize {
        self.random = self.random.wrapping_mul(6_364_136_223_846_793_005).wrapping_add(1_442_695_040_888_963_407);
        (self.random >> 33) as usize % limit
    }

    /// A body's length: most are short.
    fn len(&mut self) -> usize {
        let most = [64, 64, 256, 256, 1_024, 4_096, 16_384, 200_000][self.below(8)];
        16 + self.below(most - 15)
    }

    /// A body comes, is made longer or shorter, or goes. Its first bytes are its number, and its last ones too.
    pub fn step(&mut self, number: u64) -> Result<(), Error> {
        let (way, len) = (self.below(16), self.len());
        if way < 8 || self.bodies.is_empty() {
            let handle = self.with_room(len)?;
            self.seal(handle, number);
            return Ok(());
        }
        let place = self.below(self.bodies.len());
        let handle = self.bodies.remove(place).expect("one of them");
        let number = self.check(handle);
        if way >= 11 {
            return self.region.free(handle);
        }
        self.resized += 1;
        let handle = match self.region.resize(handle, len) {
            Err(Error::Alloc(AllocError::Full)) => {
                self.region.free(handle)?;
                self.with_room(len)?
            }
            moved => moved?,
        };
        self.seal(handle, number);
        Ok(())
    }

    /// A body of so many bytes. As long as there is no room, the oldest one goes.
    fn with_room(&mut self, len: usize) -> Result<Handle, Error> {
        loop {
            match self.region.alloc_zeroed(len) {
                Err(AllocError::Full) if !self.bodies.is_empty() => self.evicted += 1,
                answer => return Ok(answer?),
            }
            self.bodies.pop_front().map_or(Ok(()), |oldest| self.region.free(oldest))?;
        }
    }

    fn seal(&mut self, handle: Handle, number: u64) {
        let body = &mut self.region[handle];
        body[..8].copy_from_slice(&number.to_le_bytes());
        body.last_chunk_mut::<8>().expect("eight bytes").copy_from_slice(&number.to_le_bytes());
        self.bodies.push_back(handle);
    }

    /// A body's number, which nobody else has written over.
    fn check(&self, handle: Handle) -> u64 {
        let (first, last) = (self.region[handle].first_chunk(), self.region[handle].last_chunk::<8>());
        assert_eq!(first, last, "{handle:?} was overwritten");
        u64::from_le_bytes(*first.expect("eight bytes"))
    }
}

fn main() -> Result<(), Error> {
    let steps = std::env::args().nth(1).and_then(|steps| steps.parse().ok()).unwrap_or(2_000_000);
    for pages in [16, 64, 256] {
        let (mut server, start) = (Server::open(pages)?, Instant::now());
        (0..steps).try_for_each(|number| server.step(number))?;
        let (Server { evicted, resized, .. }, time) = (&server, start.elapsed());
        println!("{pages} pages: {steps} steps in {time:.1?}, {resized} resized, {evicted} evicted");
        println!("    {}", server.region.report()?);
    }
    Ok(())
}
