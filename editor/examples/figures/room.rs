//! Takes that found no room: the arena is too small for the trace. What a trace answers does not tell, so its steps are made once
//! more, one by one.

use super::Outcome;
use vigbuso::{Heap, Host, Say, Trace, Traced};

/// How many takes found no room, and the first one's step, counted from 1.
#[derive(Clone, Copy, PartialEq, Eq, Debug)]
pub struct Unserved {
    pub takes: usize,
    pub first: usize,
}

/// None if the arena served every take.
pub fn unserved(trace: &Trace, traced: &Traced) -> Outcome<Option<Unserved>> {
    let mut heap = Heap::open(traced.heap.pages())?;
    heap.set_host(Host::ALL); // as in a trace
    let (mut blocks, mut found) = (Vec::new(), None);
    for (say, step) in trace.says().take(traced.words).zip(1..) {
        match say {
            Some(Say::Take(class)) => {
                let taken = heap.take(class)?;
                if taken.is_empty() {
                    found.get_or_insert(Unserved { takes: 0, first: step }).takes += 1;
                }
                blocks.extend(taken.iter().map(|&block| (class, block)));
            }
            Some(Say::Release(place)) => {
                let (class, block) = blocks[place as usize];
                heap.release(class, &[block])?;
            }
            _ => {}
        }
    }
    Ok(found)
}
