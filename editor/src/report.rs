//! The arena's figures.

use core::fmt;

/// What the arena has done, and whose its pages are. It prints as a line of status. Later versions may have more figures.
///
/// A page or span whose blocks are all back is parked: its class holds it, yet it is idle, so it counts as both, and
/// `held + idle - overlap` is the arena's pages but those abandoned. A run that is given back is abandoned where the holes would
/// have more than 65,536 pages with it, or where 4,096 holes are stored and it touches none: its pages are neither held nor idle.
///
/// ```
/// use vigbuso::{Class, Heap, Report};
///
/// let mut heap = Heap::open(64)?;
/// let blocks = heap.take(Class::for_size(16).unwrap())?;
/// let report = heap.report()?;
/// assert_eq!((report.commits, report.held, report.idle), (1, 1, 63));
/// assert_eq!(report.to_string(), "1 page held, 63 idle; 1 run committed, 0 from holes, 0 abandoned");
///
/// heap.release(Class::for_size(16).unwrap(), &blocks)?;
/// let report = heap.report()?;
/// assert_eq!((report.held, report.idle, report.overlap), (1, 64, 1));
/// assert_eq!(report.to_string(), "1 page held, 64 idle, 1 of them parked; 1 run committed, 0 from holes, 0 abandoned");
/// # Ok::<(), Box<dyn std::error::Error>>(())
/// ```
#[derive(Clone, Copy, PartialEq, Eq, Hash, Debug)]
#[non_exhaustive]
pub struct Report {
    /// Runs committed, growths that were granted included.
    pub commits: u64,
    /// Runs among them that came from a hole.
    pub reuses: u64,
    /// Runs that were given back and had no room among the holes.
    pub abandoned: u64,
    /// Pages that a class or the direct calls hold, parked ones too.
    pub held: u64,
    /// Pages of holes, those above the frontier, and the parked ones.
    pub idle: u64,
    /// Pages that are parked: held and idle both.
    pub overlap: u64,
}

impl Report {
    /// How many figures the library writes.
    pub(crate) const FIGURES: usize = 6;

    /// The library's figures by their names.
    pub(crate) const fn new([commits, reuses, abandoned, held, idle, overlap]: [u64; Report::FIGURES]) -> Report {
        Report { commits, reuses, abandoned, held, idle, overlap }
    }
}

impl fmt::Display for Report {
    fn fmt(&self, f: &mut fmt::Formatter) -> fmt::Result {
        let Report { commits, reuses, abandoned, held, idle, overlap } = self;
        let plural = |number: &u64| if *number == 1 { "" } else { "s" };
        write!(f, "{held} page{} held, {idle} idle", plural(held))?;
        if *overlap > 0 {
            write!(f, ", {overlap} of them parked")?;
        }
        write!(f, "; {commits} run{} committed, {reuses} from holes, {abandoned} abandoned", plural(commits))
    }
}
