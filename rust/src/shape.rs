//! What a library's tree looks like, read off its tables (`docs/LAYOUT.md`).

use crate::library::RECORD_PLACES;
use crate::TraceLibrary;

/// A leaf of a library's tree.
#[derive(Clone, Copy, Debug, PartialEq, Eq)]
#[non_exhaustive]
pub struct Leaf {
    /// Its number, as a trail has it.
    pub number: usize,
    /// How many nodes stand above it.
    pub depth: usize,
    /// How many traces it holds.
    pub traces: usize,
}

impl TraceLibrary {
    /// How many nodes the tree has, leaves among them.
    pub fn node_count(&self) -> usize {
        self.control[4].into()
    }

    /// How many leaves the tree has. A match reads some of them.
    ///
    /// ```
    /// use silkendoz::TraceLibrary;
    ///
    /// let mut library = TraceLibrary::open(1, 8, 2)?;
    /// assert_eq!((library.node_count(), library.leaf_count()), (0, 0));
    /// for trace in [0, 1, 90] {
    ///     library.add(&[trace])?;
    /// }
    /// assert_eq!((library.node_count(), library.leaf_count()), (3, 2));
    /// let leaves = library.leaves();
    /// assert_eq!((leaves[0].depth, leaves[0].traces), (1, 2));
    /// assert_eq!((leaves[1].depth, leaves[1].traces), (1, 1));
    /// # Ok::<(), silkendoz::Refusal>(())
    /// ```
    pub fn leaf_count(&self) -> usize {
        // every inner node has two children
        self.node_count().div_ceil(2)
    }

    /// The leaves of the tree, from left to right.
    pub fn leaves(&self) -> Vec<Leaf> {
        let mut leaves = Vec::with_capacity(self.leaf_count());
        let mut waiting = Vec::new();
        if self.node_count() > 0 {
            waiting.push((0, 0));
        }
        while let Some((number, depth)) = waiting.pop() {
            let record = &self.nodes[number * RECORD_PLACES..][..RECORD_PLACES];
            if record[0] == 0 {
                leaves.push(Leaf { number, depth, traces: self.listed_from(record[2] as usize) });
            } else {
                waiting.push((record[3] as usize, depth + 1));
                waiting.push((record[2] as usize, depth + 1));
            }
        }
        leaves
    }

    /// How many traces stand in a leaf's list, which a link of 0 ends.
    fn listed_from(&self, first: usize) -> usize {
        std::iter::successors(Some(first), |&t| Some(usize::from(self.links[t])).filter(|&next| next != 0)).count()
    }
}
