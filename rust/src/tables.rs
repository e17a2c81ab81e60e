//! The tables of a library (`docs/LAYOUT.md`), lent to a call.

use crate::StoredSample;

/// Hands the tables that a library consists of to a macro, behind what else it is given: what each holds, its name, its element. They come
/// in two lists: search work is lent between them. A further table is a further line here, and a further function behind `new` below.
macro_rules! with_tables {
    ($then:ident! $($given:tt)*) => {
        $then! {
            $($given)*
            [
                /// n, capacity, leaf size, how many traces and how many nodes there are.
                control: u16,
                /// The traces, one behind another.
                samples: StoredSample,
                /// The tree's nodes, a record each.
                nodes: i64,
                /// For each trace the next one of its leaf.
                links: u16,
            ]
            [
                /// A label for each trace.
                labels: u64,
            ]
        }
    };
}
pub(crate) use with_tables;

macro_rules! structs {
    ([$($(#[$says:meta])* $table:ident: $element:ty,)*] [$($(#[$tells:meta])* $behind:ident: $kind:ty,)*]) => {
        /// The tables of a library, lent to be read, or kept in memory that outlives the program. Search work is no part of them.
        #[derive(Clone, Copy, Debug, PartialEq, Eq)]
        #[non_exhaustive]
        pub struct Tables<'a> {
            $($(#[$says])* pub $table: &'a [$element],)*
            $($(#[$tells])* pub $behind: &'a [$kind],)*
        }

        /// The tables of a library and search work, lent to a call that may write all of them.
        #[derive(Debug)]
        #[non_exhaustive]
        pub struct Lent<'a> {
            $($(#[$says])* pub $table: &'a mut [$element],)*
            /// Search work, kept by no call.
            pub work: &'a mut [u64],
            $($(#[$tells])* pub $behind: &'a mut [$kind],)*
        }
    };
}

with_tables! { structs! }

impl<'a> Tables<'a> {
    /// Each may be longer than its need. Labels are set by [`Tables::with_labels`]; without them every call refuses the tables as short.
    pub const fn new(control: &'a [u16], samples: &'a [StoredSample], nodes: &'a [i64], links: &'a [u16]) -> Tables<'a> {
        Tables { control, samples, nodes, links, labels: &[] }
    }

    /// The same tables with these labels.
    pub const fn with_labels(self, labels: &'a [u64]) -> Tables<'a> {
        Tables { labels, ..self }
    }
}

impl<'a> Lent<'a> {
    /// Each may be longer than its need. Labels are set by [`Lent::with_labels`]; without them every call refuses the tables as short.
    pub const fn new(
        control: &'a mut [u16],
        samples: &'a mut [StoredSample],
        nodes: &'a mut [i64],
        links: &'a mut [u16],
        work: &'a mut [u64],
    ) -> Lent<'a> {
        Lent { control, samples, nodes, links, work, labels: &mut [] }
    }

    /// The same tables with these labels.
    pub fn with_labels(self, labels: &'a mut [u64]) -> Lent<'a> {
        Lent { labels, ..self }
    }
}
