//! What is known of a stored trace besides its samples.

/// A trace's label: a fault code, which the remote is told, and a machine's serial, which it is not. Any numbers will do; both are zero
/// where none was given.
///
/// ```
/// use silkendoz::{Label, TraceLibrary};
///
/// let mut library = TraceLibrary::open(2, 8, 2)?;
/// library.add_labelled(&[0, 0], Label { code: 17, serial: 4119 })?;
/// library.add(&[9, 9])?;
/// assert_eq!(library.label(0)?.serial, 4119);
/// assert_eq!(library.label(1)?, Label::default());
/// # Ok::<(), silkendoz::Refusal>(())
/// ```
#[derive(Clone, Copy, Debug, Default, PartialEq, Eq, Hash)]
pub struct Label {
    /// The fault's code.
    pub code: u16,
    /// The machine's serial.
    pub serial: u32,
}

impl Label {
    /// The label that a place of the table stands for (`docs/LAYOUT.md`): the bits above code and serial are free.
    pub(crate) fn at(place: u64) -> Label {
        Label { code: place as u16, serial: (place >> 16) as u32 }
    }
}
