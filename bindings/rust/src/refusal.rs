//! Why a call was refused.

use crate::ffi::status;
use std::error::Error;
use std::fmt;

/// Makes the refusals from their statuses and what they say.
macro_rules! refusals {
    ($($name:ident = $number:ident, $says:literal;)*) => {
        /// Why a call was refused. It has changed nothing.
        ///
        /// If several reasons apply, this is the one with the least number; only
        /// [`OutOfMemory`](Self::OutOfMemory) comes first where a list needs memory.
        ///
        /// ```
        /// use dcel::operations::{flip_cw, new_triangle};
        /// use dcel::{Dcel, Refusal, handles::FixedUndirectedEdgeHandle};
        ///
        /// let mut dcel: Dcel<_> = new_triangle(['a', 'b', 'c'])?;
        /// let refusal = flip_cw(&mut dcel, FixedUndirectedEdgeHandle::new(7)).unwrap_err();
        /// assert_eq!(refusal, Refusal::NoSuchEdge);
        /// assert_eq!(refusal.to_string(), "an edge's number is out of range");
        /// # Ok::<(), Refusal>(())
        /// ```
        #[derive(Clone, Copy, PartialEq, Eq, PartialOrd, Ord, Hash, Debug)]
        #[repr(u8)]
        pub enum Refusal {
            $(
                #[doc = concat!("The call was refused because ", $says, ".")]
                $name = status::$number as u8,
            )*
        }

        impl Refusal {
            /// All of them, by ascending number.
            ///
            /// ```
            /// use dcel::Refusal;
            ///
            /// assert!(Refusal::ALL.iter().map(|refusal| refusal.number()).eq(1..=20));
            /// ```
            pub const ALL: &[Self] = &[$(Self::$name),*];

            /// Returns its name, as `NoSuchVertex`.
            ///
            /// ```
            /// assert_eq!(dcel::Refusal::WouldLoop.name(), "WouldLoop");
            /// ```
            pub fn name(self) -> &'static str {
                match self {
                    $(Self::$name => stringify!($name),)*
                }
            }
        }

        impl fmt::Display for Refusal {
            fn fmt(&self, f: &mut fmt::Formatter<'_>) -> fmt::Result {
                f.write_str(match self {
                    $(Self::$name => $says,)*
                })
            }
        }
    };
}

refusals! {
    NoSuchVertex = NO_SUCH_VERTEX, "a vertex's number is out of range";
    NoSuchEdge = NO_SUCH_EDGE, "an edge's number is out of range";
    NoSuchFace = NO_SUCH_FACE, "a face's number is out of range, or an inner face was asked for";
    RemovalOpen = REMOVAL_OPEN, "a removal is open";
    NoRemoval = NO_REMOVAL, "no removal is open that is still to be cleaned up";
    GivenUp = GIVEN_UP, "an element isn't live";
    SameVertex = SAME_VERTEX, "two vertices are one";
    VertexInUse = VERTEX_IN_USE, "a vertex has an edge";
    EdgesStand = EDGES_STAND, "the mesh has an edge";
    NotLineEnd = NOT_LINE_END, "the end of the line hasn't exactly one out edge";
    NotBridge = NOT_BRIDGE, "the halves of the edge lie on two faces";
    NotOuter = NOT_OUTER, "the half edge isn't on the outer face";
    NotTriangle = NOT_TRIANGLE, "a face that must have three half edges doesn't";
    WouldLoop = WOULD_LOOP, "an edge would join a vertex to itself";
    BadRing = BAD_RING, "the half edges aren't the ring that was asked for";
    BadStrip = BAD_STRIP, "the half edges aren't the strip of a vertex";
    WrongLists = WRONG_LISTS, "the lists aren't those of the open removal";
    NotPath = NOT_PATH, "the mesh is neither one vertex nor a path";
    NoRoom = NO_ROOM, "a count would pass its limit";
    OutOfMemory = OUT_OF_MEMORY, "there was no memory";
}

impl Refusal {
    /// Returns its number.
    ///
    /// ```
    /// assert_eq!(dcel::Refusal::WouldLoop.number(), 14);
    /// ```
    pub fn number(self) -> u32 {
        self as u32
    }

    /// Returns what a status of the library says. Those above 20 never come: each mesh of this
    /// crate is open, and each buffer long enough.
    #[inline]
    pub(crate) fn of(status: u32) -> Result<(), Self> {
        match status {
            0 => Ok(()),
            _ => Err(Self::ALL[status as usize - 1]),
        }
    }
}

impl Error for Refusal {}

/// A refusal that gives back what the call was given.
///
/// With `?` it becomes the [`Refusal`] alone.
///
/// ```
/// use dcel::handles::FixedVertexHandle;
/// use dcel::operations::new_with_fixed_vertices;
/// use dcel::{Dcel, Refusal};
///
/// let vertex = FixedVertexHandle::new(1);
/// let made = new_with_fixed_vertices::<_, (), (), ()>(vec!['a', 'b'], vertex, vertex);
/// let refused = made.unwrap_err();
/// assert_eq!(refused.why, Refusal::SameVertex);
/// assert_eq!(refused.back, ['a', 'b']);
/// ```
#[derive(Clone, Copy, PartialEq, Eq, Debug)]
pub struct Refused<T> {
    /// Why it was refused.
    pub why: Refusal,

    /// What it was given.
    pub back: T,
}

impl<T> fmt::Display for Refused<T> {
    fn fmt(&self, f: &mut fmt::Formatter<'_>) -> fmt::Result {
        self.why.fmt(f)
    }
}

impl<T: fmt::Debug> Error for Refused<T> {}

impl<T> From<Refused<T>> for Refusal {
    fn from(refused: Refused<T>) -> Self {
        refused.why
    }
}

#[cfg(test)]
mod tests {
    use super::Refusal;
    use crate::ffi::{STATUS_NAMES, status};

    #[test]
    fn refusals_are_the_statuses_up_to_out_of_memory() {
        let names: Vec<_> = Refusal::ALL.iter().map(|refusal| refusal.name()).collect();
        assert_eq!(names, STATUS_NAMES[1..=status::OUT_OF_MEMORY as usize]);
    }
}
