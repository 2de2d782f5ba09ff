//! Why no mesh is made of links or faces.

use crate::ffi::{Fault, fault_kind};
use std::error::Error;
use std::fmt;

/// What is wrong with links, in the order in which it is looked for.
///
/// The three ranges are looked at together, half edge by half edge, and so are
/// [`OneEnd`](Self::OneEnd), [`Apart`](Self::Apart) and [`LeavesFace`](Self::LeavesFace). Half
/// edges, vertices and faces are told by their numbers.
///
/// ```
/// use dcel::operations::LinksFault;
///
/// assert_eq!(LinksFault::TwoLeadTo(3).to_string(), "two half edges lead to half edge 3");
/// ```
#[derive(Clone, Copy, PartialEq, Eq, Hash, Debug)]
pub enum LinksFault {
    /// A half edge has no other half.
    Lengths,

    /// There are more than 2^32 vertices, half edges or faces.
    TooMany,

    /// There is no outer face.
    NoFace,

    /// There are more faces than edges and two.
    MoreFaces,

    /// What comes after this half edge is no half edge.
    NextOutOfRange(usize),

    /// This half edge starts at no vertex.
    OriginOutOfRange(usize),

    /// This half edge lies on no face.
    FaceOutOfRange(usize),

    /// Two half edges lead to this one.
    TwoLeadTo(usize),

    /// Both ends of this half edge are one vertex.
    OneEnd(usize),

    /// What comes after this half edge doesn't start where it ends.
    Apart(usize),

    /// What comes after this half edge lies on another face.
    LeavesFace(usize),

    /// The half edges of this face are no single loop.
    FaceInParts(usize),

    /// The half edges of this vertex are no single turn.
    VertexInParts(usize),

    /// Nothing lies on this face.
    UnusedFace(usize),

    /// This half edge isn't reached from half edge 0.
    NotConnected(usize),

    /// The surface has this genus.
    NotSphere(usize),
}

impl LinksFault {
    /// Returns what a fault says of links.
    fn of(fault: &Fault) -> Self {
        let number = fault.number as usize;
        match fault.kind {
            fault_kind::LENGTHS => Self::Lengths,
            fault_kind::TOO_MANY => Self::TooMany,
            fault_kind::NO_FACE => Self::NoFace,
            fault_kind::MORE_FACES => Self::MoreFaces,
            fault_kind::NEXT_OUT_OF_RANGE => Self::NextOutOfRange(number),
            fault_kind::ORIGIN_OUT_OF_RANGE => Self::OriginOutOfRange(number),
            fault_kind::FACE_OUT_OF_RANGE => Self::FaceOutOfRange(number),
            fault_kind::TWO_LEAD_TO => Self::TwoLeadTo(number),
            fault_kind::ONE_END => Self::OneEnd(number),
            fault_kind::APART => Self::Apart(number),
            fault_kind::LEAVES_FACE => Self::LeavesFace(number),
            fault_kind::FACE_IN_PARTS => Self::FaceInParts(number),
            fault_kind::VERTEX_IN_PARTS => Self::VertexInParts(number),
            fault_kind::UNUSED_FACE => Self::UnusedFace(number),
            fault_kind::NOT_CONNECTED => Self::NotConnected(number),
            kind => {
                debug_assert_eq!(kind, fault_kind::NOT_SPHERE);
                Self::NotSphere(number)
            }
        }
    }
}

impl fmt::Display for LinksFault {
    fn fmt(&self, f: &mut fmt::Formatter<'_>) -> fmt::Result {
        match self {
            Self::Lengths => write!(f, "a half edge has no other half"),
            Self::TooMany => write!(f, "there are more than 2^32 vertices, half edges or faces"),
            Self::NoFace => write!(f, "there is no outer face"),
            Self::MoreFaces => write!(f, "there are more faces than edges and two"),
            Self::NextOutOfRange(half) => {
                write!(f, "after half edge {half} comes none that there is")
            }
            Self::OriginOutOfRange(half) => {
                write!(f, "half edge {half} starts at no vertex that there is")
            }
            Self::FaceOutOfRange(half) => {
                write!(f, "half edge {half} lies on no face that there is")
            }
            Self::TwoLeadTo(half) => write!(f, "two half edges lead to half edge {half}"),
            Self::OneEnd(half) => write!(f, "half edge {half} starts and ends at one vertex"),
            Self::Apart(half) => {
                write!(
                    f,
                    "what comes after half edge {half} doesn't start where it ends"
                )
            }
            Self::LeavesFace(half) => {
                write!(f, "what comes after half edge {half} lies on another face")
            }
            Self::FaceInParts(face) => {
                write!(f, "the half edges of face {face} are no single loop")
            }
            Self::VertexInParts(vertex) => {
                write!(f, "the half edges of vertex {vertex} are no single turn")
            }
            Self::UnusedFace(face) => write!(f, "no half edge lies on face {face}"),
            Self::NotConnected(half) => {
                write!(f, "half edge {half} isn't reached from half edge 0")
            }
            Self::NotSphere(genus) => {
                write!(f, "the surface has genus {genus}, so it is not a sphere")
            }
        }
    }
}

impl Error for LinksFault {}

/// Why links were refused.
///
/// ```
/// use dcel::operations::{LinksError, LinksFault, from_links};
///
/// let refused = from_links::<char, (), (), ()>(&[], Vec::new(), Vec::new()).unwrap_err();
/// assert_eq!(refused.reason, LinksError::Links(LinksFault::NoFace));
/// assert_eq!(refused.to_string(), "no mesh has these links: there is no outer face");
/// ```
#[derive(Clone, Copy, PartialEq, Eq, Hash, Debug)]
pub enum LinksError {
    /// No mesh has these links, and this is the first thing that is wrong with them.
    Links(LinksFault),

    /// There was no memory.
    OutOfMemory,
}

impl LinksError {
    pub(super) fn of(fault: Option<Fault>) -> Self {
        match fault {
            Some(fault) => Self::Links(LinksFault::of(&fault)),
            None => Self::OutOfMemory,
        }
    }
}

impl fmt::Display for LinksError {
    fn fmt(&self, f: &mut fmt::Formatter<'_>) -> fmt::Result {
        match self {
            Self::Links(fault) => write!(f, "no mesh has these links: {fault}"),
            Self::OutOfMemory => write!(f, "there was no memory"),
        }
    }
}

impl Error for LinksError {}

/// Why faces were refused. Faces are told by their places in the list, from 0 on.
///
/// ```
/// use dcel::handles::FixedVertexHandle;
/// use dcel::operations::{FacesError, from_faces};
///
/// let faces = [[0, 1, 2], [0, 1, 3]].map(|face| face.map(FixedVertexHandle::new));
/// let refused = from_faces::<_, (), (), (), _>(vec!['a', 'b', 'c', 'd'], faces).unwrap_err();
/// assert_eq!(refused.reason, FacesError::SideTwice(0, 1, 0, 1));
/// ```
#[derive(Clone, Copy, PartialEq, Eq, Hash, Debug)]
pub enum FacesError {
    /// This face has fewer than three corners.
    FewCorners(usize),

    /// There are more than 2^31 corners.
    TooManyCorners,

    /// This face has this corner, which is no vertex.
    NoVertex(usize, usize),

    /// A side of this face starts and ends at this vertex.
    OneEnd(usize, usize),

    /// These two faces, or one face twice, have a side from this vertex to that one.
    SideTwice(usize, usize, usize, usize),

    /// Two sides that no face lies beyond end at this vertex.
    BorderTwice(usize),

    /// With these corners, the first thing that is wrong with the links, by the mesh's numbers:
    /// face 0 is the outer one, and place `k` of the list is face `k + 1`.
    Links(LinksFault),

    /// There was no memory.
    OutOfMemory,
}

impl FacesError {
    pub(super) fn of(fault: Option<Fault>) -> Self {
        let Some(fault) = fault else {
            return Self::OutOfMemory;
        };
        let Fault {
            number,
            other,
            from,
            to,
            ..
        } = fault;
        let [number, other, from, to] = [number, other, from, to].map(|it| it as usize);
        match fault.kind {
            fault_kind::FEW_CORNERS => Self::FewCorners(number),
            // The counts differ from the corners only if one has no room in 32 bits.
            fault_kind::OTHER_COUNT | fault_kind::TOO_MANY_CORNERS => Self::TooManyCorners,
            fault_kind::NO_VERTEX => Self::NoVertex(number, from),
            fault_kind::SIDE_AT_ONE => Self::OneEnd(number, from),
            fault_kind::SIDE_TWICE => Self::SideTwice(number, other, from, to),
            fault_kind::BORDER_TWICE => Self::BorderTwice(number),
            _ => Self::Links(LinksFault::of(&fault)),
        }
    }
}

impl fmt::Display for FacesError {
    fn fmt(&self, f: &mut fmt::Formatter<'_>) -> fmt::Result {
        match self {
            Self::FewCorners(face) => {
                write!(f, "face {face} of the list has fewer than three corners")
            }
            Self::TooManyCorners => write!(f, "there are more than 2^31 corners"),
            Self::NoVertex(face, corner) => {
                write!(
                    f,
                    "face {face} of the list has corner {corner}, and there is no such vertex"
                )
            }
            Self::OneEnd(face, corner) => {
                write!(
                    f,
                    "face {face} of the list has corner {corner} twice in a row"
                )
            }
            Self::SideTwice(first, second, from, to) => write!(
                f,
                "faces {first} and {second} of the list both have the side from {from} to {to}"
            ),
            Self::BorderTwice(vertex) => {
                write!(f, "two sides without a neighbor end at vertex {vertex}")
            }
            Self::Links(LinksFault::UnusedFace(0)) => write!(
                f,
                "no side is left for the outer face: of a closed surface, leave one face out"
            ),
            Self::Links(fault) => write!(f, "no mesh has these faces: {fault}"),
            Self::OutOfMemory => write!(f, "there was no memory"),
        }
    }
}

impl Error for FacesError {}
