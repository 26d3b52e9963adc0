//! A stand-in that carries data.
#[derive(Debug, Clone, Copy, PartialEq, Eq, Hash)]
pub enum MessageType {
    Icp,
    Rot,
    Ixn,
    Dip,
    Drt,
    Vcp,
    Vrt,
    Iss,
    Rev,
    Bis,
    Brv,
}
