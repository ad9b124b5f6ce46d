//! The kinds of steps.

use crate::rejection::Rejection;

#[derive(Clone, Copy)]
pub enum Kind {
    Add,
    Adopt,
    Learn,
    Wedge,
    Install,
    Inherit,
    CatchUp,
}

impl Kind {
    pub fn of(number: u64) -> Result<Kind, Rejection> {
        match number {
            1 => Ok(Kind::Add),
            2 => Ok(Kind::Adopt),
            3 => Ok(Kind::Learn),
            4 => Ok(Kind::Wedge),
            5 => Ok(Kind::Install),
            6 => Ok(Kind::Inherit),
            7 => Ok(Kind::CatchUp),
            8..=31 => Err(Rejection::KindKept),
            _ => Err(Rejection::KindUnknown),
        }
    }

    /// How many of the four numbers the kind uses.
    pub fn used(self) -> usize {
        match self {
            Kind::Add | Kind::Adopt | Kind::Wedge => 3,
            Kind::Learn | Kind::Install | Kind::Inherit | Kind::CatchUp => 4,
        }
    }
}
