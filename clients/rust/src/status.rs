use crate::sys;

/// What a store tells of itself. `used` and `capacity` are bytes of one half of its file.
#[derive(Clone, Copy, Debug, PartialEq, Eq)]
#[non_exhaustive]
pub struct Status {
    /// Whether the disk has failed since the opening.
    pub broken: bool,
    /// Which half is in force, 0 or 1.
    pub half: u8,
    /// How many bytes one half has room for.
    pub capacity: u64,
    /// How many documents there are.
    pub documents: u64,
    /// How often the file was opened, this time included.
    pub opens: u64,
    /// The sectors of the file, of 512 bytes.
    pub sectors: u64,
    /// How many changes were accepted.
    pub seq: u64,
    /// How many bytes of the half in force are taken.
    pub used: u64,
    /// In format 3 the identity, which no other store has.
    pub identity: Option<u128>,
}

impl From<sys::State> for Status {
    fn from(found: sys::State) -> Status {
        Status {
            broken: found.broken != 0,
            half: u8::from(found.half != 0),
            capacity: found.capacity,
            documents: found.documents,
            opens: found.opens,
            sectors: found.sectors,
            seq: found.seq,
            used: found.used,
            identity: identity_of(&found.id),
        }
    }
}

/// The identity that these hexadecimal digits spell; zeros, of format 2, spell none.
fn identity_of(digits: &[u8; 32]) -> Option<u128> {
    u128::from_str_radix(std::str::from_utf8(digits).ok()?, 16).ok()
}

/// What a step of a copied snapshot left.
#[derive(Clone, Copy, Debug, PartialEq, Eq)]
#[non_exhaustive]
pub enum Step {
    /// Sectors are left to copy.
    Running,
    /// The copy is in force.
    Switched,
    /// The copy is longer than a half, and was given up.
    Dropped,
}

impl Step {
    /// What an `enum jpstore_step` says.
    pub(crate) fn of(number: i32) -> Option<Step> {
        match number {
            1 => Some(Step::Running),
            2 => Some(Step::Switched),
            3 => Some(Step::Dropped),
            _ => None,
        }
    }
}
