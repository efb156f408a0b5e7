//! An object's last access: the turn's number and the dependence clock that
//! was recorded with it.

use super::VersionVec;

#[derive(Debug, Clone)]
pub(crate) struct Access {
    /// No answer shows the turn's number; the paper records it, so it is kept.
    #[allow(dead_code)]
    turn: usize,
    dependence: VersionVec,
}

impl Access {
    pub(super) fn set_or_create(access: &mut Option<Access>, turn: usize, version: &VersionVec) {
        *access = Some(Access { turn, dependence: *version });
    }

    pub(super) fn version(&self) -> &VersionVec {
        &self.dependence
    }
}
