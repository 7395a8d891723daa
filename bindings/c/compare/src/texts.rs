//! What statuses mean, as text, and the version.

use crate::compare::*;
use crate::numbers::Numbers;

#[test]
fn status_text() {
    let arguments = |numbers: &mut Numbers| {
        let status =
            if numbers.once_in(8) { numbers.pick(&[-1, 9, 10, i32::MIN, i32::MAX]) } else { numbers.below(9) as i32 };
        (status, numbers.pick(&[0, 1, 79, 80, 80, 80, 81, 200]))
    };
    compare!("nd_status_text", [OK, BAD_ARGUMENT], arguments, |(status, room)| {
        let (mut text, mut used) = (vec![0xa5; *room], UNWRITTEN);
        (nd_status_text(*status, &mut text, &mut used), (text, used))
    });
}

#[test]
fn version() {
    compare!("nd_version", [OK], |_| (), |()| {
        let (mut major, mut minor, mut patch) = (NO_ANSWER, NO_ANSWER, NO_ANSWER);
        (nd_version(&mut major, &mut minor, &mut patch), (major, minor, patch))
    });
}
