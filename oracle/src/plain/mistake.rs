//! Fifteen deliberate mistakes, one at a time and off by default, that the comparison must find.

use std::sync::OnceLock;

#[derive(Clone, Copy, Debug, PartialEq, Eq)]
pub enum Mistake {
    /// 1. Shown rows put an unknown after the values.
    UnknownLast,
    /// 2. Redundancy does not ask for the same right side.
    RedundancyAcrossRights,
    /// 3. A constraint equal to a live one is answered as not new.
    DuplicateNotNew,
    /// 4. A negative takes back the kept positives that it covers.
    NegativeTakesBack,
    /// 5. Force clears the waiting samples too.
    ForceClearsWaiting,
    /// 6. Step 5 does not let the right wait again.
    RightWaitsOnce,
    /// 7. A sample covered by a kept one is not new.
    KeptAskedWhenWaiting,
    /// 8. Step 2 ends the add at a right covered by a kept negative.
    NegativeRightEndsTheAdd,
    /// 9. Kept samples that a newly kept one covers stay.
    CoveredStayKept,
    /// 10. Step 4 does not merge equal left samples when it counts them.
    EqualLeftCountTwice,
    /// 11. Step 4 does not ask whether the right is among the left.
    RightAmongLeftGoesLive,
    /// 12. The check asks for covering instead of overlapping.
    ClashByCovering,
    /// 13. A constraint loses one covered left sample in a draw, not all.
    OneIsLost,
    /// 14. A constraint stays although another's left lies strictly inside its own.
    LargerConstraintStays,
    /// 15. Constraints that a draw modified are not tested for redundancy.
    DrawsTestNothing,
}

use Mistake::*;

const ALL: [Mistake; 15] = [
    UnknownLast,
    RedundancyAcrossRights,
    DuplicateNotNew,
    NegativeTakesBack,
    ForceClearsWaiting,
    RightWaitsOnce,
    KeptAskedWhenWaiting,
    NegativeRightEndsTheAdd,
    CoveredStayKept,
    EqualLeftCountTwice,
    RightAmongLeftGoesLive,
    ClashByCovering,
    OneIsLost,
    LargerConstraintStays,
    DrawsTestNothing,
];

static CHOSEN: OnceLock<Option<Mistake>> = OnceLock::new();

/// Chooses the mistake that the environment's MISTAKE names by number, if any.
/// Only the plain script program calls this: the comparison's own reading makes none.
pub fn choose_from_environment() {
    let number = std::env::var("MISTAKE").ok().and_then(|text| text.parse::<usize>().ok());
    let chosen = number.and_then(|number| ALL.get(number.wrapping_sub(1)).copied());
    CHOSEN.set(chosen).expect("chosen once")
}

/// True if this mistake is to be made.
pub fn is(mistake: Mistake) -> bool {
    CHOSEN.get() == Some(&Some(mistake))
}
