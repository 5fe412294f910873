// uses: dsr_desk
#![tactic(auto)]

use dsr_desk::Key;

pub fn made() -> Key {
    Default::default() //~ unsatisfied-bound
}
