// uses: dsr_desk
#![tactic(auto)]

use dsr_desk::Key;

pub fn copied(key: &Key) -> Key {
    *key //~ move-out-of-place
}
