// uses: dsr_desk
#![tactic(auto)]

use dsr_desk::Key;
use std::alloc::AllocError;

pub fn cloned(key: &Key) -> Result<Key, AllocError> {
    key.clone() //~ unsupported-method
}
