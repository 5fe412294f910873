// uses: dsr_desk
#![tactic(auto)]

use dsr_desk::Keys;
use std::alloc::AllocError;

pub fn cloned(keys: &Keys) -> Result<Keys, AllocError> {
    keys.clone() //~ unsupported-method
}
