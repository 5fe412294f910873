// uses: dsr_desk
#![tactic(auto)]

use dsr_desk::Keys;

pub fn forget(keys: &mut Keys) {
    keys.replicas.clear(); //~ private-field
}
