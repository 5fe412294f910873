// uses: dsr_script dsr_desk dsr_names
#![tactic(auto)]

use dsr_desk::{Signature, Statement};
use dsr_names::Actor;
use dsr_script::Draft;

pub fn signed(draft: &Draft, signer: Actor, statement: Statement) -> Option<Signature> {
    if !draft.is_plain() {
        return None;
    }
    Some(Signature { signer, statement }) //~ private-field
}
