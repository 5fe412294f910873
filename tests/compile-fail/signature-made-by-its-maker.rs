// uses: dsr_desk dsr_names
#![tactic(auto)]

use dsr_desk::{Signature, Statement};
use dsr_names::Actor;

pub fn forged(signer: Actor, statement: Statement) -> Signature {
    Signature::by(signer, statement) //~ private-item or unknown-method
}
