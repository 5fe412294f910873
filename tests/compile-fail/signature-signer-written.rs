// uses: dsr_desk dsr_names
#![tactic(auto)]

use dsr_desk::Signature;
use dsr_names::Actor;

pub fn sign_for(signature: &mut Signature, actor: Actor) {
    signature.signer = actor; //~ private-field
}
