// uses: dsr_desk
#![tactic(auto)]

use dsr_desk::{Links, Signers};

pub fn signed_by(links: &mut Links, signers: Signers) {
    links.signers = signers; //~ private-field
}
