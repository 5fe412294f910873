// uses: dsr_desk
#![tactic(auto)]

use dsr_desk::{Signature, Statement};

pub fn move_to(signature: &mut Signature, statement: Statement) {
    signature.statement = statement; //~ private-field
}
