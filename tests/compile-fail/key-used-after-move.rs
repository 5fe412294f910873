// uses: dsr_desk
#![tactic(auto)]

use dsr_desk::{Key, Signature, Statement};

pub fn sign_twice(key: Key, statement: Statement) -> (Signature, Key) {
    let signature = key.sign(statement);
    drop(key);
    (signature, key) //~ borrow-e0382
}
