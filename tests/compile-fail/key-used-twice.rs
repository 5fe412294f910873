// uses: dsr_desk
#![tactic(auto)]

use dsr_desk::Key;

pub fn both(key: Key) -> (Key, Key) {
    (key, key) //~ borrow-e0382
}
