// uses: dsr_desk dsr_names
#![tactic(auto)]

use dsr_desk::Key;
use dsr_names::Actor;

pub fn hand_over(key: &mut Key, actor: Actor) {
    key.holder = actor; //~ private-field
}
