// uses: dsr_desk dsr_names
#![tactic(auto)]

use dsr_desk::Key;
use dsr_names::Actor;

pub fn forged(actor: Actor) -> Key {
    Key::from(actor) //~ mismatched-types
}
