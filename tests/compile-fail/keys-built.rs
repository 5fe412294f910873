// uses: dsr_desk dsr_names
#![tactic(auto)]

use dsr_desk::Keys;
use dsr_names::Shape;

pub fn again(shape: Shape, replicas: Vec<bool>, clients: Vec<bool>) -> Keys {
    Keys { shape, replicas, clients } //~ private-field
}
