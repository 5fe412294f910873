// uses: dsr_script dsr_desk dsr_names dsr_replica
#![tactic(auto)]

use dsr_script::Known;

pub fn replaced(known: &mut Known, other: Known) {
    known.seen = other.seen; //~ private-field
}
