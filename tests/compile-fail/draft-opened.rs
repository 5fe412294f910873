// uses: dsr_script dsr_desk dsr_names dsr_replica
#![tactic(auto)]

use dsr_script::Draft;

pub fn opened(draft: Draft) {
    let plan = draft.plan; //~ private-field
    drop(plan);
}
