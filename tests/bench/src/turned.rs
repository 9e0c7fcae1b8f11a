//! The same case, of a table that is firm where its own is not and not where it is.
//! Where the two are answered alike, firm does not matter.

use second::case::Case;

/// Of a call that may execute events; of any other firm never matters.
pub fn turned(case: &Case) -> Option<Case> {
    let mut turned = case.clone();
    match &mut turned {
        Case::Happen { pair, .. }
        | Case::GuardedTick { pair }
        | Case::Sleep { pair, .. }
        | Case::Remedies { pair, .. }
        | Case::Run { pair, .. }
        | Case::RunBytes { pair, .. } => pair.table.firm = !pair.table.firm,
        _ => return None,
    }
    Some(turned)
}
