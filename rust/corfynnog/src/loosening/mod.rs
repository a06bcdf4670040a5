//! How a diagram is loosened where it forbids a site that another one allows: changes of its lines,
//! by the rule that is broken.
//!
//! Nothing here decides whether a change does what it is for. It may even forbid another site, as an
//! attribute does that every type below asks for too; whoever makes a change looks.

mod ancestors;
mod as_in_old;
mod attributes;
mod change;
mod draft;
mod ends;

mod limits;
mod line_changes;
mod lines;
mod mirrors;
mod offers;
mod order;
mod types;
mod value_types;
mod wanted;
mod wholes;

#[cfg(test)]
pub use change::keys;
pub use draft::{file_of, Draft, Made, Stuck};
#[cfg(test)]
pub use line_changes::Line;
pub use line_changes::{net, sentences, LineChange};

use crate::counterparts::Seen;
use change::Changed;
use offers::Offers;

/// What the diagram that a breach is of may become, so that the breach may be gone: by the gentlest
/// change first, by those that make it as old is at the end.
fn loosened(seen: &Seen) -> Vec<Changed> {
    let mut offers = Offers::of(seen.new);
    match seen.breach.rule {
        1 => types::allow_type(seen, &mut offers),
        2 => types::allow_any_number(seen, &mut offers),
        3 => attributes::declare_as_needed(seen, &mut offers),
        4 => attributes::allow_value(seen, &mut offers),
        5 => ends::carry_link(seen, &mut offers),
        6 if seen.breach.objects.len() > 1 => ends::allow_target(seen, &mut offers),
        6 | 7 => limits::open_limits(seen, &mut offers),
        8 => mirrors::take_mirror_away(seen, &mut offers),
        _ => wholes::make_associations(seen, &mut offers),
    }
    as_in_old::make_as_in_old(seen, &mut offers);
    offers.found()
}
