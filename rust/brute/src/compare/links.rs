//! Links: for each group of roles, every set of links over every object.

use super::{Budget, Draft, TooLarge, Views};
use crate::diagram::{Association, Side};
use crate::objects::Objects;
use crate::record::Link;
use crate::rules::links::{
    carried_sides, counted_sides, has_link, mirrors, row_fits, rule_5, source_count, sources_fit,
    targets_fit,
};
use crate::rules::wholes::rule_9;
use crate::Name;

/// Chooses the links of each group; false where old allows no choice in some.
pub fn choose(
    views: &Views,
    groups: &[Vec<Name>],
    budget: &mut Budget,
    draft: &mut Draft,
) -> Result<bool, TooLarge> {
    for roles in groups {
        let mut group = Group {
            views,
            roles,
            rows: rows(views.old, roles, budget)?,
            forbidden: draft.forbidden,
            chosen: None,
        };
        group.choose_rows(0, &mut Vec::new(), budget)?;
        let Some(links) = group.chosen else {
            return Ok(false);
        };
        draft.forbidden = group.forbidden;
        draft.record.links.extend(links);
    }
    Ok(true)
}

/// All links of one object for one role, and the sets of them that may stand.
struct Row {
    role: Name,
    from: usize,
    options: Vec<Vec<Link>>,
}

/// The rows of a group, role by role. Every set of targets is tried; rules 5 and 6 look at one
/// row at a time, so that a row which breaks them is turned away whatever the other rows hold.
fn rows(old: &Objects, roles: &[Name], budget: &mut Budget) -> Result<Vec<Row>, TooLarge> {
    let mut rows = Vec::new();
    for role in roles {
        for from in old.all() {
            let mut options = Vec::new();
            for set in 0..1u32 << old.all().len() {
                budget.spend()?;
                let links = links_to(set, from, role, old);
                if row_allowed(old, &links, role, from) {
                    options.push(links);
                }
            }
            let role = role.clone();
            rows.push(Row {
                role,
                from,
                options,
            });
        }
    }
    Ok(rows)
}

/// The links of one object for one role to the targets whose bits are set.
fn links_to(set: u32, from: usize, role: &Name, objects: &Objects) -> Vec<Link> {
    let targets = objects.all().filter(|to| set >> to & 1 == 1);
    let link = |to| Link {
        from,
        role: role.clone(),
        to,
    };
    targets.map(link).collect()
}

/// Rules 5 and 6 for the links of one object and one role.
fn row_allowed(objects: &Objects, links: &[Link], role: &Name, from: usize) -> bool {
    let mut sides = carried_sides(objects.diagram).filter(|(a, side)| {
        a.target(*side).role == *role && objects.is_instance(from, &a.source(*side).type_name)
    });
    rule_5(objects, links)
        && sides.all(|(a, side)| row_fits(objects, links, a, side, a.target(side).limits, from))
}

/// The search through the rows of one group.
struct Group<'g, 'a> {
    views: &'g Views<'g, 'a>,
    roles: &'g [Name],
    rows: Vec<Row>,
    /// Whether the record is forbidden by new, with what is chosen so far.
    forbidden: bool,
    chosen: Option<Vec<Link>>,
}

impl Group<'_, '_> {
    /// Tries every option of the rows from `depth` on; true once nothing better can come.
    fn choose_rows(
        &mut self,
        depth: usize,
        links: &mut Vec<Link>,
        budget: &mut Budget,
    ) -> Result<bool, TooLarge> {
        if depth == self.rows.len() {
            return Ok(self.judge_full(links));
        }
        for option in 0..self.rows[depth].options.len() {
            budget.spend()?;
            let before = links.len();
            links.extend_from_slice(&self.rows[depth].options[option]);
            let ended = !self.beyond_mending(depth + 1, links)
                && self.choose_rows(depth + 1, links, budget)?;
            links.truncate(before);
            if ended {
                return Ok(true);
            }
        }
        Ok(false)
    }

    /// Keeps a full choice that old allows, the first one or one that new forbids.
    fn judge_full(&mut self, links: &[Link]) -> bool {
        if !self.allowed(self.views.old, links) {
            return false;
        }
        let forbidden = !self.allowed(self.views.new, links);
        if self.chosen.is_none() || forbidden {
            self.chosen = Some(links.to_vec());
            self.forbidden |= forbidden;
        }
        self.forbidden
    }

    /// Rules 5 to 9 as far as they look at the group's roles.
    fn allowed(&self, objects: &Objects, links: &[Link]) -> bool {
        rule_5(objects, links)
            && self
                .sides(carried_sides(objects.diagram))
                .all(|(a, side)| targets_fit(objects, links, a, side, a.target(side).limits))
            && self
                .sides(counted_sides(objects.diagram))
                .all(|(a, side)| sources_fit(objects, links, a, side, a.source(side).limits))
            && self.mirrored(objects).all(|a| mirrors(objects, links, a))
            && rule_9(objects, links)
    }

    /// Those of the sides whose role is of the group.
    fn sides<'d>(
        &'d self,
        sides: impl Iterator<Item = (&'d Association, Side)> + 'd,
    ) -> impl Iterator<Item = (&'d Association, Side)> + 'd {
        sides.filter(|(a, side)| self.roles.contains(&a.target(*side).role))
    }

    /// The associations of rule 8 whose roles are of the group.
    fn mirrored<'d>(&'d self, objects: &Objects<'d>) -> impl Iterator<Item = &'d Association> + 'd {
        let associations = objects.diagram.associations.iter();
        associations.filter(|a| a.is_mirrored() && self.roles.contains(&a.right.role))
    }

    /// Rows up to `depth` that break a rule of old whatever the later rows hold: a target with
    /// too many sources keeps them, a part with two wholes keeps them, a role whose rows are all
    /// there gets no more sources, and two rows that are both there mirror each other or don't.
    fn beyond_mending(&self, depth: usize, links: &[Link]) -> bool {
        let old = self.views.old;
        let too_many = |(a, side): (&Association, Side)| {
            let mut targets = old.instances(&a.target(side).type_name);
            let limits = a.source(side).limits;
            targets.any(|t| limits.exceeded_by(source_count(old, links, a, side, t)))
        };
        let too_few = |(a, side): (&Association, Side)| {
            let complete = old
                .all()
                .all(|o| self.is_chosen(depth, &a.target(side).role, o));
            complete && !sources_fit(old, links, a, side, a.source(side).limits)
        };
        self.sides(counted_sides(old.diagram))
            .any(|s| too_many(s) || too_few(s))
            || self.mirrored(old).any(|a| self.unlike(depth, links, a))
            || !rule_9(old, links)
    }

    /// Tells whether two rows that are both chosen differ from rule 8.
    fn unlike(&self, depth: usize, links: &[Link], a: &Association) -> bool {
        let old = self.views.old;
        let (left, right) = (&a.left, &a.right);
        old.instances(&left.type_name).any(|o| {
            let mut parts = old.instances(&right.type_name);
            self.is_chosen(depth, &right.role, o)
                && parts.any(|p| {
                    self.is_chosen(depth, &left.role, p)
                        && has_link(links, o, &right.role, p) != has_link(links, p, &left.role, o)
                })
        })
    }

    /// Tells whether the row of a role and an object is among the first `depth`.
    fn is_chosen(&self, depth: usize, role: &Name, from: usize) -> bool {
        let mut chosen = self.rows[..depth].iter();
        chosen.any(|row| row.from == from && row.role == *role)
    }
}
