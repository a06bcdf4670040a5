//! A second way to compare: "is there a site of so many objects that old allows and new forbids?"
//! as a formula of propositional logic, which Debian's `cadical` decides.
//!
//! A formula speaks of sites with a given number of objects (`site`). What a diagram's nine rules
//! ask of them is written once (`legal`); old's must hold, and of new's one must not.

mod cadical;
mod compare;
mod formula;
#[cfg(test)]
mod heads;
mod legal;
mod limits;
#[cfg(test)]
mod propagation;
mod question;
mod site;

pub use compare::{least_time, steps, Found, Step};
