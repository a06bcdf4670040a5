//! `compare OLD NEW`: a least site that old allows and new forbids, or that there is none.

mod all;
mod all_report;
mod report;
mod search;
mod site_file;

use std::ffi::OsStr;
use std::path::Path;
use std::time::Duration;

use crate::bound::bound_of;
use crate::disk::{load, Loaded};
use crate::out_file::OutFile;
use crate::outcome::Outcome;
use crate::progress::Aim;
use crate::proved::{self, Witness};
use crate::trouble::Trouble;

use report::Compared;
use search::{Found, Watch};

/// What a comparison is asked for.
pub struct Options<'a> {
    pub bound: Option<&'a OsStr>,
    pub out: Option<&'a Path>,
    pub all: bool,
    pub timeout: Option<Duration>,
}

/// Compares, and writes the witness where a file for it is named.
pub fn run(old: &Path, new: &Path, options: &Options) -> Result<Outcome, Trouble> {
    let bound = bound_of(options.bound)?;
    let out = options.out.map(|path| OutFile::ready(path, &[old, new]));
    let out = out.transpose()?;
    let watch = Watch::start(options.timeout);
    let (old, new) = (load(old)?, load(new)?);
    let found = watch.search(Aim::Difference, &old, &new, bound)?;
    let compared = Compared {
        old: &old,
        new: &new,
        bound,
        smallest: smallest_site(&watch, &old, &found, bound)?,
    };
    let mut outcome = match &found {
        Found::NoDifference => compared.no_difference(),
        Found::Difference(witness) if options.all => {
            all_report::differences(&compared, &all::all(&compared, &watch, witness.clone())?)?
        }
        Found::Difference(witness) => compared.difference(witness)?,
        Found::NotSettled(settled) => compared.not_settled(*settled),
    };
    match (&out, &found) {
        (Some(out), Found::Difference(site)) => site_file::write(out, &site.file, &mut outcome),
        (Some(out), _) => site_file::leave(out, &mut outcome),
        (None, _) => (),
    }
    Ok(outcome)
}

/// What is known of the sites that old allows within the bound.
#[derive(Clone, Copy, Debug, PartialEq, Eq)]
pub enum Smallest {
    /// The least number of objects of a site.
    Objects(u8),
    /// There is none within the bound.
    NoSite,
    /// Not known in time.
    Unknown,
}

/// The size of old's smallest site: no site is legal for `proved::no_site`, so that a difference
/// from old to it is a smallest site of old.
fn smallest_site(
    watch: &Watch,
    old: &Loaded,
    found: &Found,
    bound: u8,
) -> Result<Smallest, Trouble> {
    let (below, otherwise) = match found {
        Found::NotSettled(_) => return Ok(Smallest::Unknown),
        Found::NoDifference => (Some(bound), Smallest::NoSite),
        Found::Difference(witness) => {
            let objects = witness.objects;
            (objects.checked_sub(1), Smallest::Objects(objects))
        }
    };
    let Some(below) = below else {
        return Ok(otherwise);
    };
    let nothing = proved::no_site(&proved::diagram_of(old)?);
    Ok(match watch.search(Aim::SiteOfOld, old, &nothing, below)? {
        Found::Difference(Witness { objects, .. }) => Smallest::Objects(objects),
        Found::NoDifference => otherwise,
        Found::NotSettled(_) => Smallest::Unknown,
    })
}
