//! Drill sheets and their listings.

use super::{filled, names};
use crate::check::{stop, Run, Seen, FILLER};
use cendrulas::{listing_room, Listing, WORK_AREA};
use std::path::Path;

const SHEET: &str = ".in";
const LISTING: &str = ".out";

pub fn sheets(run: &mut Run, folder: &Path) {
    let held = names(folder);
    for name in &held {
        let path = folder.join(name);
        if path.is_dir() {
            stop(&path.display(), &"this program has no test for it");
        } else if let Some(stem) = name.strip_suffix(SHEET) {
            let listing = format!("{stem}{LISTING}");
            beside(&path, &held, &listing);
            sheet(run, &path, &folder.join(listing));
        } else if let Some(stem) = name.strip_suffix(LISTING) {
            beside(&path, &held, &format!("{stem}{SHEET}"));
        }
    }
}

/// A sheet without its listing says nothing, and a listing without its sheet neither.
fn beside(path: &Path, held: &[String], other: &str) {
    if !held.iter().any(|name| name == other) {
        stop(&path.display(), &format!("there is no {other} beside it"));
    }
}

fn sheet(run: &mut Run, path: &Path, due: &Path) {
    let [sheet, listing] = [path, due].map(|path| std::fs::read(path).unwrap_or_else(|e| stop(&path.display(), &e)));
    let mut out = vec![FILLER; listing_room(&sheet) + 7];
    let mut work = vec![FILLER; WORK_AREA];
    let got = cendrulas::drill(&sheet, &mut out, &mut work);
    let left = filled(&listing, out.len());
    let want = Listing { refusal: 0, count: listing.len() };
    run.same(
        || path.display().to_string(),
        Seen { answer: got, buffers: &[&out, &work] },
        Seen { answer: want, buffers: &[&left, &vec![0; WORK_AREA]] },
    );
}
