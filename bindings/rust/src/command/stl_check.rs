//! `sirveshan stl --check`: what an STL file holds, in a few lines. The counts are run, not proved.

use crate::failure::Failure;
use crate::figures::box_of;
use crate::input::Input;
use crate::output;
use crate::summary::box_line;
use sirveshan::{Facet, Stl};
use std::ffi::OsStr;

pub fn check(path: &OsStr) -> Result<(), Failure> {
    let bytes = Input::open(path)?.whole()?;
    let mut stl = Stl::new();
    let facets = stl.read(&bytes).map_err(Failure::Refused)?;
    output::put(text(facets).as_bytes())
}

fn text(facets: &[Facet]) -> String {
    let corners = facets.iter().flatten().copied();
    let finite = corners.filter(|corner| corner.iter().all(|number| number.is_finite()));
    let degenerate = facets.iter().filter(|&facet| is_degenerate(facet)).count();
    let not_finite =
        facets.iter().filter(|facet| !facet.as_flattened().iter().all(|k| k.is_finite()));
    format!(
        "triangles {}\n{}degenerate {degenerate}\nnot-finite {}\n",
        facets.len(),
        box_line(box_of(finite)),
        not_finite.count(),
    )
}

/// Whether two corners stand at one place.
fn is_degenerate([a, b, c]: &Facet) -> bool {
    a == b || b == c || c == a
}
