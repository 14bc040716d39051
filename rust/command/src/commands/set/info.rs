//! `info` of a bare set: what its labels say.

use cuzhaveli_images::fault::Fault;
use cuzhaveli_images::layout::label::hex;
use cuzhaveli_images::names::{bytes, disk_names};
use cuzhaveli_images::read::set::Set;

use crate::cli::args::Given;
use crate::print::json::Object;
use crate::print::say;

pub fn run(given: &Given) -> Result<(), Fault> {
    let set = Set::open(given.path(0), &[])?;
    say::notes(&set);
    say::told(given, object(&set), text(&set))?;
    match set.lost().is_empty() {
        true => Ok(()),
        false => Err(Fault::No(String::new())),
    }
}

fn object(set: &Set) -> Object {
    let geometry = set.label.geometry;
    Object(vec![
        ("set", (&*hex(&set.label.set)).into()),
        ("width", geometry.shape.width().into()),
        ("disks", geometry.shape.disks().into()),
        ("cell", geometry.shape.cell_size().into()),
        ("unit", geometry.unit.into()),
        ("group", geometry.group.into()),
        ("stripes", geometry.stripes.into()),
        ("length", geometry.length.into()),
        ("bytes", geometry.image_bytes().into()),
        ("lost", (&*set.lost()).into()),
    ])
}

fn text(set: &Set) -> String {
    let (geometry, lost) = (set.label.geometry, set.lost());
    let shape = geometry.shape;
    let lost = match lost.is_empty() {
        true => say::good("none"),
        false => say::bad(&disk_names(shape, &lost)),
    };
    let (disks, width, cell) = (shape.disks(), shape.width(), bytes(shape.cell_size() as u64));
    let (film, image) = (geometry.length, geometry.image_bytes());
    [
        format!("Set      {}", hex(&set.label.set)),
        format!("Film     {} ({film})", bytes(film)),
        format!("Disks    {disks} with film, P and Q; width {width}"),
        format!("Images   {} ({image}) each", bytes(image)),
        format!(
            "Stripes  {}, {} a unit, {} a group",
            geometry.stripes, geometry.unit, geometry.group
        ),
        format!("Cells    {cell}"),
        format!("Lost     {lost}"),
    ]
    .join("\n")
}
