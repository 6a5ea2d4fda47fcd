//! Times the library's public calls beside its peers, in one process (README.md beside this folder).

mod alike;
mod choosing;
mod demands;
mod drawers;
mod drawing;
mod editing;
mod library;
mod linked;
mod peers;
mod previewing;
mod race;
mod records;
mod shape;
mod spans;
mod table;

use alike::Rounded;
use demands::Times;
use std::process::ExitCode;

/// Everything that will be timed is first seen to be right.
fn check(wild: &[i32], table_top: &[i32]) -> Rounded {
    editing::check(wild);
    previewing::check(wild);
    choosing::check(table_top);
    alike::check(
        &[drawing::every_basis(), drawing::every_size()].concat(),
        wild,
    )
}

fn print_heading(rounded: &Rounded) {
    println!(
        "# Quorilanth beside its peers\n\n\
        Seen before any time was taken: all ways draw the same points, and the peers the same curves; edits, previews and chosen points are right. \
        Kurbo's points, rounded, differ from the library's in {} of {} coordinates.",
        rounded.different, rounded.coordinates
    );
}

fn main() -> ExitCode {
    let (wild, table_top) = (records::wild(), records::table_top());
    print_heading(&check(&wild, &table_top));
    let times = Times {
        bases: drawing::time_bases(&wild),
        sizes: drawing::time_sizes(&wild),
        edits: editing::time(&wild),
        previews: previewing::time(&wild),
    };
    drawing::print_bases(&times.bases);
    drawing::print_sizes(&times.sizes);
    editing::print(&times.edits);
    previewing::print(&times.previews);
    choosing::print(&choosing::time(&table_top));
    if demands::print(&times) {
        ExitCode::SUCCESS
    } else {
        ExitCode::FAILURE
    }
}
