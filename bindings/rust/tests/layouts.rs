//! The header and this crate declare the same interface: one version, and structs of one size with their fields at one
//! place. What C says is printed by a program that is made of the same lists as what Rust says.

mod compiled;

use std::mem::{offset_of, size_of};
use std::path::Path;
use turgamysk::entries::{
    AmountAnswer, CovenantAnswer, FlatStop, ItemAnswer, LinksAnswer, NumberAnswer, OutpointAnswer,
    OwnerAnswer, PlaceAnswer, RunAnswer, SheetAnswer, SpanAnswer, StateAnswer, StepAnswer,
    ViewAnswer, WriteAnswer,
};
use turgamysk::{NameState, Outpoint, VERSION, version};

/// A struct: its name in C, its size here, and its fields with their offsets here.
struct Layout {
    name: &'static str,
    size: usize,
    fields: Vec<(&'static str, usize)>,
}

/// The layouts of structs, each with the name in C, the name here and all of its fields in order; `field of part` is
/// one that stands in a part here and by itself in C.
macro_rules! layouts {
    ($($name:ident = $kind:ident { $($field:ident $(of $part:ident)?),* };)*) => {
        [$(Layout {
            name: stringify!($name),
            size: size_of::<$kind>(),
            fields: vec![$((stringify!($field), offset_of!($kind, $($part.)? $field))),*],
        }),*]
    };
}

fn answers_that_read() -> [Layout; 10] {
    layouts! {
        turgamysk_covenant_answer = CovenantAnswer { stop, kind, count, used };
        turgamysk_state_answer = StateAnswer { stop, state };
        turgamysk_outpoint_answer = OutpointAnswer { stop, outpoint };
        turgamysk_sheet_answer = SheetAnswer { stop, side, inputs, outputs };
        turgamysk_place_answer = PlaceAnswer { stop, value, version, start, size, covenant, kind };
        turgamysk_step_answer = StepAnswer { stop, ended, kind, count, used, covenants };
        turgamysk_run_answer = RunAnswer { stop, covenants };
        turgamysk_links_answer = LinksAnswer {
            stop, side, inputs_checked, linked_outputs, name_inputs, expected, actual
        };
        turgamysk_number_answer = NumberAnswer { stop, value };
        turgamysk_span_answer = SpanAnswer { stop, start, length };
    }
}

fn other_structs() -> [Layout; 8] {
    layouts! {
        turgamysk_stop = FlatStop { number, first, second, third, position };
        turgamysk_write_answer = WriteAnswer {
            number of verdict, first of verdict, second of verdict, third of verdict, written
        };
        turgamysk_outpoint = Outpoint { transaction_hash, index };
        turgamysk_name_state = NameState {
            name_hash, name, name_length, resource_data, resource_length, height, renewal, owner, value, highest, transfer, revoked, claimed,
            renewals, registered, expired, weak
        };
        turgamysk_owner_answer = OwnerAnswer { held, outpoint };
        turgamysk_amount_answer = AmountAnswer { outcome, value };
        turgamysk_view_answer = ViewAnswer { exists, offset, length };
        turgamysk_item_answer = ItemAnswer { exists, value };
    }
}

/// The program that prints the version and the layouts as C has them, a line each.
fn program(layouts: &[Layout]) -> String {
    let mut lines = vec![
        "#include \"turgamysk.h\"".to_string(),
        "#include \"turgamysk_wire.h\"".to_string(),
        "#include <stdio.h>".to_string(),
        "int main(void) {".to_string(),
        "printf(\"version %d\\n\", TURGAMYSK_VERSION);".to_string(),
    ];
    for Layout { name, fields, .. } in layouts {
        lines.push(format!("printf(\"{name} %zu\\n\", sizeof({name}));"));
        lines.extend(fields.iter().map(|(field, _)| {
            format!("printf(\"{name}.{field} %zu\\n\", offsetof({name}, {field}));")
        }));
    }
    lines.push("return 0; }\n".to_string());
    lines.join("\n")
}

/// What that program must print.
fn expected(layouts: &[Layout]) -> Vec<String> {
    let mut lines = vec![format!("version {VERSION}")];
    for Layout { name, size, fields } in layouts {
        lines.push(format!("{name} {size}"));
        let offsets = fields.iter();
        lines.extend(offsets.map(|(field, offset)| format!("{name}.{field} {offset}")));
    }
    lines
}

#[test]
fn the_header_has_the_same_version_and_layouts() {
    let layouts: Vec<Layout> = answers_that_read()
        .into_iter()
        .chain(other_structs())
        .collect();
    let source = Path::new(env!("CARGO_TARGET_TMPDIR")).join("layouts.c");
    std::fs::write(&source, program(&layouts)).expect("it can be written");
    let printed = compiled::printed_by(&source);
    let expected = expected(&layouts);
    assert_eq!(printed.lines().count(), expected.len());
    for (in_c, here) in printed.lines().zip(expected) {
        assert_eq!(in_c, here);
    }
}

#[test]
fn every_struct_of_the_header_is_compared() {
    let header = concat!(
        include_str!("../../c/turgamysk.h"),
        include_str!("../../c/turgamysk_wire.h")
    );
    let mut declared: Vec<&str> = header
        .lines()
        .filter_map(|line| line.strip_prefix("} ")?.strip_suffix(';'))
        .collect();
    let mut compared: Vec<&str> = answers_that_read()
        .iter()
        .chain(&other_structs())
        .map(|layout| layout.name)
        .collect();
    declared.sort_unstable();
    compared.sort_unstable();
    assert_eq!(declared, compared);
}

#[test]
fn an_answer_that_reads_begins_with_its_stop() {
    for Layout { name, fields, .. } in answers_that_read() {
        assert_eq!(fields[0], ("stop", 0), "{name}");
    }
}

#[test]
fn the_archive_has_the_version_of_this_crate() {
    assert_eq!(version(), VERSION);
}
