//! The tables of the structs, written by hand.

use shpendorak::raw::{self, CLASS_PLACES, CLASSES, KEPT, MOST_OPS, QUERIES, SLOTS};

/// Where a field starts in its struct, and how many bytes it has.
#[derive(Clone, Copy)]
pub struct Field {
    pub at: usize,
    pub bytes: usize,
}

impl Field {
    /// The same field in a struct that starts at a byte.
    pub fn from(self, start: usize) -> Field {
        Field { at: start + self.at, ..self }
    }

    /// One of the equal parts of a field that is an array.
    pub fn part(self, place: usize, parts: usize) -> Field {
        let bytes = self.bytes / parts;
        Field { at: self.at + place * bytes, bytes }
    }
}

/// The bytes of a field that is reached by a function.
fn bytes_of<Whole, Part>(_: fn(&Whole) -> &Part) -> usize {
    size_of::<Part>()
}

/// The table of a struct: its bytes, each field's first byte and number of bytes; and a test that
/// Rust lays the struct out so.
macro_rules! table {
    ($name:ident, $whole:ident, $size:literal, $($field:ident $at:literal $bytes:literal,)*) => {
        pub mod $name {
            use super::{Field, bytes_of, raw::$whole};
            use std::mem::offset_of;

            pub const SIZE: usize = $size;

            $(pub fn $field() -> Field {
                Field { at: $at, bytes: $bytes }
            })*

            pub fn all() -> Vec<Field> {
                vec![$($field()),*]
            }

            #[test]
            fn is_as_rust_has_it() {
                assert_eq!(size_of::<$whole>(), SIZE);
                $(
                    assert_eq!(offset_of!($whole, $field), $at, stringify!($field));
                    assert_eq!(bytes_of(|whole: &$whole| &whole.$field), $bytes);
                )*
            }
        }
    };
}

table!(op, Op, 8, code 0 1, cell 1 1, second 2 1, amount 4 4,);
table!(
    slot, Slot, 80,
    id 0 4, class 4 1, count 5 1, ops 8 56, number 64 4, done 68 1, mark 69 1, backs 72 8,
);
table!(query, Query, 8, classes 0 2, begun 4 4,);
table!(
    site, Site, 13_584,
    slots 0 10_240, queue 10_240 2_176, lens 12_416 16, low 12_432 8, high 12_440 8,
    confirmations 12_448 4, commits 12_452 4, kept 12_456 1_024, queries 13_480 64,
    begun 13_544 4, sums 13_548 32,
);

/// Where a slot's struct starts.
pub fn start_of(slot: usize) -> usize {
    site::slots().part(slot, SLOTS).at
}

/// A queue place of a class.
pub fn place(class: usize, place: usize) -> Field {
    site::queue().part(class * CLASS_PLACES + place, CLASSES * CLASS_PLACES)
}

/// The place of the id that is kept under a number.
pub fn kept(number: u32) -> Field {
    site::kept().part(number as usize % KEPT, KEPT)
}

/// The bytes in which the query at a place, from 1, starts.
pub fn start_of_query(place: usize) -> usize {
    site::queries().part(place - 1, QUERIES).at
}

/// The length of a class's queue.
pub fn len(class: usize) -> Field {
    site::lens().part(class, CLASSES)
}

/// What is still to do by the confirmed part of a class's queue.
pub fn sum(class: usize) -> Field {
    site::sums().part(class, CLASSES)
}

/// Every field that is no struct: of the operations, the slots, the queries and the site.
pub fn every_field() -> Vec<Field> {
    let structs = [site::slots().at, site::queries().at];
    let own = site::all().into_iter().filter(|field| !structs.contains(&field.at));
    let slots = (0..SLOTS).flat_map(|slot| fields_of_slot(start_of(slot)));
    let queries = (1..=QUERIES).flat_map(|place| {
        query::all().into_iter().map(move |field| field.from(start_of_query(place)))
    });
    own.chain(slots).chain(queries).collect()
}

/// The fields of a slot that starts at a byte, with those of its operations.
fn fields_of_slot(start: usize) -> Vec<Field> {
    let own = slot::all().into_iter().filter(|field| field.at != slot::ops().at);
    let ops = (0..MOST_OPS).flat_map(|op| {
        let start_of_op = slot::ops().part(op, MOST_OPS).at;
        op::all().into_iter().map(move |field| field.from(start_of_op))
    });
    own.chain(ops).map(|field| field.from(start)).collect()
}
