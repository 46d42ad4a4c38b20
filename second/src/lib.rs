//! An independent second reader and writer of EA IFF 85 chunk trees and
//! FORM ILBM pictures, with a generator of files to compare readers on.
//!
//! ```
//! let file = b"FORM\0\0\0\x04ILBM";
//! let accepted = second::check(file).unwrap();
//! assert_eq!((accepted.chunks, accepted.end, accepted.trailing), (1, 12, 0));
//! assert_eq!(second::properties(file, 0).unwrap_err().number, 21);
//! ```

pub mod additions;
mod answer;
mod colour;
mod copy;
mod damage;
mod fields;
pub mod generate;
mod generate_picture;
mod inputs;
mod listing;
mod name;
mod node;
mod pack;
mod picture;
mod picture_table;
pub mod random;
mod rows;
mod shape;
mod tree;
mod write;

pub use answer::{Accepted, Refused};
pub use colour::{body_colour_frame, body_colour_line, colour_frame, colour_line, palette_triples, triples};
pub use colour::{Colouring, Rgb};
pub use copy::clean_copy;
pub use fields::{header_fields, Destination, Grab, Header, Layout};
pub use listing::{count_pictures, data, fill_table, listing_text, record, records, Record};
pub use name::Name;
pub use pack::{pack, LONGEST_ROW};
pub use picture::{
    header_faults, palette, properties, surroundings, Origin, Properties, Property, Surroundings,
};
pub use picture_table::{fill_pictures, picture_rows, PictureRow};
pub use rows::{body_frame, body_line, frame, scan_line, Frame, ScanLine};
pub use shape::{body_shape_frame, body_shape_line, shape_frame, shape_line, Lent, Shaped};
pub use tree::{check, Chunk, Kind, Tree, LONGEST_FILE};
pub use write::{write_picture, Fields};
