//! The chunk trees and FORM ILBM pictures of EA IFF 85, read and written by a proved library.
//!
//! Every function takes any bytes and ends. It answers, or refuses with a
//! number and a place; a refusal changes no buffer.
//!
//! ```
//! let file = b"FORM\0\0\0\x04ILBM";
//! let accepted = florinhado::check(file)?;
//! assert_eq!((accepted.chunks, accepted.end, accepted.trailing), (1, 12, 0));
//!
//! let refused = florinhado::check(&file[..11]).unwrap_err();
//! assert_eq!((refused.number, refused.place), (7, 0));
//! println!("{refused}");
//! # Ok::<(), florinhado::Refused>(())
//! ```
//!
//! A [`File`] is checked once and then gives its pictures, their properties and
//! their scan lines; the functions by number, as [`header`] or [`frame`], check
//! the file each time.
//!
//! ```
//! let file = florinhado::File::new(include_bytes!("../../../samples/two_levels.iff"))?;
//! for picture in file.pictures() {
//!     let header = picture.header()?.value;
//!     assert_eq!(picture.frame()?.len(), usize::from(header.width) * usize::from(header.height));
//! }
//! # Ok::<(), florinhado::Refused>(())
//! ```
//!
//! A brush has a shape: [`Picture::frame_with_shape`] tells which pixels show, by
//! a mask plane or a transparent colour, and [`write_with_shape`] writes a mask
//! plane.
//!
//! # Colours
//!
//! [`Picture::colour_frame`] gives red, green, blue for each pixel, by the palette and
//! the view modes of CAMG:
//!
//! - bit 11 with 6 or 8 planes is hold-and-modify: the two high bits of a colour
//!   number choose 0 the palette's entry of the other bits v, 1 a new blue, 2 a new
//!   red, 3 a new green, and the other parts are those of the pixel to the left, of
//!   (0, 0, 0) for a line's first. A part is 17 v with 6 planes, 4 v + v / 16 with 8;
//! - bit 7 with 6 planes and no bit 11 is half-bright: number 32 + i has entry i with
//!   each part halved, rounded down;
//! - in any other picture a number has its entry of the palette.
//!
//! An entry that the palette hasn't whole is (0, 0, 0). [`Picture::triples`] gives the
//! palette of a half-bright picture with its halves, of any other its first 64 entries.
//!
//! ```
//! let file = florinhado::File::new(include_bytes!("../../../samples/colours.iff"))?;
//! for picture in file.pictures().take(4) {
//!     let pixels = picture.colour_frame(b"")?;
//!     println!("{:?}", pixels.chunks(3).collect::<Vec<_>>());
//! }
//! # Ok::<(), florinhado::Refused>(())
//! ```
//!
//! # Refusals of a picture
//!
//! Every call on a picture is refused by the file's structure, 1 to 12 with the
//! place; then with 20 if there is no such picture, 21 if no BMHD counts, 22 for
//! several BODYs, 23 for a property of a wrong size; then for the header: 41
//! nPlanes over 8, 42 masking over 3, 43 compression over 1, 24 w, h or nPlanes 0
//! with a BODY. They are tried in this order. The calls on its rows have more: 25
//! for no BODY, 46 where colours are asked for and CAMG has bit 11 with other than 6
//! or 8 planes, 29 for a start place beyond the BODY's end, 28 for a row, frame or
//! shape of a wrong length, 44 where a shape is asked for and masking is 3, 27 and 26
//! with the place in the BODY. [`Refused::meaning`] tells each in words:
//!
//! ```
//! # let fields = florinhado::Header { width: 3, height: 1, planes: 2, ..Default::default() };
//! # let mut file = [0; 52];
//! # florinhado::write(&fields, b"", &[1, 2, 3], &mut file)?;
//! file[30] = 2; // the compression of a picture whose BMHD stands first
//! let refused = florinhado::frame(&file, 0, &mut [0; 3]).unwrap_err();
//! assert_eq!(refused.to_string(), "refusal 43 at 0: compression 2 or more: only 0 and 1 are known");
//! # Ok::<(), florinhado::Refused>(())
//! ```

#![deny(missing_docs, unsafe_code)]

// The example of the repository's first page.
#[cfg(doctest)]
#[doc = include_str!("../../../README.md")]
struct Readme;

mod answer;
pub mod calls;
mod check;
mod colours;
mod copy;
mod data;
mod file;
mod lines;
mod pack;
mod palette;
mod picture;
mod pictures;
mod properties;
mod record;
mod rows;
mod shapes;
mod write;

pub use answer::Refused;
pub use check::{check, Accepted};
pub use colours::{body_colour_frame, body_colour_line, colour_frame, colour_line, palette_triples, triples};
pub use copy::clean_copy;
pub use data::data;
pub use file::File;
pub use lines::{ColourLines, Lines, ShapedLines};
pub use pack::pack;
pub use palette::palette;
pub use picture::Picture;
pub use pictures::count_pictures;
pub use properties::{bmhd, destination, grab, header, sprite, view_mode};
pub use properties::{Destination, Header, HotSpot, Origin, Property};
pub use record::{record, records, Kind, Record};
pub use rows::{body_frame, body_line, frame, scan_line};
pub use shapes::{body_shape_frame, body_shape_line, shape_frame, shape_line, Shaped};
pub use write::{write, write_with_shape};
