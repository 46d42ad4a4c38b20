//! Pictures: properties with their origins, refusals, the palette.

use crate::answer::Refused;
use crate::fields::{read_destination, read_grab, read_header, Destination, Grab, Header, Layout, Reader};
use crate::name::Name;
use crate::tree::{Chunk, Kind, Tree};
use std::ops::Range;

/// Where a property that counts stands.
#[derive(Clone, Copy, Debug, PartialEq, Eq)]
pub enum Origin {
    /// In the FORM itself.
    Own,
    /// In the PROP at this place.
    Shared(usize),
    Absent,
}

/// A property with its origin; there is a value unless it is absent.
#[derive(Clone, Debug, PartialEq, Eq)]
pub struct Property<T> {
    pub origin: Origin,
    pub value: Option<T>,
}

impl<T> Property<T> {
    pub(crate) fn map<U>(self, convert: impl FnOnce(T) -> U) -> Property<U> {
        Property { origin: self.origin, value: self.value.map(convert) }
    }
}

/// All that is told of one picture without its rows.
#[derive(Clone, Debug, PartialEq, Eq)]
pub struct Properties {
    pub header: Header,
    pub header_origin: Origin,
    /// Where the CMAP's data lies in the file.
    pub colour_map: Property<Range<usize>>,
    pub grab: Property<Grab>,
    pub destination: Property<Destination>,
    /// The sprite precedence of SPRT.
    pub precedence: Property<u16>,
    /// The view modes of CAMG.
    pub view_modes: Property<u32>,
    /// Where the BODY's data lies in the file.
    pub body: Option<Range<usize>>,
}

/// The names of the properties, in the order in which the table of pictures has them.
pub(crate) const PROPERTIES: [Name; 6] =
    [Name::BMHD, Name::CMAP, Name::GRAB, Name::DEST, Name::SPRT, Name::CAMG];

/// A PROP ILBM: its place, and the last property of each name.
#[derive(Clone, Copy)]
pub(crate) struct Shared<'a> {
    place: usize,
    last: [Option<&'a Chunk>; 6],
}

/// A FORM ILBM with the PROPs ILBM of the LISTs around it, the outermost first.
pub(crate) struct Picture<'a> {
    pub form: &'a Chunk,
    shared: Vec<Shared<'a>>,
}

/// The properties of a picture, or the first of 1 to 12, 20 to 23, 41 to 43 and 24.
pub fn properties(file: &[u8], number: usize) -> Result<Properties, Refused> {
    let tree = Tree::read(file)?;
    nth_picture(&tree.outermost, number)?.properties(file)
}

/// What lies around a picture of an accepted file, for counting how often each case is met.
#[derive(Clone, Debug, PartialEq, Eq)]
pub struct Surroundings {
    /// The places of the PROPs ILBM around it, the nearest first.
    pub props: Vec<usize>,
    /// The names and origins of the properties that count and have a wrong size.
    pub wrong: Vec<(Name, Origin)>,
}

/// The PROPs around a picture, and the properties for which it is refused with 23.
pub fn surroundings(file: &[u8], number: usize) -> Result<Surroundings, Refused> {
    let tree = Tree::read(file)?;
    let picture = nth_picture(&tree.outermost, number)?;
    let props = picture.shared.iter().rev().map(|prop| prop.place).collect();
    Ok(Surroundings { props, wrong: picture.wrong_sizes() })
}

/// Every number that a picture's header is refused for, in the order of the checks, of which the
/// calls tell the first; or what a picture is refused for before its header is looked at.
pub fn header_faults(file: &[u8], number: usize) -> Result<Vec<u32>, Refused> {
    let tree = Tree::read(file)?;
    let (header, _, body) = nth_picture(&tree.outermost, number)?.header(file)?;
    Ok(faults(&header.layout(), body.is_some() && header.is_empty()))
}

pub(crate) fn all_pictures(outermost: &Chunk) -> Vec<Picture<'_>> {
    let mut pictures = Vec::new();
    collect(outermost, &mut Vec::new(), &mut pictures);
    pictures
}

fn nth_picture(outermost: &Chunk, number: usize) -> Result<Picture<'_>, Refused> {
    let mut pictures = all_pictures(outermost);
    if number >= pictures.len() {
        return Err(Refused::plain(20));
    }
    Ok(pictures.swap_remove(number))
}

/// The CMAP that counts, or the default where none counts.
pub fn palette<'a>(file: &'a [u8], number: usize, default: &'a [u8]) -> Result<&'a [u8], Refused> {
    let found = properties(file, number)?;
    Ok(found.colour_map.value.map_or(default, |range| &file[range]))
}

/// The pictures in a chunk, where these PROPs ILBM stand in the LISTs around it.
fn collect<'a>(chunk: &'a Chunk, shared: &mut Vec<Shared<'a>>, pictures: &mut Vec<Picture<'a>>) {
    if chunk.kind == Kind::Form && chunk.name == Name::ILBM {
        pictures.push(Picture { form: chunk, shared: shared.clone() });
    }
    let outer = shared.len();
    if chunk.kind == Kind::List {
        let is_prop = |member: &&Chunk| member.kind == Kind::Prop && member.name == Name::ILBM;
        shared.extend(chunk.members.iter().find(is_prop).map(Shared::of));
    }
    for member in &chunk.members {
        collect(member, shared, pictures);
    }
    shared.truncate(outer);
}

impl<'a> Shared<'a> {
    fn of(prop: &'a Chunk) -> Shared<'a> {
        Shared { place: prop.place, last: PROPERTIES.map(|name| last_named(prop.members.iter(), name)) }
    }

    /// The property of this name, with the PROP as its origin.
    fn property(&self, name: Name) -> Option<Property<&'a Chunk>> {
        let number = PROPERTIES.iter().position(|one| *one == name)?;
        self.last[number].map(|chunk| Property { origin: Origin::Shared(self.place), value: Some(chunk) })
    }
}

impl<'a> Picture<'a> {
    pub fn properties(&self, file: &[u8]) -> Result<Properties, Refused> {
        let (header, header_origin, body) = self.header(file)?;
        if let Some(number) = faults(&header.layout(), body.is_some() && header.is_empty()).first() {
            return Err(Refused::plain(*number));
        }
        let read = |chunk: &Chunk| Reader(&file[data_range(chunk)]);
        Ok(Properties {
            header,
            header_origin,
            colour_map: self.property(Name::CMAP).map(data_range),
            grab: self.property(Name::GRAB).map(|chunk| read_grab(&mut read(chunk))),
            destination: self.property(Name::DEST).map(|chunk| read_destination(&mut read(chunk))),
            precedence: self.property(Name::SPRT).map(|chunk| read(chunk).u16()),
            view_modes: self.property(Name::CAMG).map(|chunk| read(chunk).u32()),
            body: body.map(data_range),
        })
    }

    /// The fields of the BMHD that counts, its origin, and the BODY; or 21, 22, 23.
    fn header(&self, file: &[u8]) -> Result<(Header, Origin, Option<&'a Chunk>), Refused> {
        let header = self.property(Name::BMHD);
        let chunk = header.value.ok_or(Refused::plain(21))?;
        let body = self.only_body()?;
        if !self.wrong_sizes().is_empty() {
            return Err(Refused::plain(23));
        }
        Ok((read_header(&mut Reader(&file[data_range(chunk)])), header.origin, body))
    }

    /// The property of this name that counts.
    pub fn property(&self, name: Name) -> Property<&'a Chunk> {
        let before_body = || self.form.members.iter().take_while(|member| !is_local(member, Name::BODY));
        if let Some(own) = last_named(before_body(), name) {
            return Property { origin: Origin::Own, value: Some(own) };
        }
        let shared = self.shared.iter().rev().find_map(|prop| prop.property(name));
        shared.unwrap_or(Property { origin: Origin::Absent, value: None })
    }

    /// The BODY directly in the FORM, if any; 22 if there are several.
    fn only_body(&self) -> Result<Option<&'a Chunk>, Refused> {
        let mut bodies = self.form.members.iter().filter(|member| is_local(member, Name::BODY));
        let first = bodies.next();
        match bodies.next() {
            Some(_) => Err(Refused::plain(22)),
            None => Ok(first),
        }
    }

    /// The properties that count and have a wrong size: 23 if there is one.
    fn wrong_sizes(&self) -> Vec<(Name, Origin)> {
        let is_right = |name, size| match name {
            Name::BMHD => size == 20,
            Name::CMAP => size % 3 == 0,
            Name::SPRT => size == 2,
            Name::DEST => size == 8,
            _ => size == 4,
        };
        let found = PROPERTIES.into_iter().map(|name| (name, self.property(name)));
        let wrong = found.filter(|(name, held)| held.value.is_some_and(|chunk| !is_right(*name, chunk.size)));
        wrong.map(|(name, held)| (name, held.origin)).collect()
    }
}

fn is_local(chunk: &Chunk, name: Name) -> bool {
    chunk.kind == Kind::Local && chunk.name == name
}

fn last_named<'a>(members: impl Iterator<Item = &'a Chunk>, name: Name) -> Option<&'a Chunk> {
    members.filter(|member| is_local(member, name)).last()
}

pub(crate) fn data_range(chunk: &Chunk) -> Range<usize> {
    chunk.data_start()..chunk.data_end()
}

/// "checked in the order 41, 42, 43, 24, where 24 stood": all that hold of a header, of which
/// `empty` says whether 24 does.
pub(crate) fn faults(layout: &Layout, empty: bool) -> Vec<u32> {
    let checks =
        [(41, layout.planes > 8), (42, layout.masking > 3), (43, layout.compression > 1), (24, empty)];
    checks.into_iter().filter(|(_, holds)| *holds).map(|(number, _)| number).collect()
}
