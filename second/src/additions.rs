//! Additions by a later writer to an accepted file, as the scope lists them.

use crate::generate::{filler, local, outer_group};
use crate::generate_picture::picture_local;
use crate::name::Name;
use crate::node::Node;
use crate::random::Random;
use crate::tree::{Chunk, Kind, Tree, LONGEST_FILE};

/// Names that a local chunk of a later writer may not have.
const KNOWN: [Name; 8] =
    [Name::JJJJ, Name::BMHD, Name::CMAP, Name::GRAB, Name::DEST, Name::SPRT, Name::CAMG, Name::BODY];

/// Where bytes were put in, how many, and the places of the headers in them.
#[derive(Clone, Debug)]
pub struct Addition {
    pub place: usize,
    pub length: usize,
    pub headers: Vec<usize>,
    pub side: Side,
    /// What was put where; none for bytes after the end.
    pub spot: Option<Spot>,
}

/// A chunk of this kind in a group of that kind.
#[derive(Clone, Debug)]
pub struct Spot {
    pub kind: Kind,
    pub group: Kind,
    /// The places of the groups around it, outermost first.
    pub around: Vec<usize>,
    /// The deepest level of a group in it, or the level of the group around it.
    pub level: usize,
}

/// Where something was put: a chunk among those of its group, bytes among
/// those after the end.
#[derive(Clone, Copy, Debug, PartialEq, Eq)]
pub enum Side {
    Alone,
    First,
    Between,
    Last,
}

impl Side {
    /// With so many before it, of so many.
    fn of(before: usize, count: usize) -> Side {
        match before {
            _ if count == 0 => Side::Alone,
            0 => Side::First,
            _ if before < count => Side::Between,
            _ => Side::Last,
        }
    }
}

/// A chunk boundary in a group, with the groups around it.
struct Boundary<'a> {
    /// The enclosing groups, outermost first; never none.
    groups: Vec<&'a Chunk>,
    /// How many members stand before it.
    index: usize,
}

impl<'a> Boundary<'a> {
    fn group(&self) -> &'a Chunk {
        self.groups[self.groups.len() - 1]
    }

    fn place(&self) -> usize {
        let group = self.group();
        group.members.get(self.index).map_or(group.data_end(), |member| member.place)
    }

    fn side(&self) -> Side {
        Side::of(self.index, self.group().members.len())
    }

    /// What adding this chunk here is.
    fn spot(&self, node: &Node) -> Spot {
        Spot {
            kind: Kind::of(Name(node.name)),
            group: self.group().kind,
            around: self.groups.iter().map(|group| group.place).collect(),
            level: self.group().level + depth(node),
        }
    }

    fn has_before(&self, test: impl Fn(&Chunk) -> bool) -> bool {
        self.group().members[..self.index].iter().any(test)
    }

    fn has_after(&self, test: impl Fn(&Chunk) -> bool) -> bool {
        self.group().members[self.index..].iter().any(test)
    }
}

/// Makes one allowed addition in an accepted file, or none if it would not fit.
pub fn add(random: &mut Random, file: &mut Vec<u8>) -> Option<Addition> {
    let tree = Tree::read(file).ok()?;
    if random.one_in(10) {
        return add_after_end(random, file, tree.outermost.end());
    }
    let boundary = boundary(random, &tree);
    let node = addition(random, &boundary)?;
    let mut bytes = Vec::new();
    node.write(&mut bytes);
    let spot = boundary.spot(&node);
    if file.len() + bytes.len() > LONGEST_FILE || spot.level > 16 {
        return None;
    }
    let (place, side) = (boundary.place(), boundary.side());
    let headers = headers(&node, place);
    for group in &boundary.groups {
        let size = (group.size + bytes.len()) as u32;
        file[group.place + 4..group.place + 8].copy_from_slice(&size.to_be_bytes());
    }
    let length = bytes.len();
    file.splice(place..place, bytes);
    Some(Addition { place, length, headers, side, spot: Some(spot) })
}

/// Bytes at any place among those after the end.
fn add_after_end(random: &mut Random, file: &mut Vec<u8>, end: usize) -> Option<Addition> {
    let length = random.between(1, 12);
    let place = random.between(end, file.len());
    let side = Side::of(place - end, file.len() - end);
    if file.len() + length > LONGEST_FILE {
        return None;
    }
    file.splice(place..place, random.bytes(length));
    Some(Addition { place, length, headers: Vec::new(), side, spot: None })
}

/// Any boundary of any group; at times a deep one.
fn boundary<'a>(random: &mut Random, tree: &'a Tree) -> Boundary<'a> {
    let mut groups = vec![&tree.outermost];
    let steps = random.pick(&[3, 3, 3, 50]);
    loop {
        let group = groups[groups.len() - 1];
        let inner: Vec<&Chunk> = group.members.iter().filter(|member| member.kind.is_group()).collect();
        if inner.is_empty() || random.one_in(steps) {
            return Boundary { groups, index: random.below(group.members.len() + 1) };
        }
        groups.push(random.pick(&inner));
    }
}

/// A chunk that may be added at this boundary, if the kind tried may stand there.
fn addition(random: &mut Random, boundary: &Boundary) -> Option<Node> {
    let kind = boundary.group().kind;
    match random.below(4) {
        0 => Some(filler(random)),
        1 if matches!(kind, Kind::Form | Kind::Prop) => Some(added_local(random)),
        2 if kind == Kind::List => added_prop(random, boundary),
        _ if kind == Kind::Prop => Some(added_local(random)),
        _ if boundary.has_after(|member| member.kind == Kind::Prop) => None,
        _ => Some(added_form(random)),
    }
}

/// A local chunk that is no property and no BODY, seldom so long that the
/// sizes around it get another byte.
fn added_local(random: &mut Random) -> Node {
    let mut node = local(random);
    if random.one_in(2) {
        node.name = unknown_name(random);
    }
    if random.one_in(200) {
        let count = random.pick(&[255, 256, 65_533, 65_536]);
        node.data = random.bytes(count);
    }
    node
}

/// Any name of a local chunk but those of the pictures.
fn unknown_name(random: &mut Random) -> [u8; 4] {
    loop {
        let letters: Vec<u8> = (b'!'..=b'~').collect();
        let name = Name(spelled(random, &letters));
        if Kind::of(name) == Kind::Local && !name.is_version() && !KNOWN.contains(&name) {
            return name.0;
        }
    }
}

/// Any type of a FORM or PROP but ILBM.
fn unknown_type(random: &mut Random) -> [u8; 4] {
    let near = random.pick(&[*b"8SVX", *b"ANIM", *b"ILB ", *b"ILB0", *b"Z   "]);
    let name = Name(spelled(random, b"ABCDEFGHIJKLMNOPQRSTUVWXYZ0123456789"));
    if random.one_in(2) || name == Name::ILBM || !name.is_form_type() {
        return near;
    }
    name.0
}

/// One to four letters, and spaces after them.
fn spelled(random: &mut Random, letters: &[u8]) -> [u8; 4] {
    let mut name = *b"    ";
    let count = random.between(1, 4);
    name[..count].iter_mut().for_each(|byte| *byte = random.pick(letters));
    name
}

/// A PROP of a type that the LIST hasn't got, before its first other group.
fn added_prop(random: &mut Random, boundary: &Boundary) -> Option<Node> {
    let kind = unknown_type(random);
    let is_same = |member: &Chunk| member.kind == Kind::Prop && member.name.0 == kind;
    let is_other = |member: &Chunk| member.kind.is_group() && member.kind != Kind::Prop;
    if boundary.has_before(is_other) || boundary.has_before(is_same) || boundary.has_after(is_same) {
        return None;
    }
    let members = (0..random.below(4)).map(|_| any_leaf(random)).collect();
    Some(Node::group(*b"PROP", kind, members))
}

/// A local chunk or filler; in a group that is no picture's it may have any name.
fn any_leaf(random: &mut Random) -> Node {
    match random.below(4) {
        0 => filler(random),
        1 => added_local(random),
        _ => picture_local(random),
    }
}

/// A FORM of another type than ILBM with no FORM ILBM inside it.
fn added_form(random: &mut Random) -> Node {
    let mut members = Vec::new();
    for _ in 0..random.below(4) {
        let mut member = if random.one_in(2) { outer_group(random, 2) } else { any_leaf(random) };
        rename_pictures(&mut member);
        members.push(member);
    }
    Node::group(*b"FORM", unknown_type(random), members)
}

fn rename_pictures(node: &mut Node) {
    if node.is(b"FORM") && node.kind == Some(*b"ILBM") {
        node.kind = Some(*b"PBM ");
    }
    node.members.iter_mut().for_each(rename_pictures);
}

/// How many levels of groups a chunk has.
fn depth(node: &Node) -> usize {
    let inside = node.members.iter().map(depth).max().unwrap_or(0);
    inside + usize::from(node.kind.is_some())
}

/// The places of the headers of a chunk written at `place`.
fn headers(node: &Node, place: usize) -> Vec<usize> {
    let mut found = vec![place];
    let mut next = place + 12;
    for member in &node.members {
        found.extend(headers(member, next));
        let mut bytes = Vec::new();
        member.write(&mut bytes);
        next += bytes.len();
    }
    found
}
