//! Generated pictures: FORM ILBM alone, and LISTs of pictures with PROPs, one in another.

use crate::fields::Layout;
use crate::generate::{filler, local, outer_group};
use crate::node::Node;
use crate::random::Random;

/// The fields that a BODY is made by.
#[derive(Clone, Copy, Debug)]
pub(crate) struct Plan {
    width: u16,
    pub height: u16,
    planes: u8,
    masking: u8,
    compression: u8,
    pub transparent: u16,
}

impl Plan {
    /// A plan that is mostly sound.
    pub fn of(random: &mut Random) -> Plan {
        let planes = random.pick(&[1, 2, 3, 4, 5, 6, 6, 6, 7, 8, 8]);
        let mut plan = Plan {
            width: width(random),
            height: random.between(1, 4) as u16,
            planes,
            masking: random.pick(&[0, 1, 1, 2, 2, 3]),
            compression: random.pick(&[0, 1, 1]),
            transparent: transparent(random, planes),
        };
        if random.one_in(9) {
            plan.spoil(random);
        }
        if random.one_in(20) {
            plan.empty(random);
        }
        plan
    }

    /// Fields with values that are refused, often several.
    fn spoil(&mut self, random: &mut Random) {
        if random.one_in(3) {
            self.compression = random.pick(&[2, 3, 128, 255]);
        }
        if random.one_in(3) {
            self.masking = random.pick(&[4, 5, 128, 255]);
        }
        if random.one_in(3) {
            self.empty(random);
        }
        if random.one_in(3) {
            self.planes = random.pick(&[9, 24, 128, 255]);
        }
    }

    /// A picture of no pixels or no planes, which may not have a BODY.
    fn empty(&mut self, random: &mut Random) {
        match random.below(3) {
            0 => self.width = 0,
            1 => self.height = 0,
            _ => self.planes = 0,
        }
    }

    pub fn layout(&self) -> Layout {
        let Plan { width, planes, masking, compression, .. } = *self;
        Layout { width, planes, masking, compression }
    }

    /// The 20 bytes of BMHD; the other fields are random.
    pub fn header(&self, random: &mut Random) -> Vec<u8> {
        let mut data = random.bytes(20);
        data[0..2].copy_from_slice(&self.width.to_be_bytes());
        data[2..4].copy_from_slice(&self.height.to_be_bytes());
        data[8..11].copy_from_slice(&[self.planes, self.masking, self.compression]);
        data[12..14].copy_from_slice(&self.transparent.to_be_bytes());
        data
    }
}

/// A transparent colour for a picture of so many planes: mostly a number that its pixels may have, often
/// one that most pictures have; at times that with a bit beyond them, or any.
pub(crate) fn transparent(random: &mut Random, planes: u8) -> u16 {
    let last = (1 << planes) - 1;
    let any = random.word() as u16;
    let own = random.pick(&[0, last, any & last]);
    random.pick(&[own, own, own, own, own | 1 << planes, own | 256, own | 0x8000, any])
}

/// A width near a multiple of 8 or 16.
fn width(random: &mut Random) -> u16 {
    let near = [1, 1, 2, 3, 7, 8, 9, 15, 16, 17, 23, 24, 25, 31, 32, 33, 47, 48, 49, 63, 64, 65];
    match random.below(40) {
        0 | 1 => random.between(250, 530) as u16,
        2 => random.pick(&[2047, 2048, 2049]),
        3..=10 => random.between(1, 90) as u16,
        _ => random.pick(&near),
    }
}

/// A FORM ILBM by this plan, with or without its own BMHD.
pub(crate) fn picture(random: &mut Random, plan: &Plan, own_header: bool) -> Node {
    let mut members = Vec::new();
    if own_header && !random.one_in(40) {
        add_header(random, plan, &mut members);
    }
    add_others(random, &mut members);
    add_colours(random, &mut members);
    shuffle(random, &mut members);
    let bodies = random.pick(&[0, 1, 1, 1, 1, 1, 1, 1, 1, 1, 1, 1, 1, 1, 2]);
    for _ in 0..bodies {
        let data = body(random, plan);
        members.push(Node::local(random, *b"BODY", data));
        add_after(random, &mut members);
    }
    Node::group(*b"FORM", *b"ILBM", members)
}

/// BMHD, at times after another one that then doesn't count.
fn add_header(random: &mut Random, plan: &Plan, members: &mut Vec<Node>) {
    if random.one_in(20) {
        let other = Plan::of(random).header(random);
        members.push(Node::local(random, *b"BMHD", other));
    }
    let mut data = plan.header(random);
    if random.one_in(40) {
        data.resize(random.pick(&[0, 19, 21, 28]), 0);
    }
    members.push(Node::local(random, *b"BMHD", data));
}

/// Other properties, unknown chunks, filler and groups.
fn add_others(random: &mut Random, members: &mut Vec<Node>) {
    for _ in 0..random.below(6) {
        let one = match random.below(10) {
            0 => filler(random),
            1 => local(random),
            2 => outer_group(random, 0),
            _ => property(random),
        };
        members.push(one);
    }
}

/// What the colours of a picture are made by: often a CAMG, often a CMAP.
fn add_colours(random: &mut Random, members: &mut Vec<Node>) {
    if random.one_in(2) {
        let data = view_modes(random).to_be_bytes().to_vec();
        members.push(Node::local(random, *b"CAMG", data));
    }
    if random.one_in(2) {
        let data = palette(random);
        members.push(Node::local(random, *b"CMAP", data));
    }
}

/// Hold-and-modify, half-bright, both or neither, and other bits.
pub(crate) fn view_modes(random: &mut Random) -> u32 {
    const COLOURS: u32 = 0x880;
    let any = random.word() as u32;
    let others = random.pick(&[0, 4, 0x8004, 0x1440, any]);
    random.pick(&[0x800, 0x800, 0x80, COLOURS, 0]) | others & !COLOURS
}

/// Few colours, as many as some plane count has, or one more or less.
pub(crate) fn palette(random: &mut Random) -> Vec<u8> {
    let few = random.below(5);
    let near = random.pick(&[15, 16, 17, 31, 32, 33, 63, 64, 65, 128, 255, 256, 257]);
    let entries = random.pick(&[few, near]);
    random.bytes(3 * entries)
}

/// What stands after a BODY: at times a property that doesn't count.
fn add_after(random: &mut Random, members: &mut Vec<Node>) {
    if random.one_in(3) {
        let after = if random.one_in(3) { local(random) } else { picture_local(random) };
        members.push(after);
    }
}

/// One of CMAP, GRAB, DEST, SPRT and CAMG, seldom with a wrong size.
fn property(random: &mut Random) -> Node {
    let (name, mut data) = match random.below(6) {
        0 | 1 => (*b"CMAP", palette(random)),
        2 => (*b"GRAB", random.bytes(4)),
        3 => (*b"DEST", random.bytes(8)),
        4 => (*b"SPRT", random.bytes(2)),
        _ => (*b"CAMG", view_modes(random).to_be_bytes().to_vec()),
    };
    if random.one_in(25) {
        let wrong = random.between(1, 2);
        data.extend(random.bytes(wrong));
    }
    Node::local(random, name, data)
}

/// A property, a BMHD or a BODY of no picture in particular.
pub(crate) fn picture_local(random: &mut Random) -> Node {
    match random.below(8) {
        0 => {
            let data = random.bytes(5);
            Node::local(random, *b"BODY", data)
        }
        1 | 2 => {
            let data = Plan::of(random).header(random);
            Node::local(random, *b"BMHD", data)
        }
        _ => property(random),
    }
}

/// A LIST of pictures under a PROP ILBM; in it, at times, LISTs with PROPs of
/// their own, each of which has some of the six properties.
pub(crate) fn album(random: &mut Random) -> Node {
    let levels = random.pick(&[0, 1, 1, 2, 3]);
    inner_album(random, levels, None)
}

/// Such a LIST with so many levels of LISTs in it at most, inside others of
/// which a PROP has a BMHD by the plan `outer`.
fn inner_album(random: &mut Random, levels: usize, outer: Option<Plan>) -> Node {
    let has_header = if outer.is_some() { random.one_in(3) } else { !random.one_in(8) };
    let header = if has_header { Some(Plan::of(random)) } else { None };
    let plan = header.or(outer);
    let mut members = shared(random, header);
    for _ in 0..random.between(1, 3) {
        let mut one = if levels > 0 && random.one_in(2) {
            inner_album(random, levels - 1, plan)
        } else {
            album_member(random, plan)
        };
        if random.one_in(6) {
            one = Node::group(random.pick(&[*b"CAT ", *b"LIST"]), *b"ILBM", vec![one]);
        }
        members.push(one);
        if random.one_in(5) {
            members.push(filler(random));
        }
    }
    Node::group(*b"LIST", random.pick(&[*b"ILBM", *b"JJJJ"]), members)
}

/// The PROP ILBM of an album, with a BMHD by this plan; at times there is none
/// without it. Beside it, at times, one of another type, which no picture shares.
fn shared(random: &mut Random, header: Option<Plan>) -> Vec<Node> {
    let mut properties = Vec::new();
    if let Some(plan) = header {
        add_header(random, &plan, &mut properties);
    }
    add_others(random, &mut properties);
    properties.retain(|node| node.kind.is_none());
    shuffle(random, &mut properties);
    let mut members = Vec::new();
    if header.is_some() || !random.one_in(8) {
        members.push(Node::group(*b"PROP", *b"ILBM", properties));
    }
    if random.one_in(6) {
        let other = vec![picture_local(random)];
        members.push(Node::group(*b"PROP", *b"8SVX", other));
    }
    shuffle(random, &mut members);
    members
}

/// A picture by the plan that is shared, or with a header of its own.
fn album_member(random: &mut Random, shared: Option<Plan>) -> Node {
    let own_header = random.one_in(if shared.is_some() { 4 } else { 2 });
    let plan = shared.filter(|_| !own_header).unwrap_or_else(|| Plan::of(random));
    picture(random, &plan, own_header)
}

fn shuffle(random: &mut Random, members: &mut [Node]) {
    for last in (1..members.len()).rev() {
        members.swap(last, random.below(last + 1));
    }
}

/// BODY data by a plan: mostly sound, at times with bytes over, too short or
/// with a changed byte.
pub(crate) fn body(random: &mut Random, plan: &Plan) -> Vec<u8> {
    let length = usize::from(plan.width).div_ceil(16) * 2;
    let rows = plan.planes.min(8) + u8::from(plan.masking == 1);
    let mut data = Vec::new();
    for _ in 0..usize::from(plan.height) * usize::from(rows) {
        let row = plane_row(random, length);
        if plan.compression == 1 {
            encode(random, &row, &mut data);
        } else {
            data.extend(row);
        }
    }
    spoil(random, &mut data);
    data
}

fn spoil(random: &mut Random, data: &mut Vec<u8>) {
    match random.below(12) {
        0 => data.truncate(random.below(data.len() + 1)),
        1 => data.truncate(data.len().saturating_sub(random.between(1, 3))),
        2 if !data.is_empty() => {
            let place = random.below(data.len());
            data[place] = random.byte();
        }
        3 => data.extend([128; 2]),
        4 => {
            let count = random.between(1, 5);
            data.extend(random.bytes(count));
        }
        _ => {}
    }
}

/// A row with runs of equal bytes of many lengths.
pub(crate) fn plane_row(random: &mut Random, length: usize) -> Vec<u8> {
    let mut row = Vec::new();
    let longest = random.pick(&[1, 2, 4, 200]);
    while row.len() < length {
        let byte = if random.one_in(3) { random.byte() } else { random.pick(&[0, 1, 255]) };
        let count = random.between(1, longest).min(length - row.len());
        row.resize(row.len() + count, byte);
    }
    row
}

/// One of the many ByteRun1 forms of a row.
fn encode(random: &mut Random, row: &[u8], out: &mut Vec<u8>) {
    let mut rest = row;
    while !rest.is_empty() {
        if random.one_in(12) {
            out.push(128);
        }
        let equal = rest.iter().take(128).take_while(|byte| **byte == rest[0]).count();
        let count = if equal > 1 && !random.one_in(4) {
            let count = if random.one_in(3) { random.between(2, equal) } else { equal };
            out.extend([(257 - count) as u8, rest[0]]);
            count
        } else {
            let count = random.between(1, rest.len().min(128));
            out.push((count - 1) as u8);
            out.extend(&rest[..count]);
            count
        };
        rest = &rest[count..];
    }
}
