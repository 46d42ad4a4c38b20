//! Files to compare readers on: sound trees, some damaged afterwards.

use crate::damage::{damage_bytes, damage_tree};
use crate::generate_picture::{album, picture, picture_local, Plan};
use crate::node::Node;
use crate::random::Random;
use crate::tree::LONGEST_FILE;

pub use crate::inputs::{body_input, header_input, oversize_writer_input, query, row_input, writer_input};
pub use crate::inputs::{default_palette, triples_mode, triples_room};
pub use crate::inputs::{BodyInput, Query, RowInput, WriterInput};

/// One file; about a third are meant to be sound.
pub fn file(random: &mut Random) -> Vec<u8> {
    if random.one_in(5_000) {
        return oversize_file(random);
    }
    if random.one_in(40) {
        return no_tree(random);
    }
    let mut tree = sound_tree(random);
    let times = random.pick(&[0, 0, 1, 1, 1, 2]);
    (0..times).for_each(|_| damage_tree(random, &mut tree));
    let mut file = Vec::new();
    tree.write(&mut file);
    add_trailing(random, &mut file);
    if random.one_in(5) {
        damage_bytes(random, &mut file);
    }
    file
}

/// A file without intended damage; nesting may pass the limit.
pub fn sound_file(random: &mut Random) -> Vec<u8> {
    let mut file = Vec::new();
    sound_tree(random).write(&mut file);
    add_trailing(random, &mut file);
    file
}

/// A file that is too long by a few bytes, or not quite.
pub fn oversize_file(random: &mut Random) -> Vec<u8> {
    let mut file = sound_file(random);
    file.resize(LONGEST_FILE + random.pick(&[0, 1, 1, 2]), 0);
    file
}

fn add_trailing(random: &mut Random, file: &mut Vec<u8>) {
    if random.one_in(4) {
        let count = random.between(1, 9);
        file.extend(random.bytes(count));
    }
}

/// Short and random inputs.
fn no_tree(random: &mut Random) -> Vec<u8> {
    let count = random.below(24);
    let mut file = random.bytes(count);
    if random.one_in(2) {
        let name = random.pick(&[*b"FORM", *b"LIST", *b"CAT ", *b"PROP", *b"FOR9", *b"JJJJ"]);
        file.splice(0..0, name);
        file.truncate(random.between(0, 14));
    }
    file
}

fn sound_tree(random: &mut Random) -> Node {
    match random.below(8) {
        0 => nest(random),
        1 => wide(random),
        2 | 3 => album(random),
        4 => {
            let plan = Plan::of(random);
            picture(random, &plan, true)
        }
        _ => outer_group(random, 4),
    }
}

/// A chain of groups, up to and past the deepest level.
fn nest(random: &mut Random) -> Node {
    let mut inner = match random.below(4) {
        0 => album(random),
        1 => outer_group(random, 1),
        _ => {
            let plan = Plan::of(random);
            picture(random, &plan, true)
        }
    };
    let times = random.pick(&[1, 3, 12, 13, 14, 15, 16, 17]);
    for _ in 0..times {
        inner = wrap(random, inner);
    }
    inner
}

/// Puts a FORM, LIST or CAT around a node, at times with filler or a PROP.
pub(crate) fn wrap(random: &mut Random, inner: Node) -> Node {
    let name = random.pick(&[*b"FORM", *b"LIST", *b"CAT "]);
    let kind = group_type(random, name);
    let mut members = Vec::new();
    if random.one_in(4) {
        members.push(filler(random));
    }
    if name == *b"LIST" && random.one_in(3) {
        members.push(prop(random, *b"ILBM"));
    }
    members.push(inner);
    Node::group(name, kind, members)
}

/// Many small chunks in one group.
fn wide(random: &mut Random) -> Node {
    let count = random.between(20, 60);
    if random.one_in(2) {
        let members = (0..count).map(|_| local(random)).collect();
        return Node::group(*b"FORM", form_type(random), members);
    }
    let mut members: Vec<Node> = (0..count).map(|_| outer_group(random, 0)).collect();
    members.insert(0, prop(random, *b"ILBM"));
    Node::group(*b"LIST", *b"JJJJ", members)
}

/// A sound FORM, LIST or CAT with groups inside it down to `depth`.
pub(crate) fn outer_group(random: &mut Random, depth: usize) -> Node {
    let name = random.pick(&[*b"FORM", *b"FORM", *b"LIST", *b"CAT "]);
    let kind = group_type(random, name);
    if name == *b"FORM" && kind == *b"ILBM" {
        let plan = Plan::of(random);
        return picture(random, &plan, true);
    }
    let mut members = if name == *b"LIST" { props(random) } else { Vec::new() };
    for _ in 0..random.below(5) {
        members.push(member(random, name, depth));
    }
    Node::group(name, kind, members)
}

fn member(random: &mut Random, group: [u8; 4], depth: usize) -> Node {
    if random.one_in(5) || (depth == 0 && group != *b"FORM") {
        return filler(random);
    }
    if depth == 0 || (group == *b"FORM" && random.one_in(2)) {
        return local(random);
    }
    match random.below(6) {
        0 => album(random),
        _ => outer_group(random, depth - 1),
    }
}

/// PROPs of different types, with filler between.
fn props(random: &mut Random) -> Vec<Node> {
    let mut members = Vec::new();
    for kind in [*b"ILBM", *b"8SVX", *b"AB  ", *b"ZZ99"] {
        if random.one_in(3) {
            members.push(prop(random, kind));
        }
        if random.one_in(5) {
            members.push(filler(random));
        }
    }
    members
}

fn prop(random: &mut Random, kind: [u8; 4]) -> Node {
    let mut members = Vec::new();
    for _ in 0..random.below(4) {
        let one = match random.below(3) {
            0 => filler(random),
            1 => picture_local(random),
            _ => local(random),
        };
        members.push(one);
    }
    Node::group(*b"PROP", kind, members)
}

/// A local chunk with any name that is none of the reserved ones.
pub(crate) fn local(random: &mut Random) -> Node {
    let name = random
        .pick(&[*b"DATA", *b"CRNG", *b"ab~!", *b"X   ", *b"FOR0", *b"bmhd", *b"NAME", *b"PRO1", *b"!\"#$"]);
    let count = random.below(12);
    let data = random.bytes(count);
    Node::local(random, name, data)
}

pub(crate) fn filler(random: &mut Random) -> Node {
    let count = random.below(6);
    let data = random.bytes(count);
    Node::local(random, *b"    ", data)
}

fn group_type(random: &mut Random, name: [u8; 4]) -> [u8; 4] {
    if name == *b"FORM" {
        return form_type(random);
    }
    random.pick(&[*b"ILBM", *b"JJJJ", *b"    ", *b"FORM", *b"CAT9", *b"ab~!", *b"PICS"])
}

fn form_type(random: &mut Random) -> [u8; 4] {
    random.pick(&[*b"ILBM", *b"ILBM", *b"8SVX", *b"A   ", *b"0Z  ", *b"FOR0", *b"ANIM"])
}
