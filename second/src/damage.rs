//! Damage to generated trees and to the bytes of a file.

use crate::generate::wrap;
use crate::node::Node;
use crate::random::Random;

/// Damages one chunk of the tree, in one way.
pub(crate) fn damage_tree(random: &mut Random, tree: &mut Node) {
    let number = random.below(tree.count());
    let copy = tree.nth(number).clone();
    match random.below(11) {
        0 => tree.nth(number).size_error = size_error(random),
        1 => tree.nth(number).name = wrong_name(random),
        2 => shorten_type(random, tree.nth(number)),
        3 => drop_pad(random, tree.nth(number)),
        4 => deepen(random, tree.nth(number)),
        5 => duplicate_prop(random, tree),
        other => damage_group(random, tree, other, copy),
    }
}

/// Damages one group of the tree, if there is one left.
fn damage_group(random: &mut Random, tree: &mut Node, way: usize, copy: Node) {
    let groups = tree.groups();
    if groups.is_empty() {
        return;
    }
    let group = tree.nth(random.pick(&groups));
    match way {
        6 => set_type(random, group),
        7 => reorder(random, group),
        8 => duplicate(random, group),
        9 => stray_bytes(random, group),
        _ => insert(random, group, copy),
    }
}

fn size_error(random: &mut Random) -> i64 {
    let far = random.word() as i64 >> 33;
    random.pick(&[-8, -4, -3, -2, -1, 1, 2, 3, 8, 100, i64::from(i32::MAX), 0xffff_0000, far])
}

fn wrong_name(random: &mut Random) -> [u8; 4] {
    let known = random.pick(&[
        *b"JJJJ",
        *b"JJJJ",
        *b"FORM",
        *b"LIST",
        *b"CAT ",
        *b"PROP",
        *b"    ",
        *b"DATA",
        *b"BODY",
        *b"BMHD",
        *b"CMAP",
        *b" ABC",
        *b"A BC",
        *b"AB\x7fC",
        *b"AB\x1fC",
        *b"\0\0\0\0",
        *b"AB\xffC",
    ]);
    if random.one_in(3) {
        return version_name(random);
    }
    known
}

/// A version name, or one that only looks like it.
fn version_name(random: &mut Random) -> [u8; 4] {
    let mut name = random.pick(&[*b"FOR1", *b"LIS1", *b"CAT1"]);
    name[3] = random.pick(b"0123456789:/");
    name
}

fn set_type(random: &mut Random, group: &mut Node) {
    let other = random.pick(&[
        *b"    ",
        *b"FORM",
        *b"LIST",
        *b"PROP",
        *b"CAT ",
        *b"JJJJ",
        *b"ilbm",
        *b"AB-C",
        *b"A BC",
        *b" ABC",
        *b"AB\x7fC",
        *b"ILBM",
    ]);
    group.kind = Some(if random.one_in(4) { version_name(random) } else { other });
}

/// Makes the chunk, mostly a group, shorter than a type.
fn shorten_type(random: &mut Random, node: &mut Node) {
    if node.kind.is_none() {
        node.name = random.pick(&[*b"FORM", *b"LIST", *b"CAT ", *b"PROP"]);
    }
    node.kind = None;
    node.members.clear();
    let count = random.below(4);
    node.data = random.bytes(count);
}

fn reorder(random: &mut Random, group: &mut Node) {
    let count = group.members.len();
    if count > 1 {
        group.members.swap(random.below(count), random.below(count));
    }
}

fn duplicate(random: &mut Random, group: &mut Node) {
    if !group.members.is_empty() {
        let copy = group.members[random.below(group.members.len())].clone();
        insert(random, group, copy);
    }
}

/// Repeats a PROP of some LIST right after it, with or without its members.
fn duplicate_prop(random: &mut Random, tree: &mut Node) {
    for number in 0..tree.count() {
        let list = tree.nth(number);
        if let Some(index) = list.members.iter().position(|member| member.is(b"PROP")) {
            let mut copy = list.members[index].clone();
            if random.one_in(2) {
                copy.members.clear();
            }
            list.members.insert(index + random.below(2), copy);
            return;
        }
    }
}

fn drop_pad(random: &mut Random, node: &mut Node) {
    if node.kind.is_none() && node.data.len().is_multiple_of(2) {
        node.data.push(random.byte());
    }
    node.pad = None;
}

fn stray_bytes(random: &mut Random, group: &mut Node) {
    let count = random.between(1, 9);
    group.data.extend(random.bytes(count));
}

/// Puts several groups around a chunk.
fn deepen(random: &mut Random, node: &mut Node) {
    for _ in 0..random.between(1, 16) {
        let inner = node.clone();
        *node = wrap(random, inner);
    }
}

fn insert(random: &mut Random, group: &mut Node, node: Node) {
    let index = random.below(group.members.len() + 1);
    group.members.insert(index, node);
}

/// Damages the written bytes, in one way.
pub(crate) fn damage_bytes(random: &mut Random, file: &mut Vec<u8>) {
    if file.is_empty() {
        return;
    }
    let place = random.below(file.len());
    match random.below(5) {
        0 => file.truncate(place),
        1 => file[place] = random.byte(),
        2 => file[place] ^= 1 << random.below(8),
        3 => {
            file.remove(place);
        }
        _ => file.insert(place, random.byte()),
    }
}
