//! Chunks to be written, for the generator.

use crate::random::Random;

/// A chunk to be written, sound unless damaged.
#[derive(Clone, Debug)]
pub(crate) struct Node {
    pub name: [u8; 4],
    /// The type, for a group.
    pub kind: Option<[u8; 4]>,
    pub members: Vec<Node>,
    /// The data after the members; none in a sound group.
    pub data: Vec<u8>,
    /// The pad byte written after odd data, if any.
    pub pad: Option<u8>,
    /// What is added to the true size.
    pub size_error: i64,
}

impl Node {
    pub fn local(random: &mut Random, name: [u8; 4], data: Vec<u8>) -> Node {
        let pad = if random.one_in(2) { 0 } else { random.byte() };
        Node { name, kind: None, members: Vec::new(), data, pad: Some(pad), size_error: 0 }
    }

    pub fn group(name: [u8; 4], kind: [u8; 4], members: Vec<Node>) -> Node {
        Node { name, kind: Some(kind), members, data: Vec::new(), pad: Some(0), size_error: 0 }
    }

    pub fn is(&self, name: &[u8; 4]) -> bool {
        &self.name == name
    }

    /// How many chunks the node stands for.
    pub fn count(&self) -> usize {
        1 + self.members.iter().map(Node::count).sum::<usize>()
    }

    /// The chunk with this number in file order.
    pub fn nth(&mut self, number: usize) -> &mut Node {
        if number == 0 {
            return self;
        }
        let mut rest = number - 1;
        let mut index = 0;
        while rest >= self.members[index].count() {
            rest -= self.members[index].count();
            index += 1;
        }
        self.members[index].nth(rest)
    }

    /// The numbers of the groups in file order.
    pub fn groups(&self) -> Vec<usize> {
        let mut found = Vec::new();
        self.find_groups(&mut 0, &mut found);
        found
    }

    fn find_groups(&self, number: &mut usize, found: &mut Vec<usize>) {
        if self.kind.is_some() {
            found.push(*number);
        }
        *number += 1;
        self.members.iter().for_each(|member| member.find_groups(number, found));
    }

    /// Appends the chunk's bytes.
    pub fn write(&self, out: &mut Vec<u8>) {
        let place = out.len();
        out.extend(self.name);
        out.extend([0; 4]);
        out.extend(self.kind.into_iter().flatten());
        self.members.iter().for_each(|member| member.write(out));
        out.extend(&self.data);
        let size = out.len() - place - 8;
        let told = (size as i64 + self.size_error) as u32;
        out[place + 4..place + 8].copy_from_slice(&told.to_be_bytes());
        if size % 2 == 1 {
            out.extend(self.pad);
        }
    }
}
