//! The clean copy: no trailing bytes and every pad byte zero.

use crate::answer::Refused;
use crate::tree::{Chunk, Tree};

/// The clean copy of a file, for a buffer of `room` bytes: 1 to 12, then 32.
pub fn clean_copy(file: &[u8], room: usize) -> Result<Vec<u8>, Refused> {
    let tree = Tree::read(file)?;
    let end = tree.outermost.end();
    if end > room {
        return Err(Refused::plain(32));
    }
    let mut copy = file[..end].to_vec();
    clear_pads(&tree.outermost, &mut copy);
    Ok(copy)
}

fn clear_pads(chunk: &Chunk, copy: &mut [u8]) {
    if chunk.size % 2 == 1 {
        copy[chunk.data_end()] = 0;
    }
    for member in &chunk.members {
        clear_pads(member, copy);
    }
}
