//! A whole listing: the reader, and the table of columns.

use crate::timing::{beside, heading, timed};
use compare::large::{forms, leaves, GROUPS, LEAVES};
use compare::listings::{fill, read, Table};
use compare::plain;
use std::hint::black_box;

fn whole(what: &str, file: &[u8], chunks: usize) {
    let table = || Table::new(chunks);
    let second = || timed(|| second::records(black_box(file)).map(|records| records.len()));
    let plain = || {
        let mut table = table();
        timed(move || plain::fill(black_box(file), &mut table))
    };
    let by_reader = timed(|| read(black_box(file)));
    beside(&format!("reader, {what}"), [by_reader, second(), plain()]);
    let mut filled = table();
    let by_table = timed(move || fill(black_box(file), &mut filled));
    beside(&format!("table, {what}"), [by_table, second(), plain()]);
}

pub fn against_others() {
    heading("listing; the plain walk checks nothing", ["second", "plain"]);
    whole("FORM of 2,097,150 chunks", &leaves(LEAVES), 1 + LEAVES);
    whole("CAT of 1,398,100 FORMs", &forms(GROUPS), 1 + GROUPS);
}
