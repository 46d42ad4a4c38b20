//! The tree: 01's examples, each structure refusal, listing and clean copy.

mod common;

use common::{chunk, form, group, nested, refused, sized};
use second::{check, clean_copy, count_pictures, data, fill_table, listing_text, record, records};
use second::{Kind, Name, Refused};

fn accepted(file: &[u8]) -> (usize, usize, usize) {
    let told = check(file).unwrap();
    (told.chunks, told.end, told.trailing)
}

#[test]
fn examples_of_the_scope() {
    assert_eq!(check(b""), refused(2, 0));
    assert_eq!(accepted(b"FORM\0\0\0\x04ILBM"), (1, 12, 0));
    assert_eq!(check(b"FOR1\0\0\0\x04ILBM"), refused(3, 0));
    assert_eq!(check(b"FORM\0\0\0\x04ILB"), refused(7, 0));
    assert_eq!(check(b"FORM\0\0\0\x05ILBMx\0"), refused(4, 12));
    let mut odd = b"FORM\0\0\0\x0dILBMXXXX\0\0\0\x01x".to_vec();
    assert_eq!(odd.len(), 21);
    assert_eq!(check(&odd), refused(8, 0));
    odd.push(0);
    assert_eq!(check(&odd), refused(8, 12));
    let twice = b"LIST\0\0\0\x1cJJJJPROP\0\0\0\x04ILBMPROP\0\0\0\x04ILBM";
    assert_eq!(check(twice), refused(12, 24));
}

#[test]
fn file_length_comes_first() {
    let mut file = form(&[]);
    file.resize(16_777_216, 0xff);
    assert_eq!(accepted(&file), (1, 12, 16_777_204));
    file.push(0);
    assert_eq!(check(&file), refused(1, 0));
    assert_eq!(check(&vec![0; 16_777_217]), refused(1, 0));
}

#[test]
fn outermost_names() {
    for name in ["FOR", "PROP", "JJJJ", "form", "FOR0", "LISA", "    ", " ABC", "\x00\x01\x02\x03", "CAT\0"] {
        assert_eq!(check(&sized(name, 4, b"ILBM")), refused(2, 0), "{name}");
    }
    for name in Name::versions() {
        assert_eq!(check(&name.0), refused(3, 0));
    }
    assert_eq!(Name::versions().len(), 27);
    for name in ["FORM", "LIST", "CAT "] {
        assert_eq!(check(name.as_bytes()), refused(4, 0));
        assert_eq!(accepted(&group(name, "ABCD", &[])), (1, 12, 0));
    }
}

#[test]
fn checks_at_one_header_stand_in_order() {
    let member = |bytes: &[u8]| check(&form(&[bytes.to_vec()]));
    assert_eq!(member(b"\0\0\0\0\0\0\0"), refused(4, 12));
    assert_eq!(member(b"\x1fAAA\xff\xff\xff\xff"), refused(5, 12));
    assert_eq!(member(b"A BC\0\0\0\0"), refused(5, 12));
    assert_eq!(member(b"AB\x7fC\0\0\0\0"), refused(5, 12));
    assert_eq!(member(b"LIS9\xff\xff\xff\xff"), refused(3, 12));
    assert_eq!(member(b"JJJJ\xff\xff\xff\xff"), refused(6, 12));
    assert_eq!(member(b"PROP\xff\xff\xff\xff"), refused(6, 12));
    assert_eq!(member(b"FORM\xff\xff\xff\xff"), refused(7, 12));
    assert_eq!(member(b"FORM\0\0\0\x03ABC"), refused(8, 12));
    assert_eq!(member(b"FORM\0\0\0\x03ABC\0"), refused(10, 12));
    assert_eq!(member(b"FORM\0\0\0\x04abcd"), refused(11, 12));
    assert_eq!(member(b"abcd\0\0\0\0").unwrap().chunks, 2);
}

/// A size of 5 in the group that has one stray byte is met after its own header.
#[test]
fn header_checks_come_before_members() {
    let bad_type = sized("FORM", 13, b"FORMJJJJ\0\0\0\x09\0");
    assert_eq!(check(&[bad_type, vec![0]].concat()), refused(11, 0));
    let first = group("FORM", "ABCD", &[sized("JJJJ", 0, b"")]);
    assert_eq!(check(&group("CAT ", "JJJJ", &[first, sized("LIS1", 0, b"")])), refused(6, 24));
}

#[test]
fn sizes_are_judged_by_the_parent() {
    let over = |size| {
        let first = group("FORM", "ABCD", &[sized("DATA", size, b"wxyz")]);
        check(&[group("CAT ", "JJJJ", &[first, form(&[])]), vec![0; 9]].concat())
    };
    assert!(over(4).is_ok());
    assert_eq!(over(5), refused(7, 24));
    assert_eq!(over(12), refused(7, 24));
    assert_eq!(over(3), over(4));
    assert_eq!(over(2), refused(4, 34));
}

#[test]
fn levels() {
    for name in ["FORM", "LIST", "CAT "] {
        assert_eq!(accepted(&nested(name, 16, vec![])).0, 16);
        assert_eq!(check(&nested(name, 17, vec![])), refused(9, 16 * 12));
    }
    let local = chunk("DATA", b"x");
    assert_eq!(accepted(&nested("FORM", 16, local)).0, 17);
    assert_eq!(accepted(&nested("LIST", 16, chunk("    ", b"x"))).0, 17);
    let prop = group("PROP", "ABCD", &[]);
    assert_eq!(accepted(&nested("LIST", 15, prop.clone())).0, 16);
    assert_eq!(check(&nested("LIST", 16, prop)), refused(9, 16 * 12));
    let short = sized("FORM", 2, b"AB");
    assert_eq!(check(&nested("FORM", 16, short.clone())), refused(9, 16 * 12));
    assert_eq!(check(&nested("FORM", 15, short)), refused(10, 15 * 12));
}

#[test]
fn what_each_group_may_hold() {
    let inner = ["FORM", "LIST", "CAT ", "PROP", "DATA", "    "];
    let may = [("FORM", "yyynyy"), ("LIST", "yyyyny"), ("CAT ", "yyynny"), ("PROP", "nnnnyy")];
    for (outer, allowed) in may {
        for (name, allowed) in inner.iter().zip(allowed.bytes()) {
            let in_it = group(outer, "ABCD", &[chunk(name, b"ABCD")]);
            let file = group("LIST", "ABCD", &[in_it]);
            let expected = if allowed == b'y' { None } else { Some(Refused { number: 6, place: 24 }) };
            assert_eq!(check(&file).err(), expected, "{name} in {outer}");
        }
    }
}

#[test]
fn props_of_a_list() {
    let filler = chunk("    ", b"x");
    let prop = |kind| group("PROP", kind, &[]);
    let list = |members: &[Vec<u8>]| check(&group("LIST", "JJJJ", members));
    let sound = [prop("ILBM"), filler.clone(), prop("8SVX"), filler.clone(), form(&[])];
    assert_eq!(list(&sound).unwrap().chunks, 6);
    for ender in ["FORM", "LIST", "CAT "] {
        let late = [prop("ILBM"), group(ender, "ABCD", &[]), filler.clone(), prop("8SVX")];
        assert_eq!(list(&late), refused(6, 46));
    }
    let again = [prop("ILBM"), filler.clone(), prop("8SVX"), prop("ILBM")];
    assert_eq!(list(&again), refused(12, 46));
    let inner = group("LIST", "JJJJ", &[prop("ILBM")]);
    assert_eq!(list(&[prop("ILBM"), inner]).unwrap().chunks, 4);
}

#[test]
fn types() {
    let good =
        ["ILBM", "8SVX", "A   ", "AB  ", "0   ", "FOR0", "FORA", "LISX", "CAT0", "CATS", "PRO1", "JJJ "];
    let bad = [
        "    ", "FORM", "LIST", "PROP", "CAT ", "JJJJ", "FOR1", "LIS5", "CAT9", "ilbm", "AB-C", "A BC",
        " ABC",
    ];
    for kind in good {
        assert!(check(&group("FORM", kind, &[])).is_ok(), "{kind}");
        assert!(check(&group("LIST", "JJJJ", &[group("PROP", kind, &[])])).is_ok(), "{kind}");
    }
    for kind in bad {
        assert_eq!(check(&group("FORM", kind, &[])), refused(11, 0), "{kind}");
        assert_eq!(check(&group("LIST", "JJJJ", &[group("PROP", kind, &[])])), refused(11, 12), "{kind}");
        let free = !matches!(kind, "A BC" | " ABC");
        for name in ["LIST", "CAT "] {
            assert_eq!(check(&group(name, kind, &[])).is_ok(), free, "{name} {kind}");
        }
    }
    assert_eq!(check(&sized("LIST", 4, b"AB\x7f ")), refused(11, 0));
}

#[test]
fn end_and_trailing_count_the_pad() {
    let mut file = group("FORM", "ABCD", &[chunk("DATA", b"xyz")]);
    assert_eq!(accepted(&file), (2, 24, 0));
    file.extend(b"tail!");
    assert_eq!(accepted(&file), (2, 24, 5));
}

#[test]
fn very_many_siblings_and_props() {
    let siblings = group("FORM", "ABCD", &[b"DATA\0\0\0\0".repeat(2_000_000)]);
    assert_eq!(check(&siblings).unwrap().chunks, 2_000_001);
    let list = |types: &[[u8; 4]]| {
        let props: Vec<u8> = types.iter().flat_map(|kind| [*b"PROP", [0, 0, 0, 4], *kind].concat()).collect();
        check(&group("LIST", "JJJJ", &[props]))
    };
    let mut types = distinct_types(1_300_000);
    assert_eq!(list(&types).unwrap().chunks, 1_300_001);
    types.push(types[650_000]);
    assert_eq!(list(&types), refused(12, 12 + 12 * 1_300_000));
}

fn distinct_types(count: usize) -> Vec<[u8; 4]> {
    let symbols = b"ABCDEFGHIJKLMNOPQRSTUVWXYZ0123456789";
    let letter = |number: usize, power: u32| symbols[number / 36usize.pow(power) % 36];
    let types = (0..).map(|n| [letter(n, 3), letter(n, 2), letter(n, 1), letter(n, 0)]);
    types.filter(|kind| Name(*kind).is_form_type()).take(count).collect()
}

#[test]
fn records_and_data() {
    let file = group("FORM", "AB  ", &[chunk("ONE ", b"x"), chunk("    ", b"yz"), form(&[])]);
    let all = records(&file).unwrap();
    let told: Vec<_> = all.iter().map(|r| (r.number, r.level, r.kind, &r.name.0, r.place, r.size)).collect();
    let expected = vec![
        (0, 1, Kind::Form, b"AB  ", 0, 36),
        (1, 2, Kind::Local, b"ONE ", 12, 1),
        (2, 2, Kind::Filler, b"    ", 22, 2),
        (3, 2, Kind::Form, b"ILBM", 32, 4),
    ];
    assert_eq!(told, expected);
    assert_eq!(record(&file, 3), Ok(all[3]));
    assert_eq!(record(&file, 4), refused(14, 0));
    assert_eq!(data(&file, 1), Ok(&b"x"[..]));
    assert_eq!(data(&file, 2), Ok(&b"yz"[..]));
    assert_eq!(data(&file, 0), refused(15, 0));
    assert_eq!(data(&file, 4), refused(14, 0));
    assert_eq!(data(b"", 4), refused(2, 0));
    assert_eq!(count_pictures(&file), Ok(1));
    let mut table = vec![all[3]; 5];
    assert_eq!(fill_table(&file, &mut table), Ok(4));
    assert_eq!((&table[..4], table[4]), (&all[..], all[3]));
    assert_eq!(fill_table(&file, &mut table[..3]), refused(13, 0));
}

#[test]
fn clean_copies() {
    let mut file = group("FORM", "ABCD", &[chunk("ONE ", b"xyz"), chunk("TWO ", b"")]);
    let clean = file.clone();
    file[23] = 0x55;
    file.extend(b"tail");
    assert_eq!(clean_copy(&file, clean.len()), Ok(clean.clone()));
    assert_eq!(clean_copy(&file, clean.len() - 1), refused(32, 0));
    assert_eq!(clean_copy(b"", 0), refused(2, 0));
    let odd_outermost = sized("CAT ", 5, b"ABCDx\x07");
    assert_eq!(clean_copy(&odd_outermost, 99), refused(4, 12));
}

#[test]
fn listing_program() {
    let text = |input: &[u8]| String::from_utf8(listing_text(input)).unwrap();
    let expected = "answer=0\nplace=0\nchunks=1\nend=12\ntrailing=0\npictures=1\n\
                    chunk=0\nlevel=1\nkind=FORM\nname=ILBM\nat=0\nsize=4\n";
    assert_eq!(text(b"FORM\0\0\0\x04ILBM"), expected);
    assert_eq!(text(b"FORM\0\0\0\x05ILBMx\0"), "answer=4\nplace=12\n");
    let mut longest = form(&[]);
    longest.resize(65_536, 0);
    assert!(text(&longest).starts_with("answer=0\nplace=0\nchunks=1\nend=12\ntrailing=65524\n"));
    longest.push(0);
    assert_eq!(text(&longest), "answer=40\nplace=0\n");
    let list =
        group("LIST", "JJJJ", &[group("PROP", "AB  ", &[]), chunk("    ", b""), group("CAT ", "    ", &[])]);
    assert!(text(&list).ends_with("chunk=3\nlevel=2\nkind=CAT\nname=    \nat=32\nsize=4\n"));
}
