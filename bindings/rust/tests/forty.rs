//! Forty pictures under one shared colour map, of which two differ in a single
//! property: each is told apart from every other.

use florinhado::{count_pictures, grab, header, palette, Origin};

fn chunk(name: &[u8; 4], data: &[u8]) -> Vec<u8> {
    let mut bytes = name.to_vec();
    bytes.extend((data.len() as u32).to_be_bytes());
    bytes.extend(data);
    bytes.resize(bytes.len() + data.len() % 2, 0);
    bytes
}

fn group(name: &[u8; 4], kind: &[u8; 4], members: &[Vec<u8>]) -> Vec<u8> {
    let mut data = kind.to_vec();
    members.iter().for_each(|member| data.extend(member));
    chunk(name, &data)
}

/// A BMHD of a picture without a BODY, told by its width.
fn bmhd(width: u16) -> Vec<u8> {
    let mut data = [0; 20];
    data[..2].copy_from_slice(&width.to_be_bytes());
    chunk(b"BMHD", &data)
}

/// Pictures 0 to 38 differ in their widths; 39 is as 38 but for its GRAB.
fn file() -> Vec<u8> {
    let mut members = vec![group(b"PROP", b"ILBM", &[chunk(b"CMAP", &[1, 2, 3, 4, 5, 6])])];
    for n in 0..40 {
        let spot = if n == 39 { [0, 7, 0, 8] } else { [0, 7, 0, 9] };
        members.push(group(b"FORM", b"ILBM", &[bmhd(n.min(38)), chunk(b"GRAB", &spot)]));
    }
    group(b"LIST", b"ILBM", &members)
}

#[test]
fn forty_pictures_are_told_apart() {
    let file = file();
    assert_eq!(count_pictures(&file), Ok(40));
    let told: Vec<_> = (0..40).map(|n| (header(&file, n).unwrap(), grab(&file, n).unwrap())).collect();
    for (n, picture) in told.iter().enumerate() {
        assert!(!told[..n].contains(picture), "picture {n}");
        let colours = palette(&file, n, b"").unwrap();
        assert_eq!((colours.value, colours.origin), (&[1, 2, 3, 4, 5, 6][..], Origin::Shared(12)));
    }
    assert_eq!(told[38].0, told[39].0);
    assert_ne!(told[38].1, told[39].1);
    assert_eq!(header(&file, 40).unwrap_err().number, 20);
}
