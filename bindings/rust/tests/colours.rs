//! Colours of pictures: hold-and-modify, half-bright, and by the palette alone.

use florinhado::{body_colour_frame, calls, colour_frame, colour_line, triples, File, Header, Refused};

/// Five pictures of 4 by 2 pixels under one palette of three entries.
const FILE: &[u8] = include_bytes!("../../../samples/colours.iff");

/// What the first four show; of the fifth no colours are told.
const SHOWN: [[&str; 2]; 4] = [
    ["aa0000 ff8000 ff80ff ff11ff", "0000ff 000000 ff0000 ff0000"],
    ["ff0000 ff003c ff413c 0040ff", "000082 112233 11ff33 00ff33"],
    ["ff8000 7f4000 0040ff 00207f", "112233 081119 000000 000000"],
    ["ff8000 000000 0040ff 000000", "112233 000000 000000 000000"],
];

const HELD_BY_FIVE: Refused = Refused { number: 46, place: 0 };

fn text(line: &[u8]) -> String {
    let word = |pixel: &[u8]| pixel.iter().map(|part| format!("{part:02x}")).collect::<String>();
    line.chunks(3).map(word).collect::<Vec<_>>().join(" ")
}

#[test]
fn each_mode() {
    let file = File::new(FILE).unwrap();
    for (number, shown) in SHOWN.iter().enumerate() {
        let picture = file.picture(number).unwrap();
        let lines: Result<Vec<_>, _> = picture.colour_lines(b"").collect();
        let lines = lines.unwrap();
        assert_eq!(lines.iter().map(|line| text(line)).collect::<Vec<_>>(), *shown);
        assert_eq!(picture.colour_frame(b"").unwrap(), lines.concat());
        let mut frame = [9; 24];
        assert_eq!(colour_frame(FILE, number, b"", &mut frame), Ok(0));
        assert_eq!(frame[..], lines.concat());
        let mut place = 0;
        for line in &lines {
            let mut row = [9; 12];
            place = colour_line(FILE, number, place, b"", &mut row).unwrap();
            assert_eq!(row[..], line[..]);
        }
        assert_eq!(picture.triples(b""), triples(FILE, number, b""));
    }
}

/// The numbers of a picture are told where its colours are not.
#[test]
fn held_by_five_planes() {
    let file = File::new(FILE).unwrap();
    let picture = file.picture(4).unwrap();
    assert!(picture.frame().is_ok() && picture.triples(b"").is_ok());
    assert_eq!(picture.colour_frame(b""), Err(HELD_BY_FIVE));
    assert_eq!(picture.colour_lines(b"").collect::<Vec<_>>(), [Err(HELD_BY_FIVE)]);
    for length in [23, 24, 25] {
        let mut frame = vec![7; length];
        assert_eq!(colour_frame(FILE, 4, b"", &mut frame), Err(HELD_BY_FIVE));
        assert_eq!(colour_line(FILE, 4, 99, b"", &mut frame), Err(HELD_BY_FIVE));
        assert_eq!(picture.colour_frame_into(b"", &mut frame), Err(HELD_BY_FIVE));
        assert_eq!(picture.colour_line_into(99, b"", &mut frame), Err(HELD_BY_FIVE));
        assert_eq!(frame, vec![7; length]);
    }
}

/// Three bytes a pixel, and nothing is changed where there are others.
#[test]
fn wrong_lengths() {
    let picture = File::new(FILE).unwrap().picture(0).unwrap();
    let refused = Err(Refused { number: 28, place: 0 });
    for length in [0, 4, 8, 11, 13, 23, 25] {
        let mut lent = vec![7; length];
        assert_eq!(colour_line(FILE, 0, 0, b"", &mut lent), refused);
        assert_eq!(colour_frame(FILE, 0, b"", &mut lent), refused);
        assert_eq!(picture.colour_line_into(0, b"", &mut lent), refused);
        assert_eq!(picture.colour_frame_into(b"", &mut lent), refused);
        assert_eq!(lent, vec![7; length]);
    }
}

/// The default counts where there is no CMAP; of an entry that is cut nothing is taken.
#[test]
fn default_palettes() {
    let fields = Header { width: 4, height: 1, planes: 2, ..Header::default() };
    let mut file = [0; 52];
    florinhado::write(&fields, b"", &[0, 1, 2, 3], &mut file).unwrap();
    let palette = [1, 2, 3, 4, 5, 6, 7, 8, 9, 10, 11];
    for (length, shown) in [
        (0, [0; 12]),
        (5, [1, 2, 3, 0, 0, 0, 0, 0, 0, 0, 0, 0]),
        (9, [1, 2, 3, 4, 5, 6, 7, 8, 9, 0, 0, 0]),
        (11, [1, 2, 3, 4, 5, 6, 7, 8, 9, 0, 0, 0]),
    ] {
        let picture = File::new(&file).unwrap().picture(0).unwrap();
        assert_eq!(picture.colour_frame(&palette[..length]).unwrap(), shown);
        let first: Vec<u8> = picture.triples(&palette[..length]).unwrap()[..4].concat();
        assert_eq!(first, shown);
    }
}

/// A shorter room is refused with 32, after what the picture is refused with; a longer one is written to in part.
#[test]
fn room_for_triples() {
    let mut place = 9;
    for (length, told) in [(0, 32), (191, 32), (192, 0), (200, 0)] {
        let mut room = vec![7; length];
        assert_eq!(calls::ilbm_triples(FILE, 2, b"", &mut room, &mut place), told);
        let wanted = if told == 0 { triples(FILE, 2, b"").unwrap().concat() } else { Vec::new() };
        assert_eq!(room[..wanted.len()], wanted);
        assert!(room[wanted.len()..].iter().all(|byte| *byte == 7));
    }
    assert_eq!(calls::ilbm_triples(FILE, 5, b"", &mut [], &mut place), 20);
    assert_eq!(calls::ilbm_palette_triples(b"", 6, 0x80, &mut [0; 191]), 32);
}

#[test]
fn order_of_a_body() {
    let told = |planes, compression, mode, frame: &mut [u8]| {
        let fields = Header { width: 2, height: 1, planes, compression, ..Header::default() };
        body_colour_frame(b"", &fields, mode, b"", frame).unwrap_err().number
    };
    assert_eq!(told(9, 2, 0x800, &mut []), 41);
    assert_eq!(told(5, 2, 0x800, &mut []), 43);
    assert_eq!(told(0, 1, 0x800, &mut []), 24);
    assert_eq!(told(5, 1, 0x800, &mut []), 46);
    assert_eq!(told(6, 1, 0x800, &mut [0; 2]), 28);
    assert_eq!(told(6, 1, 0x800, &mut [0; 6]), 26);
}
