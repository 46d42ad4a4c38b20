//! A file opened once gives what the functions by number give.

use florinhado::{colour_frame, destination, frame, grab, header, palette, records, shape_frame, sprite};
use florinhado::{triples, view_mode, write, File, Header, Refused, Shaped};

const SAMPLES: [&[u8]; 6] = [
    include_bytes!("../../../samples/colours.iff"),
    include_bytes!("../../../samples/form.iff"),
    include_bytes!("../../../samples/headers.iff"),
    include_bytes!("../../../samples/nested.iff"),
    include_bytes!("../../../samples/picture.iff"),
    include_bytes!("../../../samples/two_levels.iff"),
];

#[test]
fn samples_both_ways() {
    for bytes in SAMPLES {
        let file = File::new(bytes).unwrap();
        assert_eq!(file.chunks(), records(bytes).unwrap());
        assert_eq!(florinhado::count_pictures(bytes), Ok(file.pictures().len()));
        for (number, picture) in file.pictures().enumerate() {
            assert_eq!(picture.header(), header(bytes, number));
            assert_eq!(picture.grab(), grab(bytes, number));
            assert_eq!(picture.destination(), destination(bytes, number));
            assert_eq!(picture.sprite(), sprite(bytes, number));
            assert_eq!(picture.view_mode(), view_mode(bytes, number));
            assert_eq!(picture.palette(b"abc"), palette(bytes, number, b"abc"));
            let size = header(bytes, number)
                .map_or(1, |told| usize::from(told.value.width) * usize::from(told.value.height));
            let mut pixels = vec![0; size];
            let told = frame(bytes, number, &mut pixels).map(|_| pixels);
            assert_eq!(picture.frame(), told);
            assert_eq!(picture.lines().collect::<Result<Vec<_>, _>>().map(|lines| lines.concat()), told);
            let (mut colours, mut shape) = (vec![0; size], vec![0; size]);
            let told = shape_frame(bytes, number, &mut colours, &mut shape);
            assert_eq!(picture.frame_with_shape(), told.map(|_| Shaped { colours, shape }));
            let mut pixels = vec![0; 3 * size];
            let told = colour_frame(bytes, number, b"abcdefg", &mut pixels).map(|_| pixels);
            assert_eq!(picture.colour_frame(b"abcdefg"), told);
            let lines = picture.colour_lines(b"abcdefg").collect::<Result<Vec<_>, _>>();
            assert_eq!(lines.map(|lines| lines.concat()), told);
            assert_eq!(picture.triples(b"abcdefg"), triples(bytes, number, b"abcdefg"));
        }
        assert!(file.picture(file.pictures().len()).is_none());
    }
}

/// More pictures than the table that is lent first has places.
#[test]
fn very_many() {
    let pictures = 5000;
    let size = 4 + 12 * pictures as u32;
    let mut bytes = [b"CAT ", &size.to_be_bytes()[..], b"ILBM"].concat();
    bytes.extend(b"FORM\0\0\0\x04ILBM".repeat(pictures));
    let file = File::new(&bytes).unwrap();
    assert_eq!(file.pictures().len(), pictures);
    assert_eq!(file.picture(pictures - 1).map(|picture| picture.place()), Some(12 * pictures));
}

#[test]
fn refused_when_opened() {
    let bytes = include_bytes!("../../../samples/second_prop.iff");
    assert_eq!(File::new(bytes), Err(Refused { number: 12, place: 24 }));
    assert_eq!(File::new(b""), Err(Refused { number: 2, place: 0 }));
}

#[test]
fn no_body() {
    let mut bytes = b"FORM\0\0\0\x20ILBMBMHD\0\0\0\x14".to_vec();
    bytes.resize(40, 1);
    bytes[30] = 0;
    let file = File::new(&bytes).unwrap();
    let picture = file.picture(0).unwrap();
    let refused = Refused { number: 25, place: 0 };
    assert_eq!((picture.refusal(), picture.body()), (None, Err(refused)));
    assert_eq!((picture.frame(), picture.frame_into(&mut [])), (Err(refused), Err(refused)));
    assert_eq!(picture.lines().collect::<Vec<_>>(), [Err(refused)]);
    assert_eq!(picture.frame_with_shape(), Err(refused));
    assert_eq!(picture.lines_with_shape().collect::<Vec<_>>(), [Err(refused)]);
    assert_eq!(picture.colour_frame(b""), Err(refused));
    assert_eq!(picture.colour_lines(b"").collect::<Vec<_>>(), [Err(refused)]);
    assert_eq!(picture.triples(b"").map(|told| told[0]), Ok([0; 3]));
}

/// A header that promises far more than the BODY holds: the first line that isn't there is told.
#[test]
fn far_too_short() {
    let fields = Header { width: 2, height: 3, planes: 1, ..Header::default() };
    let mut bytes = [0; 54];
    write(&fields, b"", &[1, 0, 0, 1, 1, 1], &mut bytes).unwrap();
    bytes[22..24].fill(255);
    let file = File::new(&bytes).unwrap();
    let picture = file.picture(0).unwrap();
    let refused = Refused { number: 26, place: 6 };
    assert_eq!(picture.frame(), Err(refused));
    let lines: Vec<_> = picture.lines().collect();
    assert_eq!(lines, [Ok(vec![1, 0]), Ok(vec![0, 1]), Ok(vec![1, 1]), Err(refused)]);
    assert_eq!(picture.frame_with_shape(), Err(refused));
    let shapes: Vec<_> = picture.lines_with_shape().map(|line| line.map(|line| line.shape)).collect();
    assert_eq!(shapes, [Ok(vec![1, 1]), Ok(vec![1, 1]), Ok(vec![1, 1]), Err(refused)]);
    assert_eq!(picture.colour_frame(b""), Err(refused));
    let shown: Vec<_> = picture.colour_lines(&[0, 0, 0, 7, 8, 9]).collect();
    let shade = |line: [u8; 2]| Ok(line.map(|number| [7, 8, 9].map(|part| part * number)).concat());
    assert_eq!(shown, [shade([1, 0]), shade([0, 1]), shade([1, 1]), Err(refused)]);
    bytes[29] = 3;
    let lasso = File::new(&bytes).unwrap().picture(0).unwrap();
    assert_eq!(lasso.frame_with_shape(), Err(Refused { number: 44, place: 0 }));
    assert_eq!(lasso.frame(), Err(refused));
}
