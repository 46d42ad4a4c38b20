//! Additions by a later writer leave every picture as it was.

use second::additions::{add, Addition};
use second::generate;
use second::random::Random;
use second::{check, count_pictures, frame, palette, properties, scan_line, Name, Origin, Refused};

/// A number from the environment, or the usual one.
fn setting(name: &str, usual: u64) -> u64 {
    std::env::var(name).map_or(usual, |word| word.parse().expect("a number"))
}

/// All that is told of a picture, with places of PROPs left out of `values`.
#[derive(Debug, PartialEq)]
struct Told {
    values: String,
    props: Vec<usize>,
    palette: Result<Vec<u8>, Refused>,
    lines: Vec<String>,
    frame: String,
}

fn told(file: &[u8], picture: usize, starts: &[usize]) -> Told {
    let found = properties(file, picture);
    let (values, props, width, height) = match &found {
        Err(refused) => (format!("{refused:?}"), Vec::new(), 5, 1),
        Ok(p) => {
            let origins = [
                p.header_origin,
                p.colour_map.origin,
                p.grab.origin,
                p.destination.origin,
                p.precedence.origin,
                p.view_modes.origin,
            ];
            let kinds: Vec<&str> = origins.iter().map(|origin| kind(*origin)).collect();
            let others = (&p.grab.value, &p.destination.value, &p.precedence.value, &p.view_modes.value);
            let values = format!("{:?} {kinds:?} {others:?} {}", p.header, p.body.is_some());
            let props = origins.iter().filter_map(|origin| shared_place(*origin)).collect();
            (values, props, usize::from(p.header.width), usize::from(p.header.height))
        }
    };
    let line = |start: &usize| format!("{:?}", scan_line(file, picture, *start, width));
    Told {
        values,
        props,
        palette: palette(file, picture, b"abc").map(<[u8]>::to_vec),
        lines: starts.iter().map(line).collect(),
        frame: format!("{:?}", frame(file, picture, width * height)),
    }
}

fn kind(origin: Origin) -> &'static str {
    match origin {
        Origin::Own => "own",
        Origin::Shared(_) => "shared",
        Origin::Absent => "absent",
    }
}

fn shared_place(origin: Origin) -> Option<usize> {
    match origin {
        Origin::Shared(place) => Some(place),
        _ => None,
    }
}

/// Where a place of before lies after the addition.
fn moved(place: usize, addition: &Addition) -> usize {
    if place >= addition.place {
        place + addition.length
    } else {
        place
    }
}

#[test]
fn pictures_stay_as_they_were() {
    let (seed, wanted) = (setting("SEED", 88), setting("FILES", 6_000) as usize);
    println!("seed {seed}");
    let mut random = Random::new(seed);
    let (mut files, mut made, mut compared) = (0, 0, 0);
    while files < wanted {
        let before = generate::sound_file(&mut random);
        if check(&before).is_err() {
            continue;
        }
        files += 1;
        let mut after = before.clone();
        let mut additions: Vec<Addition> = Vec::new();
        let mut headers: Vec<usize> = Vec::new();
        for _ in 0..random.below(7) {
            if let Some(addition) = add(&mut random, &mut after) {
                assert!(check(&after).is_ok(), "{:?} at {addition:?}", check(&after));
                headers = headers.iter().map(|place| moved(*place, &addition)).collect();
                headers.extend(&addition.headers);
                additions.push(addition);
            }
        }
        made += additions.len();
        compared += compare(&mut random, &before, &after, &additions);
        put_version_names(&mut random, &mut after, &headers);
    }
    println!("{files} files, {made} additions, {compared} pictures compared");
    assert!(made > wanted && compared > wanted / 2);
}

/// Compares all pictures and returns how many there are.
fn compare(random: &mut Random, before: &[u8], after: &[u8], additions: &[Addition]) -> usize {
    let pictures = count_pictures(before).unwrap();
    assert_eq!(count_pictures(after), Ok(pictures));
    for picture in 0..=pictures {
        let starts = [0, random.below(10), random.below(200)];
        let mut old = told(before, picture, &starts);
        let place_after = |place: &usize| additions.iter().fold(*place, moved);
        old.props = old.props.iter().map(place_after).collect();
        assert_eq!(told(after, picture, &starts), old);
    }
    pictures
}

/// Version names over some added headers give 3 at the first of them.
fn put_version_names(random: &mut Random, file: &mut [u8], headers: &[usize]) {
    let chosen: Vec<usize> = headers.iter().copied().filter(|_| random.one_in(2)).collect();
    let Some(first) = chosen.iter().min() else { return };
    for place in &chosen {
        file[*place..place + 4].copy_from_slice(&random.pick(&Name::versions()).0);
    }
    let expected = Refused { number: 3, place: *first };
    assert_eq!(check(file), Err(expected));
    assert_eq!(properties(file, 0), Err(expected));
    assert_eq!(frame(file, 0, 1), Err(expected));
}
