//! Pictures before and after additions of a later writer, by the library, with
//! the second reader as referee.

use crate::answers::Answers;
use crate::asked::Asked;
use crate::borrowed::{refused, same};
use crate::later::{version_refused, Later};
use crate::picture_table::{rows, Row};
use crate::{dump, Census, Outcome};
use florinhado::{Accepted, File};
use second::generate::sound_file;
use second::random::Random;
use std::fmt::Debug;

/// One file with one list of additions, then some of their headers renamed.
pub fn compare_list(random: &mut Random, census: &mut Census) -> Outcome {
    let before = accepted_file(random);
    let asked = Asked::all(random, &before);
    let mut later = Later::new(random, &before);
    census.additions(&later);
    let report = |text, file: &[u8]| format!("{text}\nbefore: {}after: {}", dump(&before), dump(file));
    compare_pictures(&before, &later, &asked, census).map_err(|text| report(text, &later.file))?;
    if let Some(places) = later.rename(random) {
        census.add(1, "renamings", "in all");
        census.add(places.len() as u64, "headers renamed", "in all");
        let inner = places.iter().filter(|place| later.inner.contains(place));
        census.add(inner.count() as u64, "headers renamed", "inside an added group");
        compare_renamed(&later, &places, &asked).map_err(|text| report(text, &later.file))?;
    }
    Ok(())
}

fn accepted_file(random: &mut Random) -> Vec<u8> {
    loop {
        let file = sound_file(random);
        if second::check(&file).is_ok() {
            return file;
        }
    }
}

/// The file is still accepted, and every call on every picture answers as
/// before, but for the place of a shared PROP.
fn compare_pictures(before: &[u8], later: &Later, asked: &[Asked], census: &mut Census) -> Outcome {
    let accepted = florinhado::check(before).map(|accepted| later.accepted(accepted));
    agree("check", florinhado::check(&later.file), accepted, check_by_second(&later.file))?;
    let pictures = florinhado::count_pictures(before);
    let referee = second::count_pictures(&later.file).map_err(refused);
    agree("pictures", florinhado::count_pictures(&later.file), pictures, referee)?;
    compare_tables(before, later, census)?;
    let opened = File::new(&later.file);
    for asked in asked {
        let old = Answers::of_library(before, asked);
        let new = Answers::of_library(&later.file, asked);
        census.add(u64::from(old.rows.is_shown()), "pictures", "shown");
        let moves: Vec<usize> = old.props().into_iter().map(|place| later.moved(place) - place).collect();
        census.add(u64::from(moves.iter().any(|by| *by > 0)), "pictures", "with a PROP moved");
        let apart = moves.windows(2).any(|pair| pair[0] != pair[1]);
        census.add(u64::from(apart), "pictures", "with PROPs moved by different lengths");
        let wanted = old.moved(&|place| later.moved(place));
        let referee = Answers::of_second(&later.file, asked);
        let by_table = Answers::of_opened(&opened, asked);
        agree(&format!("picture {}, file opened", asked.picture), &by_table, &wanted, &referee)?;
        agree(&format!("picture {}", asked.picture), new, wanted, referee)?;
    }
    census.add(asked.len() as u64, "pictures", "asked for");
    Ok(())
}

/// The table has the same answers, types and origins as before, and every place moved; what lies there is the same.
fn compare_tables(before: &[u8], later: &Later, census: &mut Census) -> Outcome {
    let place = |place| later.moved(place);
    let old = rows(before).map_err(|refused| refused.to_string())?;
    let wanted: Vec<Row> = old.iter().map(|row| row.moved(&place)).collect();
    let new = rows(&later.file);
    for (old, new) in old.iter().zip(new.iter().flatten()) {
        let bytes = |file: &[u8], row: &Row| row.parts().map(|part| file[part].to_vec());
        same("data of a row", bytes(&later.file, new), bytes(before, old))?;
        census.add(1, "rows of the table", "in all");
        census.add(u64::from(old != new), "rows of the table", "with a place moved");
    }
    agree("table", new, Ok(wanted), Row::of_second(&later.file))
}

/// Every call gives 3 at the first of these places.
fn compare_renamed(later: &Later, places: &[usize], asked: &[Asked]) -> Outcome {
    let Some(refusal) = version_refused(places) else { return Ok(()) };
    let file = &later.file;
    agree("check", florinhado::check(file), Err(refusal), check_by_second(file))?;
    let referee = second::count_pictures(file).map_err(refused);
    agree("pictures", florinhado::count_pictures(file), Err(refusal), referee)?;
    agree("table", rows(file), Err(refusal), Row::of_second(file))?;
    let opened = File::new(file);
    asked.iter().try_for_each(|asked| {
        let wanted = Answers::all_refused(refusal, asked);
        let referee = Answers::of_second(file, asked);
        agree("file opened, renamed", &Answers::of_opened(&opened, asked), &wanted, &referee)?;
        let told = Answers::of_library(file, asked);
        agree(&format!("picture {}, renamed", asked.picture), told, wanted, referee)
    })
}

fn check_by_second(file: &[u8]) -> Result<Accepted, florinhado::Refused> {
    let accepted = |a: second::Accepted| Accepted { chunks: a.chunks, end: a.end, trailing: a.trailing };
    second::check(file).map(accepted).map_err(refused)
}

/// Fails unless the library tells what it must, and the second reader the same.
fn agree<T: PartialEq + Debug>(what: &str, told: T, wanted: T, referee: T) -> Outcome {
    if told != wanted {
        return Err(format!("{what}: the library gives {told:?}, but must give {wanted:?}"));
    }
    if referee != wanted {
        return Err(format!("{what}: the library gives {told:?}, the second reader {referee:?}"));
    }
    Ok(())
}
