//! The name that a mistyped word is nearest to.

/// A question for the name that was meant, if one is near.
pub fn meant<'a>(word: &str, names: impl Iterator<Item = &'a str>) -> String {
    let near = names.map(|name| (distance(word, name), name)).min();
    match near {
        Some((far, name)) if far <= 2 && far < name.trim_start_matches('-').len() => {
            format!("; is {name} meant?")
        }
        _ => String::new(),
    }
}

/// Letters to put in, take out or change to come from one word to the other.
fn distance(one: &str, other: &str) -> usize {
    let mut row: Vec<usize> = (0..=other.len()).collect();
    for (place, letter) in one.bytes().enumerate() {
        let mut corner = std::mem::replace(&mut row[0], place + 1);
        for (column, with) in other.bytes().enumerate() {
            let changed = corner + usize::from(letter != with);
            corner = row[column + 1];
            row[column + 1] = changed.min(corner + 1).min(row[column] + 1);
        }
    }
    row[other.len()]
}

#[cfg(test)]
mod tests {
    use super::*;

    #[test]
    fn a_near_name_is_asked_for() {
        let names = ["encode", "decode", "--test", "-q"];
        let meant = |word| meant(word, names.into_iter());
        assert_eq!(meant("encod"), "; is encode meant?");
        assert_eq!(meant("decdoe"), "; is decode meant?");
        assert_eq!(meant("--tests"), "; is --test meant?");
        assert_eq!((meant("rebuild"), meant("-x"), meant("")), Default::default());
    }
}
