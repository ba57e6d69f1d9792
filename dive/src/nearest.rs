//! The name that was probably meant.

/// The name nearest to a word: the same but for capitals, or a letter or two away.
pub fn nearest<'a>(word: &str, names: impl Iterator<Item = &'a str>) -> Option<&'a str> {
    // No name is so long that it could be near.
    if word.len() > 60 {
        return None;
    }
    let small = word.to_lowercase();
    let most = if word.chars().count() > 4 { 2 } else { 1 };
    names
        .map(|name| (distance(&small, &name.to_lowercase()), name))
        .filter(|(distance, _)| *distance <= most)
        .min_by_key(|(distance, _)| *distance)
        .map(|(_, name)| name)
}

/// How many letters must be put in, taken out or changed to get from one word to the other.
fn distance(one: &str, other: &str) -> usize {
    let other: Vec<char> = other.chars().collect();
    let mut row: Vec<usize> = (0..=other.len()).collect();
    for (at, letter) in one.chars().enumerate() {
        let mut corner = row[0];
        row[0] = at + 1;
        for (column, &opposite) in other.iter().enumerate() {
            let change = corner + usize::from(letter != opposite);
            corner = row[column + 1];
            row[column + 1] = change.min(corner + 1).min(row[column] + 1);
        }
    }
    row[other.len()]
}

#[cfg(test)]
mod tests {
    use super::*;

    #[test]
    fn letters_are_counted() {
        assert_eq!(distance("", "abc"), 3);
        assert_eq!(distance("pow", "pow"), 0);
        assert_eq!(distance("flaw", "lawn"), 2);
    }

    #[test]
    fn the_nearest_name_is_found() {
        let names = || ["Pow", "Pop", "Reciprocal"].into_iter();
        assert_eq!(nearest("POW", names()), Some("Pow"));
        assert_eq!(nearest("recipocal", names()), Some("Reciprocal"));
        assert_eq!(nearest("zebra", names()), None);
    }
}
