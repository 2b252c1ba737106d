//! The known name nearest to one that isn't known.

/// The known name with the fewest letters to change, if that is a third of them or so at most.
pub fn nearest<'a>(name: &str, known: impl IntoIterator<Item = &'a str>) -> Option<&'a str> {
    let name = name.to_lowercase();
    let most = 1 + name.chars().count() / 3;
    let known = known
        .into_iter()
        .map(|other| (distance(&name, other), other));
    let (changes, other) = known.min_by_key(|(changes, _)| *changes)?;
    (changes <= most).then_some(other)
}

/// `; did you mean ...?`, or nothing.
pub fn suggestion<'a>(name: &str, known: impl IntoIterator<Item = &'a str>) -> String {
    match nearest(name, known) {
        Some(other) => format!("; did you mean `{other}`?"),
        None => String::new(),
    }
}

/// How many letters are to be inserted, removed or replaced.
fn distance(from: &str, to: &str) -> usize {
    let to: Vec<char> = to.chars().collect();
    let mut row: Vec<usize> = (0..=to.len()).collect();
    for (place, letter) in from.chars().enumerate() {
        let mut before = row[0];
        row[0] = place + 1;
        for (column, other) in to.iter().enumerate() {
            let replaced = before + usize::from(letter != *other);
            before = row[column + 1];
            row[column + 1] = replaced.min(before + 1).min(row[column] + 1);
        }
    }
    row[to.len()]
}

#[cfg(test)]
mod tests {
    use super::*;

    const KNOWN: [&str; 4] = ["create", "create_budget", "charge_cpu", "plan"];

    #[test]
    fn distances() {
        assert_eq!(distance("plan", "plan"), 0);
        assert_eq!(distance("", "plan"), 4);
        assert_eq!(distance("plna", "plan"), 2);
        assert_eq!(distance("kitten", "sitting"), 3);
    }

    #[test]
    fn a_near_name_is_found() {
        assert_eq!(nearest("creat", KNOWN), Some("create"));
        assert_eq!(nearest("Create-Budget", KNOWN), Some("create_budget"));
        assert_eq!(nearest("chargecpu", KNOWN), Some("charge_cpu"));
        assert_eq!(nearest("xyz", KNOWN), None);
        assert_eq!(nearest("plan", []), None);
        assert_eq!(suggestion("plam", KNOWN), "; did you mean `plan`?");
        assert_eq!(suggestion("remove_it", KNOWN), "");
    }
}
