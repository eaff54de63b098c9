//! Near misses: the word that was probably meant.

/// A longer word is not compared.
const LONGEST: usize = 64;

/// "; did you mean 'relation'?", or nothing.
pub fn did_you_mean<'c>(word: &str, candidates: impl IntoIterator<Item = &'c str>) -> String {
    let meant = near(word, candidates);
    meant.map_or_else(String::new, |meant| format!("; {}", question(meant)))
}

pub fn question(meant: &str) -> String {
    format!("did you mean '{meant}'?")
}

/// The candidate that the word comes nearest to, if it comes near at all; of several the first.
pub fn near<'c>(word: &str, candidates: impl IntoIterator<Item = &'c str>) -> Option<&'c str> {
    let word = letters(word);
    let allowed = match word.len() {
        2..=5 => 1,
        6..=LONGEST => 2,
        _ => return None,
    };
    let distances = candidates.into_iter().map(|candidate| {
        let letters = letters(candidate);
        let far = letters.len().abs_diff(word.len()) > allowed || numbered_apart(&word, &letters);
        (if far { usize::MAX } else { distance(&word, &letters) }, candidate)
    });
    let nearest = distances.min_by_key(|&(distance, _)| distance);
    nearest.filter(|&(distance, _)| distance <= allowed).map(|(_, candidate)| candidate)
}

fn letters(word: &str) -> Vec<char> {
    word.chars().take(LONGEST + 1).flat_map(char::to_lowercase).collect()
}

/// Two that differ in digits only, as r1 and r2, are meant to be two.
fn numbered_apart(one: &[char], other: &[char]) -> bool {
    let both_digits = |a: char, b: char| a.is_ascii_digit() && b.is_ascii_digit();
    let alike = one.iter().zip(other).all(|(&a, &b)| a == b || both_digits(a, b));
    one.len() == other.len() && alike && one != other
}

/// How many letters are changed, put in, left out, or swapped with the next one.
fn distance(one: &[char], other: &[char]) -> usize {
    let mut rows: Vec<Vec<usize>> = vec![(0..=other.len()).collect()];
    for (i, &a) in one.iter().enumerate() {
        let mut row = vec![i + 1];
        for (j, &b) in other.iter().enumerate() {
            let changed = rows[i][j] + usize::from(a != b);
            let mut least = changed.min(rows[i][j + 1] + 1).min(row[j] + 1);
            if i > 0 && j > 0 && a == other[j - 1] && one[i - 1] == b {
                least = least.min(rows[i - 1][j - 1] + 1);
            }
            row.push(least);
        }
        rows.push(row);
    }
    rows[one.len()][other.len()]
}

#[cfg(test)]
mod tests {
    use super::near;

    #[test]
    fn a_letter_wrong_missing_too_many_or_swapped() {
        let names = ["customers", "orders", "items"];
        for word in ["custmers", "custoomers", "cusotmers", "Customers", "kustomers"] {
            assert_eq!(near(word, names), Some("customers"), "{word}");
        }
        assert_eq!(near("ordres", names), Some("orders"));
    }

    #[test]
    fn what_is_far_is_not_meant() {
        let names = ["customers", "orders", "to"];
        for word in ["", "x", "north", "sites", &"orders".repeat(20)] {
            assert_eq!(near(word, names), None, "{word}");
        }
    }
}
