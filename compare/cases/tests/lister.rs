use cases::lister::{cases, Case, EXAMPLE};

fn named(name: &str) -> Case {
    cases().into_iter().find(|case| case.name == name).unwrap()
}

#[test]
fn example_is_the_documents_own() {
    assert_eq!(named("example").input.len(), 2 * 188 + 1);
    assert_eq!(named("example").expected, EXAMPLE);
}

#[test]
fn tails() {
    assert!(named("many").expected.ends_with("\ntail 187\n"));
    assert!(named("tail1").expected.ends_with("\ntail 1\n"));
    assert_eq!(named("empty").expected, "");
}

#[test]
fn many_has_all_sorts_of_headers() {
    let text = named("many").expected;
    let headers: Vec<Vec<&str>> = text
        .lines()
        .map(|line| line.split(' ').collect::<Vec<_>>())
        .filter(|parts| parts.get(1) == Some(&"header"))
        .collect();
    assert!(headers.len() >= 60);
    for (part, values) in [(2, 16), (3, 8), (4, 16)] {
        for value in 0..values {
            let value = value.to_string();
            assert!(headers.iter().any(|parts| parts[part] == value));
        }
    }
}

#[test]
fn many_has_every_refusal() {
    let text = named("many").expected;
    for refusal in (3..=10).chain([20]) {
        let refusal = refusal.to_string();
        let lines = text.lines().filter(|line| {
            let mut parts = line.split(' ').skip(1);
            parts.next() == Some("refused") && parts.next() == Some(&refusal)
        });
        assert!(lines.count() >= 10);
    }
}

/// What stands behind each `refused 7`.
fn remainders(text: &str) -> Vec<&str> {
    let lines = text.lines();
    lines
        .filter_map(|line| line.split_once(" refused 7 "))
        .map(|(_, remainder)| remainder)
        .collect()
}

/// And behind nothing else.
#[test]
fn remainders_are_eight_digits() {
    let text = named("many").expected;
    assert!(!text.lines().any(|line| line.ends_with(" refused 7")));
    for remainder in remainders(&text) {
        assert_eq!(remainder.len(), 8);
        assert!(!remainder.contains(|c| !matches!(c, '0'..='9' | 'a'..='f')));
        assert_ne!(remainder, "00000000");
    }
    let parts = text.lines().map(|line| line.split(' ').count());
    let with_four = parts.filter(|&parts| parts == 4).count();
    assert_eq!(with_four, remainders(&text).len());
}

#[test]
fn remainders_have_every_digit_at_every_place() {
    let text = named("many").expected;
    let remainders = remainders(&text);
    for place in 0..8 {
        for digit in b"0123456789abcdef" {
            let has = |remainder: &&str| remainder.as_bytes()[place] == *digit;
            assert!(remainders.iter().any(has), "{digit} at {place}");
        }
        let behind_zeros = |remainder: &&str| remainder.trim_start_matches('0').len();
        let has = |remainder: &&str| behind_zeros(remainder) == 8 - place;
        assert!(remainders.iter().any(has), "{place} zeros in front");
    }
}
