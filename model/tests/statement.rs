//! F-5 and F-8: the text of a statement, its sums and its rate; and the refusals
//! in their order.

use model::scenario::Random;
use model::statement;
use model::statement::{input, Day, BAD_LIST, MAX_DAYS, NOBODY};

fn list(days: &[Day]) -> Vec<u8> {
    input(days.len() as u16, days)
}

fn printed(days: &[Day]) -> String {
    String::from_utf8(statement(&list(days))).unwrap()
}

fn last_line(days: &[Day]) -> String {
    printed(days).lines().last().unwrap().to_string()
}

#[track_caller]
fn refuses(input: &[u8], refusal: u8) {
    assert_eq!(statement(input), format!("{refusal}\n").into_bytes());
}

#[test]
fn a_worked_example() {
    let bytes = [3, 0, 20, 0, 0, 0, 44, 1, 3, 0, 0, 0, 1, 1];
    let days = [(20, 3), (0, 0), (300, 257)];
    assert_eq!(list(&days), bytes);
    let text = "\
1 20 3
2 0 0
3 300 257
320 260 812
";
    assert_eq!(printed(&days), text);
}

#[test]
fn the_rate_is_rounded_to_the_nearest_whole() {
    assert_eq!(printed(&[(1, 1)]), "1 1 1\n1 1 1000\n");
    assert_eq!(printed(&[(1, 0)]), "1 1 0\n1 0 0\n");
    assert_eq!(last_line(&[(3, 2)]), "3 2 667");
    assert_eq!(last_line(&[(3, 1)]), "3 1 333");
    assert_eq!(last_line(&[(1000, 1)]), "1000 1 1");
    assert_eq!(last_line(&[(2001, 1)]), "2001 1 0");
    assert_eq!(last_line(&[(1999, 1)]), "1999 1 1");
    assert_eq!(last_line(&[(65535, 65534)]), "65535 65534 1000");
    // The rate of the sums, not the mean of the days' rates.
    assert_eq!(last_line(&[(1, 1), (9, 0)]), "10 1 100");
}

/// F-8: "1 of 16 prints 62, 3 of 16 prints 188."
#[test]
fn a_tie_goes_to_the_even_one() {
    assert_eq!(last_line(&[(16, 1)]), "16 1 62");
    assert_eq!(last_line(&[(16, 3)]), "16 3 188");
    assert_eq!(last_line(&[(2000, 1)]), "2000 1 0");
    assert_eq!(last_line(&[(2000, 3)]), "2000 3 2");
    assert_eq!(last_line(&[(2000, 1997)]), "2000 1997 998");
    assert_eq!(last_line(&[(2000, 1999)]), "2000 1999 1000");
}

#[test]
fn the_greatest_list() {
    let text = printed(&[(u16::MAX, u16::MAX); MAX_DAYS]);
    assert!(text.starts_with("1 65535 65535\n2 65535 65535\n"));
    assert!(text.ends_with("\n366 65535 65535\n23985810 23985810 1000\n"));
    assert_eq!(text.lines().count(), MAX_DAYS + 1);
}

#[test]
fn refuses_a_wrong_length() {
    let days = [(20, 3), (0, 0), (300, 257)];
    let whole = list(&days);
    for length in 0..whole.len() {
        refuses(&whole[..length], BAD_LIST);
    }
    for more in [1, 2, 4, 1 << 20] {
        refuses(&[whole.clone(), vec![0; more]].concat(), BAD_LIST);
    }
    refuses(&input(2, &days), BAD_LIST);
    refuses(&input(4, &days), BAD_LIST);
}

#[test]
fn refuses_a_wrong_day_count() {
    refuses(&input(0, &[]), BAD_LIST);
    refuses(&input(0, &[(1, 1)]), BAD_LIST);
    refuses(&list(&[(1, 1); MAX_DAYS + 1]), BAD_LIST);
    refuses(&list(&[(1, 1); 65535]), BAD_LIST);
    refuses(&input(65535, &[]), BAD_LIST);
}

#[test]
fn refuses_a_day_with_more_rolled_back() {
    for days in [1, 2, MAX_DAYS] {
        for place in [0, days / 2, days - 1] {
            let mut records = vec![(7, 7); days];
            records[place] = (7, 8);
            refuses(&list(&records), BAD_LIST);
            records[place] = (7, 7);
            assert!(printed(&records).ends_with(" 1000\n"));
        }
    }
}

#[test]
fn refuses_a_list_in_which_nobody_took_part() {
    for days in [1, 2, MAX_DAYS] {
        let mut records = vec![(0, 0); days];
        refuses(&list(&records), NOBODY);
        records[days - 1] = (1, 0);
        assert_eq!(last_line(&records), "1 0 0");
    }
}

#[test]
fn twelve_comes_before_thirteen() {
    refuses(&list(&[(0, 1)]), BAD_LIST);
    refuses(&list(&[(0, 0), (0, 1)]), BAD_LIST);
    refuses(&list(&[(0, 0); MAX_DAYS + 1]), BAD_LIST);
    refuses(&input(2, &[(0, 0)]), BAD_LIST);
    refuses(&input(1, &[(0, 0), (0, 0)]), BAD_LIST);
    refuses(&input(0, &[]), BAD_LIST);
}

/// The numbers of each line of a text.
fn numbers(text: &str) -> Vec<Vec<u64>> {
    let number = |word: &str| word.parse().unwrap();
    let line = |line: &str| line.split(' ').map(number).collect();
    text.lines().map(line).collect()
}

/// F-5: "The printed sums equal the sums of the records for every list not
/// refused."
#[test]
fn the_printed_sums_are_those_of_the_printed_days() {
    let mut random = Random::new(5);
    for run in 0..2_000 {
        let most = [1, 9, 1_000, 65_535][run % 4];
        let length = [5, MAX_DAYS as u64][run / 4 % 2];
        let length = random.between(1, length);
        let mut days: Vec<Day> = (0..length)
            .map(|_| {
                let taken_part = random.between(0, most);
                (taken_part as u16, random.between(0, taken_part) as u16)
            })
            .collect();
        days[0].0 = days[0].0.max(1);

        let mut lines = numbers(&printed(&days));
        let last = lines.pop().unwrap();
        assert_eq!(lines.len(), days.len());
        let (mut taken_part, mut rolled_back) = (0, 0);
        for (number, (line, day)) in (1..).zip(lines.iter().zip(&days)) {
            assert_eq!(*line, [number, day.0.into(), day.1.into()]);
            taken_part += line[1];
            rolled_back += line[2];
        }
        let [sum_taken_part, sum_rolled_back, rate] = last[..] else {
            panic!("{last:?}");
        };
        assert_eq!((sum_taken_part, sum_rolled_back), (taken_part, rolled_back));
        // At most half away, and half only from an even rate.
        let away = (rate * taken_part).abs_diff(1000 * rolled_back);
        assert!(2 * away < taken_part || 2 * away == taken_part && rate % 2 == 0);
    }
}
