//! The smallest script that still shows a difference.

/// How often a shrinking may ask whether a script still shows the difference.
const MOST_QUESTIONS: usize = 5000;

/// Drops lines of a script that shows a difference for as long as it still does. `differs` says whether a script does.
///
/// First the lines after the difference go (a longer script shows what a shorter one shows, so the shortest beginning is
/// found by halving), then ever smaller runs of lines, down to single ones. At the end no single line can be dropped.
pub fn shrink<L: Clone>(lines: &[L], mut differs: impl FnMut(&[L]) -> bool) -> Vec<L> {
    let mut questions = 0;
    let mut ask = |candidate: &[L]| {
        questions += 1;
        questions <= MOST_QUESTIONS && differs(candidate)
    };
    let mut lines = shortest_beginning(lines, &mut ask);
    let mut run = lines.len().div_ceil(2);
    while run > 0 {
        let before = lines.len();
        lines = drop_runs(lines, run, &mut ask);
        let dropped = lines.len() < before;
        // Single lines are tried again until none can be dropped.
        if run > 1 || !dropped {
            run /= 2;
        }
        run = run.min(lines.len());
    }
    lines
}

/// The shortest beginning that shows a difference.
fn shortest_beginning<L: Clone>(lines: &[L], ask: &mut impl FnMut(&[L]) -> bool) -> Vec<L> {
    let mut none = 0;
    let mut some = lines.len();
    while some - none > 1 {
        let middle = none + (some - none) / 2;
        if ask(&lines[..middle]) {
            some = middle;
        } else {
            none = middle;
        }
    }
    lines[..some].to_vec()
}

/// Drops every run of `length` lines that can be dropped, from the end to the beginning.
fn drop_runs<L: Clone>(
    mut lines: Vec<L>,
    length: usize,
    ask: &mut impl FnMut(&[L]) -> bool,
) -> Vec<L> {
    let mut end = lines.len();
    while end > 0 {
        let start = end.saturating_sub(length);
        let mut candidate = lines.clone();
        candidate.drain(start..end);
        if ask(&candidate) {
            lines = candidate;
        }
        end = start;
    }
    lines
}

#[cfg(test)]
mod tests {
    use super::*;

    #[test]
    fn finds_the_lines_that_matter() {
        let lines: Vec<u32> = (0..1000).collect();
        let needed = [17, 400, 401, 903];
        let mut questions = 0;
        let smallest = shrink(&lines, |candidate| {
            questions += 1;
            needed.iter().all(|line| candidate.contains(line))
        });
        assert_eq!(smallest, needed);
        assert!(questions < 300, "{questions}");
    }

    #[test]
    fn a_single_line() {
        assert_eq!(shrink(&[1, 2, 3], |lines| lines.contains(&1)), [1]);
        assert_eq!(shrink(&[1], |lines| lines.contains(&1)), [1]);
    }

    #[test]
    fn a_difference_that_needs_no_line() {
        assert_eq!(shrink(&[1, 2, 3], |_| true), Vec::<u32>::new());
        assert_eq!(shrink(&[], |_: &[u32]| true), Vec::<u32>::new());
    }

    #[test]
    fn no_single_line_can_be_dropped_at_the_end() {
        // Any two lines of the same remainder show the difference.
        let lines: Vec<u32> = (0..200).collect();
        let differs = |candidate: &[u32]| {
            candidate.iter().any(|one| {
                candidate
                    .iter()
                    .any(|other| one < other && one % 50 == other % 50)
            })
        };
        let smallest = shrink(&lines, differs);
        assert_eq!(smallest.len(), 2);
    }

    #[test]
    fn it_ends_in_any_case() {
        let lines: Vec<u32> = (0..20_000).collect();
        let mut questions = 0;
        // Every line is needed.
        shrink(&lines, |candidate| {
            questions += 1;
            candidate.len() == lines.len()
        });
        assert!(questions <= MOST_QUESTIONS);
    }
}
