//! Where a long line is parted. What the functions do is tried in C, `tests/c.rs`.

use super::{headed, WIDTH};

/// A head whose name fits behind its result, to the first comma, has it there, and else on the next line.
#[test]
fn a_long_head_is_parted_before_its_name() {
    let result = "MTR_MUST_USE static inline mtr_line";
    for end in ["(void)", "(uint64_t a, uint64_t b)"] {
        let first = end.find(',').map_or(end.len(), |comma| comma + 1);
        for (columns, gap) in [(WIDTH, " "), (WIDTH + 1, "\n")] {
            let name = "n".repeat(columns - result.len() - 1 - first);
            let found = headed(result, &format!("{name}{end}"));
            let begin = format!("{result}{gap}{name}{}", &end[..first]);
            assert!(found.starts_with(&begin), "{columns}: {found}");
            assert!(found.lines().all(|line| line.len() <= WIDTH), "{found}");
            let words: Vec<&str> = found.split_whitespace().collect();
            assert_eq!(words.join(" "), format!("{result} {name}{end}"));
        }
    }
}
