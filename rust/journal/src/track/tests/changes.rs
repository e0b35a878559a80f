//! A change of a reservation: the lag begins anew, with another slope and bound.

use super::*;

/// The first change leaves 20,000; a yield parts runs.
#[test]
fn a_change_parts_no_run() {
    let text = "admit 1 group 0 reservation 500\ndispatch\nreport tick 20000\n\
                change 1 reservation 200\nchange 1 reservation 400\n\
                dispatch\nreport tick 10000\ndispatch\nreport yield 10000\n\
                change 1 reservation 500\ndispatch\nreport tick 7000\n";
    let one = surveyed(&encode(text), &Window::whole()).threads[1];
    let Longest { ticks, at, record } = one.longest_run;
    assert_eq!((ticks, at, record), (40_000, 0, 1));
}

#[derive(Default)]
struct Lags(Vec<(u64, u64, i64, i64)>);

impl Sink for Lags {
    fn span(&mut self, s: &Span) {
        if s.thread == 1 {
            self.0.push((s.from.time, s.to, s.lag, s.slope));
        }
    }
}

/// 2f(1000 − f)m + fP is the same for 200 and for 900 if P is 200 × m.
#[test]
fn reservations_with_one_bound_have_two_slopes() {
    let text = "start thousandth 100 interval 20000\n\
                admit 2 group 0 reservation 100\nadmit 1 group 0 reservation 200\n\
                change 1 reservation 900\ndispatch\nreport tick 10000\n\
                change 1 reservation 200\n\
                dispatch\nreport block 9000\nchange 1 reservation 900\n\
                dispatch\nreport tick 1\n";
    let journal = encode(text);
    let lags = tracked(&journal, &Window::whole(), Lags::default()).0;
    let wait = (0, 10_000, 0, 900);
    let run = (10_000, 19_000, 0, -800);
    assert_eq!(lags, [wait, run, (19_000, 19_001, 0, 0)]);
    // It is blocked since the report, whatever follows at the same time.
    let one = surveyed(&journal, &Window::whole()).threads[1];
    assert_eq!((one.longest_block.ticks, one.longest_block.record), (1, 8));
}

/// Grown by 500 × 25 the bound of 500 is that of 525; from the change on it has not
/// grown.
#[test]
fn overruns_before_a_change_count_no_more() {
    let text = "start thousandth 10 interval 1000 overrun 9\n\
                admit 2 group 0 reservation 100\nadmit 3 group 0 reservation 100\n\
                admit 4 group 0 reservation 100\nadmit 1 group 0 reservation 500\n\
                dispatch\nreport tick 1009\ndispatch\nreport tick 1009\n\
                dispatch\nreport tick 1007\nchange 1 reservation 525\n\
                dispatch\nreport tick 1000\n";
    for (from, grown) in [(0, true), (3024, true), (3025, false)] {
        let window = Window {
            threads: std::array::from_fn(|n| n == 1),
            ..between(from, 4025)
        };
        let survey = surveyed(&encode(text), &window);
        assert_eq!(survey.threads[1].bound, 5_512_500, "{from}");
        assert_eq!(survey.grown, grown, "{from}");
    }
}
