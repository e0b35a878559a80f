//! Pictures: that they are well formed, finite and of bounded size, and each mark.

use journal::draw::{Drawing, Options};
use journal::engine::Proved;
use journal::names::Names;
use model::calls::{apply, record};
use model::rule::Scheduler;
use samples::random::{call, Rng};
use samples::records;

use crate::common::{drawn, encode, listing, part, svg};
use crate::controller::{play, Server};
use crate::late;
use crate::stats::LATE;

/// Tags are balanced, attributes quoted and known to be finite, text escaped.
pub fn check(svg: &str) {
    let mut open: Vec<&str> = Vec::new();
    let mut rest = svg;
    let mut roots = 0;
    while let Some(at) = rest.find('<') {
        let text = &rest[..at];
        assert!(!text.contains('>'), "{text}");
        assert!(open.last().is_some() || text.trim().is_empty(), "{text}");
        for entity in text.split('&').skip(1) {
            let known = ["amp;", "lt;", "gt;", "quot;"];
            assert!(known.iter().any(|k| entity.starts_with(k)), "{text}");
        }
        let end = at + rest[at..].find('>').expect("a tag ends");
        let tag = &rest[at + 1..end];
        rest = &rest[end + 1..];
        if let Some(name) = tag.strip_prefix('/') {
            assert_eq!(open.pop(), Some(name));
            continue;
        }
        let (tag, closed) = match tag.strip_suffix('/') {
            Some(tag) => (tag, true),
            None => (tag, false),
        };
        let name = tag.split(' ').next().unwrap();
        roots += open.is_empty() as u32;
        assert_eq!(open.is_empty(), name == "svg");
        attributes(&tag[name.len()..]);
        if !closed {
            open.push(name);
        }
    }
    assert!(open.is_empty() && rest.trim().is_empty());
    assert_eq!(roots, 1);
}

fn attributes(mut rest: &str) {
    while !rest.is_empty() {
        let (name, after) = rest.split_once("=\"").expect("name=\"value\"");
        let name = name.strip_prefix(' ').expect("a blank before a name");
        assert!(name.bytes().all(|b| b.is_ascii_alphabetic() || b == b'-'));
        let (value, after) = after.split_once('"').expect("the value ends");
        assert!(!value.contains('<'));
        match name {
            "x" | "y" | "width" | "height" => {
                let value: f64 = value.parse().expect(value);
                assert!(value.is_finite() && value.abs() < 20_000.0, "{value}");
                assert!(name != "width" && name != "height" || value >= 0.0);
            }
            "d" => {
                let numbers = value.split(|c: char| c.is_ascii_alphabetic() || c == ' ');
                for number in numbers.filter(|n| !n.is_empty()) {
                    let number: f64 = number.parse().expect(number);
                    assert!(number.is_finite() && number.abs() < 20_000.0, "{number}");
                }
                assert!(value
                    .bytes()
                    .all(|b| b"MmLlHhVvz .-".contains(&b) || b.is_ascii_digit()));
            }
            _ => {}
        }
        rest = after;
    }
}

#[test]
fn nothing_and_next_to_nothing() {
    for text in [
        "block 0\n",
        "dispatch\n",
        "admit 0 group 0 reservation 1000\n",
        "admit 0 group 0 reservation 1\ndispatch\n",
        "admit 0 group 0 reservation 1\ndispatch\nreport tick 1\n",
        "start thousandth 0 interval 0\nwake 64\nremove 3\n",
        "damaged 0 17\nhex 00\n",
    ] {
        let svg = svg(&encode(text));
        assert!(svg.len() < 10_000, "{}", svg.len());
    }
    assert!(svg(&[]).contains("No thread was admitted."));
    let tickless = svg(&encode(
        "admit 0 group 0 reservation 1\ndispatch\nreport tick 0\n",
    ));
    assert!(tickless.contains("thread 0 has the core at 0 without a tick, from record 1"));
}

/// Paths of a class in the plots: without those of the legend.
pub fn paths<'a>(svg: &'a str, class: &str) -> Vec<&'a str> {
    let start = format!("<path class=\"{class}\" d=\"");
    let paths = svg.split(&start).skip(1);
    let paths = paths.map(|rest| rest.split('"').next().unwrap());
    paths
        .filter(|path| !path.contains("h18") && !path.contains("h26"))
        .collect()
}

/// The numbers of a path.
pub fn numbers(path: &str) -> Vec<f64> {
    let parts = path.split(|c: char| c.is_ascii_alphabetic() || c == ' ');
    parts.filter_map(|part| part.parse().ok()).collect()
}

/// Where the plots begin, and how wide a tick is in a picture of so many.
pub fn axis(svg: &str, ticks: f64) -> (f64, f64) {
    let axis = numbers(paths(svg, "axis")[0]);
    (axis[0], axis[2] / ticks)
}

/// The rectangles of a class, as x and width.
fn rects(svg: &str, class: &str) -> Vec<(f64, f64)> {
    let start = format!("<rect class=\"{class}\" ");
    let number = |rect: &str, name: &str| between(rect, &format!("{name}=\""), "\"").parse();
    let rects = svg.split(&start).skip(1);
    rects
        .map(|rect| (number(rect, "x").unwrap(), number(rect, "width").unwrap()))
        .collect()
}

/// What stands between two texts.
fn between<'a>(svg: &'a str, before: &str, after: &str) -> &'a str {
    let rest = svg.split_once(before).unwrap().1;
    rest.split_once(after).unwrap().0
}

/// Where a text stands, one that is pointed at or a plain one: x and y.
pub fn place(svg: &str, text: &str) -> (f64, f64) {
    let ends = ["<title>", "</text>"].map(|end| format!(">{text}{end}"));
    let mut found = ends.iter().filter_map(|end| svg.split_once(end));
    let before = found.next().expect(text).0;
    let tag = before.rsplit_once("<text ").unwrap().1;
    let number = |name: &str| between(tag, &format!("{name}=\""), "\"").parse().unwrap();
    (number("x"), number("y"))
}

#[test]
fn the_listing_shows_runs_a_wake_refusals_and_lags() {
    let svg = svg(&listing());
    let count = |what: &str| svg.matches(what).count();
    // Two runs of thread 5, one of 7, and 7 again at the end.
    assert_eq!(count("thread 5 has the core from"), 2);
    assert_eq!(count("thread 7 has the core from"), 1);
    assert_eq!(count("thread 7 has the core at the end"), 1);
    assert!(svg.contains("thread 5 has the core from 0 to 32 ms, from record 3"));
    assert!(svg.contains("record 11 refused: 12, a thread is running"));
    assert!(svg.contains("record 12 refused: 13, more used than the slice (thread 5)"));
    assert!(svg.contains(">12, 13<"));
    // Shares, bounds and largest lags.
    for text in ["833 ‰", "167 ‰", "60 ms", "20 ms", "5 ms", "3.2 ms"] {
        assert!(svg.contains(&format!(">{text}<")), "{text}");
    }
    // Thread 5 is blocked from 32 ms on, woken there, and waits for 10 ms; thread 7
    // waits for 32 ms.
    let (left, tick) = axis(&svg, 60_000.0);
    let near = |a: f64, b: f64| (a - b).abs() < 0.02;
    let waits: Vec<Vec<f64>> = paths(&svg, "wait").into_iter().map(numbers).collect();
    assert!(near(waits[0][0], left + 32_000.0 * tick) && near(waits[0][2], left + 42_000.0 * tick));
    assert!(near(waits[1][0], left) && near(waits[1][2], left + 32_000.0 * tick));
    // Behind that of the legend.
    let wakes = paths(&svg, "wake");
    assert_eq!(wakes.len(), 2);
    assert!(near(numbers(wakes[1])[0], left + 32_000.0 * tick));
}

#[test]
fn blocked_threads_and_starts_are_shown() {
    let text = "admit 1 group 0 reservation 400\nadmit 2 group 0 reservation 400\n\
                dispatch\nreport block 3000\ndispatch\nreport exit 1000\n\
                start thousandth 100 interval 20000\n\
                admit 2 group 0 reservation 400\ndispatch\nreport tick 4000\n";
    let svg = svg(&encode(text));
    let (left, tick) = axis(&svg, 8_000.0);
    let blocked = numbers(paths(&svg, "blocked")[0]);
    assert!((blocked[0] - left - 3_000.0 * tick).abs() < 0.02);
    assert!((blocked[2] - 1_000.0 * tick).abs() < 0.02 && blocked[3] > 2.0);
    let starts = paths(&svg, "start");
    assert_eq!(starts.len(), 1);
    assert!((numbers(starts[0])[0] - left - 4_000.0 * tick).abs() < 0.02);
    // Threads that left keep their shares, with a word.
    assert!(svg.contains(">start<") && svg.contains(">ended<"));
    assert!(svg.contains("share of thread 1, until the start at record 6: 750 ‰"));
    let left = "admit 1 group 0 reservation 400\ndispatch\nreport exit 3000\n";
    let svg = crate::common::svg(&encode(left));
    assert!(svg.contains(">left<"));
    assert!(svg.contains("share of thread 1, until it left at record 2: 1000 ‰"));
}

#[test]
fn what_a_run_used_beyond_its_slice_is_marked() {
    let svg = svg(&encode(LATE));
    for text in [
        "m 10, P 1,000, O 9 · 3 overruns",
        ">beyond its slice<",
        ".late{",
        "thread 1 runs 0.009 ms beyond its slice, up to record 4",
        "thread 2 runs 0.005 ms beyond its slice, up to record 10",
        "thread 2: reservation 20 ‰ in group 0, 2 dispatches, 0 wakes, 2 overruns of 0.01 ms<",
        "(2f(1000 − f)m + fP + fV) / 1000, V others' overruns<",
    ] {
        assert!(svg.contains(text), "{text}");
    }
    // Behind the one of the legend three marks, each at the end of its run, and
    // as long as it is on the axis.
    let (runs, marks) = (rects(&svg, "run"), rects(&svg, "late"));
    assert_eq!((runs.len(), marks.len()), (6, 4));
    let (_, tick) = axis(&svg, 605.0);
    for ((x, w), ticks) in marks[1..].iter().zip([9.0, 5.0, 5.0]) {
        assert!((w - tick * ticks).abs() < 0.02, "{w} {ticks}");
        let end = x + w;
        assert!(runs[2..].iter().any(|(x, w)| (x + w - end).abs() < 0.02));
    }
    // The bounds have a rise and a fall each.
    for path in paths(&svg, "bound") {
        assert_eq!(
            (path.matches('L').count(), path.matches('V').count()),
            (1, 1)
        );
    }
}

#[test]
fn without_overruns_there_is_no_word_of_them() {
    let on_time = encode(&LATE.replace("109", "100").replace("205", "200"));
    for journal in [listing(), on_time] {
        let svg = svg(&journal);
        for word in ["late", "beyond", "overrun", "fV"] {
            assert!(!svg.contains(word), "{word}");
        }
        // A bound is one line.
        assert_eq!(paths(&svg, "bound").len(), 2);
        for path in paths(&svg, "bound") {
            assert!(!path.contains(['L', 'V']) && path.matches('M').count() == 1);
        }
    }
    // Other threads' overruns count also where they are not shown.
    let two = part(&encode(LATE), "", "", &[2]);
    assert!(!two.contains("thread 1") && two.contains(" + fV"));
    assert!(two.contains("2 overruns"));
    // A part that begins or ends where a bound falls has no fall.
    for (from, to, falls) in [(0, 605, 1), (314, 605, 0), (0, 314, 0), (313, 315, 1)] {
        let [from, to] = [from, to].map(|ticks| format!("{ticks}us"));
        let svg = part(&encode(LATE), &from, &to, &[2]);
        let path = paths(&svg, "bound")[0];
        assert_eq!(path.matches('V').count(), falls, "{from} to {to}: {path}");
    }
}

#[test]
fn many_overruns_are_thinned_out() {
    let svg = svg(&late::play::<Proved>(90, 3_000_000).journal());
    assert!(svg.contains("(heights: parts of the time"));
    assert!(svg.contains(">beyond its slice<") && svg.contains(" + fV"));
    // A mark in each lane besides that of the legend; wakes in two.
    assert_eq!(rects(&svg, "late").len(), 1);
    assert_eq!(paths(&svg, "late").len(), 3);
    assert_eq!(paths(&svg, "wake").len(), 3);
    assert_eq!(paths(&svg, "lags").len(), 3);
    assert!(svg.len() < 200_000, "{}", svg.len());
    // Readout never waits: its bound rises from one end to the other.
    let path = paths(&svg, "bound")[0];
    assert_eq!(path.matches('M').count(), 1);
    let steps: Vec<f64> = path
        .split('V')
        .skip(1)
        .map(|step| step.split('H').next().unwrap().parse().unwrap())
        .collect();
    assert!(steps.len() > 50 && steps.is_sorted_by(|a, b| a >= b));
    // One thread overruns 2000 times while another, the one shown, waits.
    let mut text = String::from(
        "start thousandth 1000 interval 1 overrun 1\n\
         admit 1 group 0 reservation 900\nadmit 2 group 0 reservation 9\n",
    );
    text.push_str(&"dispatch\nreport tick 2\n".repeat(2000));
    let waits = part(&encode(&text), "", "", &[2]);
    assert!(waits.contains(" + fV") && waits.contains("(heights:"));
    assert!(waits.len() < 50_000, "{}", waits.len());
}

#[test]
fn damaged_blocks_are_shown() {
    let part = "start thousandth 100 interval 20000\nadmit 1 group 0 reservation 400\n\
                dispatch\nreport tick 15000\ndispatch\nreport block 100\n";
    let text = format!("block\n{part}block\nwake 1\nblock\n{part}block\n{part}");
    let mut journal = encode(&text);
    journal[512 + 20] ^= 1;
    journal.extend_from_slice(&[7; 100]);
    let Drawing { svg, tally } = drawn(&journal, &Options::default());
    assert_eq!((tally.blocks, tally.damaged), (5, 2));
    assert_eq!(tally.first, Some((1, 18)));
    // In the legend, through the lanes and through the lags.
    assert_eq!(rects(&svg, "gap").len(), 5);
    for text in [
        "block 1 refused: 18, check wrong",
        "block 4 refused: 17, not 512 bytes",
        "3 starts · 2 blocks damaged",
        // The state after the last damaged block is not known, the share before is.
        ">lost<",
        "share of thread 1, up to a damaged block: 1000 ‰",
    ] {
        assert!(svg.contains(text), "{text}");
    }
}

#[test]
fn titles_and_names_are_escaped_and_cut() {
    let long = "<readout> of the detector with a name that no lane has room for";
    let mut names = Names::default();
    names.give(5, long);
    let options = Options {
        title: Some("a < b & \"c\" \u{0}".into()),
        names,
        ..Options::default()
    };
    let svg = drawn(&listing(), &options).svg;
    assert!(svg.contains("<title>a &lt; b &amp; &quot;c&quot; \u{fffd}</title>"));
    // Cut in the lane and beside the lags, whole where it is pointed at.
    let whole = long.replace('<', "&lt;").replace('>', "&gt;");
    for end in [": reservation", "</title>"] {
        assert!(
            svg.contains(&format!("…<title>thread 5 ({whole}){end}")),
            "{end}"
        );
    }
    assert!(svg.contains(&format!("thread 5 ({whole}) has the core from 0 to 32 ms")));
    // A plot begins right of every name.
    let left: f64 = between(&svg, "class=\"panel\" x=\"", "\"").parse().unwrap();
    assert!(left > 300.0);
}

#[test]
fn groups_stand_beside_the_lanes_with_their_ceilings() {
    let text = "open 1 parent 0 ceiling 600\nopen 3 parent 1 ceiling 200\n\
                open 2 parent 0 ceiling 300\nopen 9 parent 2 ceiling 10\nclose 9\n\
                admit 1 group 3 reservation 100\nadmit 2 group 0 reservation 50\n\
                admit 3 group 1 reservation 300\ndispatch\nreport tick 1000\n";
    let svg = svg(&encode(text));
    let order = [
        "group 0 · ceiling 1000 ‰",
        "group 1 in 0 · ceiling 600 ‰",
        "group 3 in 1 · ceiling 200 ‰",
        "group 2 in 0 · ceiling 300 ‰",
    ];
    assert!(order.map(|text| place(&svg, text).1).is_sorted());
    assert!(!svg.contains("group 9"));
    // Lanes group by group.
    let lanes = ["thread 2", "thread 3", "thread 1"];
    assert!(lanes.map(|text| place(&svg, text).1).is_sorted());
    assert!(svg.contains("thread 1: reservation 100 ‰ in group 3, 1 dispatch"));
}

#[test]
fn refusals_are_told_in_words() {
    let svg = svg(&encode(
        "wake 70\nadmit 1 group 5 reservation 9\nwake 3\nremove 3\n",
    ));
    let words = "number above 63 or not admitted: 3 times, first at record 0, 0";
    assert!(svg.contains(&format!(">{words}<")));
    assert!(svg.contains(">the group is above 15 or not open: at record 1, 0<"));
    assert!(svg.contains("record 2 refused: 7, number above 63 or not admitted (thread 3)"));
}

#[test]
fn pictures_have_the_width_asked_for() {
    let mut damaged = listing();
    damaged.extend_from_slice(&[7; 600]);
    let long = play::<Proved>(Server::Jittery, 5_000_000).journal();
    for (journal, widths) in [(damaged, [360, 4000]), (long, [460, 800])] {
        for width in widths {
            let options = Options {
                title: Some("A title that has no room in a narrow picture, as it goes on".into()),
                width,
                ..Options::default()
            };
            let svg = drawn(&journal, &options).svg;
            assert!(svg.starts_with(&format!(
                "<svg xmlns=\"http://www.w3.org/2000/svg\" width=\"{width}\" "
            )));
            // Texts begin within it.
            for place in svg.split("<text x=\"").skip(1) {
                let x: f64 = place.split('"').next().unwrap().parse().unwrap();
                assert!((0.0..f64::from(width)).contains(&x), "{place}");
            }
        }
    }
}

/// Calls of all kinds on all 64 threads, many of them refused.
#[test]
fn the_worst_journal_has_a_bounded_picture() {
    let mut r = Rng::new(10);
    let mut s = Scheduler::default();
    let mut records = Vec::new();
    while records.len() < 40_000 {
        let call = call(&mut r, &s);
        apply(&mut s, call);
        records.push(record(call));
        if r.chance(1, 5000) {
            let overrun = r.below(100);
            s = Scheduler::start(100, 20_000, overrun).unwrap();
            records.push(records::start(100, 20_000, overrun as u16));
        }
    }
    let mut journal = records::journal(&records);
    let whole = svg(&journal);
    assert!(whole.len() < 2_000_000, "{}", whole.len());
    assert_eq!(paths(&whole, "refusals").len(), 1);
    for place in 0..200 {
        journal[512 * 6 * place + 3] ^= 9;
    }
    let damaged = svg(&journal);
    assert!(damaged.len() < 2_000_000, "{}", damaged.len());
}
