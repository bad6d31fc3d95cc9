//! Changes to SCOPE's example with the first line that is to be printed, each judged by hand.

use lister_reference::{answer_to, WORKED};

/// What the first line is where the tables are listed.
const LISTED: &str = "listed";

/// What is replaced, by what, and the first line.
const CHANGES: [(&str, &str, &str); 92] = [
    // The form: keys, order, signs.
    ("min_zoom=0\n", "", "refusal=12"),
    ("min_zoom=0\n", "min_zoom=0\nmin_zoom=0\n", "refusal=12"),
    ("min_zoom=0\nmax_zoom=1\n", "max_zoom=1\nmin_zoom=0\n", "refusal=12"),
    ("min_zoom", "Min_zoom", "refusal=12"),
    ("min_zoom", "min-zoom", "refusal=12"),
    ("radius", "raduis", "refusal=12"),
    ("radius=64", "radius 64", "refusal=12"),
    ("radius=64", "radius==64", "refusal=12"),
    ("radius=64", "radius= 64", "refusal=12"),
    ("radius=64", " radius=64", "refusal=12"),
    ("radius=64", "radius=64 ", "refusal=12"),
    ("radius=64\n", "radius=64\r\n", "refusal=12"),
    ("radius=64\n", "radius=64\n\n", "refusal=12"),
    ("x=16384\ny=32768\n", "y=32768\nx=16384\n", "refusal=12"),
    ("x=16384\ny=32768\n", "x=16384\n", "refusal=12"),
    ("wh=10\n", "", "refusal=12"),
    ("wh=10\n", "wh=10\nwh=10\n", "refusal=12"),
    ("y=32768\nwh=10\n", "wh=10\ny=32768\n", "refusal=12"),
    ("x=16384\ny=32768\nwh=10\n", "wh=10\nx=16384\ny=32768\n", "refusal=12"),
    ("wh=10\n", "Wh=10\n", "refusal=12"),
    ("wh=10\n", "WH=10\n", "refusal=12"),
    ("wh=10\n", "w=10\n", "refusal=12"),
    ("wh=10\n", "hw=10\n", "refusal=12"),
    ("wh=10\n", "kwh=10\n", "refusal=12"),
    ("wh=10\n", "wh=10Wh\n", "refusal=12"),
    ("x=16384\n", "X=16384\n", "refusal=12"),
    ("count=4\n", "count=3\n", "refusal=12"),
    ("count=4\n", "count=5\n", "refusal=12"),
    ("count=4\n", "count=0\n", "refusal=12"),
    ("count=4\n", "", "refusal=12"),
    // Values: digits, zeros, signs.
    ("min_zoom=0", "min_zoom=", "refusal=12"),
    ("min_zoom=0", "min_zoom=00", "refusal=12"),
    ("min_zoom=0", "min_zoom=-0", "refusal=12"),
    ("min_zoom=0", "min_zoom=+0", "refusal=12"),
    ("max_zoom=1", "max_zoom=01", "refusal=12"),
    ("max_zoom=1", "max_zoom=1.0", "refusal=12"),
    ("max_zoom=1", "max_zoom=0x1", "refusal=12"),
    ("max_zoom=1", "max_zoom=one", "refusal=12"),
    ("min_zoom=0", "min_zoom=256", "refusal=12"),
    ("max_zoom=1", "max_zoom=256", "refusal=12"),
    ("min_points=2", "min_points=256", "refusal=12"),
    ("min_points=2", "min_points=4294967298", "refusal=12"),
    ("radius=64", "radius=10000000", "refusal=12"),
    ("extent=512", "extent=05120000", "refusal=12"),
    ("extent=512", "extent=51200000", "refusal=12"),
    ("node_size=64", "node_size=18446744073709551680", "refusal=12"),
    ("count=4", "count=04", "refusal=12"),
    ("count=4", "count=1153", "refusal=12"),
    ("x=16384", "x=016384", "refusal=12"),
    ("x=16384", "x=10000000", "refusal=12"),
    ("wh=10", "wh=", "refusal=12"),
    ("wh=10", "wh=010", "refusal=12"),
    ("wh=10", "wh=00", "refusal=12"),
    ("wh=10", "wh=-10", "refusal=12"),
    ("wh=10", "wh=+10", "refusal=12"),
    ("wh=10", "wh=10.0", "refusal=12"),
    ("wh=10", "wh=10000000", "refusal=12"),
    ("wh=10", "wh=1099511627776", "refusal=12"),
    ("wh=40", "wh=1099511627777", "refusal=12"),
    ("wh=40", "wh=18446744073709551626", "refusal=12"),
    // Of the form, and refused by the build.
    ("min_zoom=0", "min_zoom=2", "refusal=1"),
    ("max_zoom=1", "max_zoom=31", "refusal=1"),
    ("max_zoom=1", "max_zoom=255", "refusal=1"),
    ("radius=64", "radius=65537", "refusal=1"),
    ("radius=64", "radius=9999999", "refusal=1"),
    ("extent=512", "extent=0", "refusal=1"),
    ("extent=512", "extent=65537", "refusal=1"),
    ("node_size=64", "node_size=0", "refusal=1"),
    ("node_size=64", "node_size=65536", "refusal=1"),
    ("x=16384", "x=65537", "refusal=3 at=0"),
    ("x=20480", "x=9999999", "refusal=3 at=1"),
    ("x=26624", "x=65537", "refusal=3 at=2"),
    ("y=32768", "y=65537", "refusal=3 at=0"),
    // Of the form, and listed.
    ("min_zoom=0", "min_zoom=0", LISTED),
    ("min_zoom=0", "min_zoom=1", LISTED),
    ("max_zoom=1", "max_zoom=30", LISTED),
    ("min_points=2", "min_points=0", LISTED),
    ("min_points=2", "min_points=255", LISTED),
    ("radius=64", "radius=0", LISTED),
    ("radius=64", "radius=65536", LISTED),
    ("extent=512", "extent=1", LISTED),
    ("extent=512", "extent=65536", LISTED),
    ("node_size=64", "node_size=1", LISTED),
    ("node_size=64", "node_size=65535", LISTED),
    ("x=16384", "x=0", LISTED),
    ("x=16384", "x=65536", LISTED),
    ("wh=10", "wh=0", LISTED),
    ("wh=10", "wh=9", LISTED),
    ("wh=10", "wh=1000000", LISTED),
    ("wh=10", "wh=9999999", LISTED),
    ("wh=40", "wh=0", LISTED),
    ("wh=40", "wh=9999999", LISTED),
];

/// The six lines of SCOPE's example before its count, and the rest of it.
fn parts() -> (&'static str, &'static str) {
    WORKED.split_at(WORKED.find("count=").unwrap())
}

/// The first line that is printed: `listed` where it is one of the finest table.
fn first(text: &str) -> String {
    let answer = answer_to(text.as_bytes());
    assert_eq!(answer.printed.last(), Some(&b'\n'));
    let printed = String::from_utf8(answer.printed).unwrap();
    let line = printed.lines().next().unwrap().to_string();
    match line.strip_prefix("refusal=") {
        Some(refusal) => {
            assert_eq!(refusal.split(' ').next(), Some(&*answer.number.to_string()));
            assert_eq!(printed.lines().count(), 1);
            line
        }
        None => {
            assert_eq!(answer.number, 0);
            LISTED.to_string()
        }
    }
}

#[test]
fn changes_of_one_place() {
    for (old, new, expected) in CHANGES {
        assert!(WORKED.contains(old), "{old}");
        assert_eq!(first(&WORKED.replacen(old, new, 1)), expected, "{old:?} by {new:?}");
    }
}

/// 12 comes before all, then 1, 2, 3, 4.
#[test]
fn the_order_of_the_refusals() {
    let text = |options: &str, points: &str| first(&format!("{options}{points}"));
    let options = parts().0;
    let wrong = options.replace("extent=512", "extent=0");
    let outside = "count=2\nx=1\ny=1\nwh=1\nx=1\ny=65537\nwh=1\n";
    let point = |i: u32| format!("x={i}\ny={i}\nwh={i}\n");
    let many = |count: u32| format!("count={count}\n") + &(0..count).map(point).collect::<String>();
    let crowd_outside = many(385).replace("x=384\n", "x=65537\n");
    assert_eq!(text(&wrong, "count=4\nx=1\n"), "refusal=12");
    assert_eq!(text(options, "count=2\nx=65537\ny=1\nwh=1\n"), "refusal=12");
    assert_eq!(text(&wrong, "count=0\n"), "refusal=1");
    assert_eq!(text(&wrong, outside), "refusal=1");
    assert_eq!(text(&wrong, &many(1_152)), "refusal=1");
    assert_eq!(text(options, "count=0\n"), "refusal=2");
    assert_eq!(text(options, outside), "refusal=3 at=1");
    assert_eq!(text(options, &crowd_outside), "refusal=3 at=384");
    // Three tables of 384 points are 1,152 entries.
    assert_eq!(text(options, &many(384)), LISTED);
    assert_eq!(text(options, &many(385)), "refusal=4");
    assert_eq!(text(options, &many(1_152)), "refusal=4");
    assert_eq!(text(options, &many(1_153)), "refusal=12");
}

/// The two ends of a text.
#[test]
fn ends() {
    let text = WORKED;
    assert_eq!(first(text), LISTED);
    for length in 0..text.len() {
        assert_eq!(first(&text[..length]), "refusal=12", "{length} bytes");
    }
    for more in ["\n", " ", "\0", "x", "x=1\n", "wh=1\n", "x=1\ny=1\nwh=1\n", "count=0\n", "#\n"] {
        assert_eq!(first(&format!("{text}{more}")), "refusal=12", "{more:?} at the end");
        assert_eq!(first(&format!("{more}{text}")), "refusal=12", "{more:?} at the front");
    }
    assert_eq!(first(&format!("\u{feff}{text}")), "refusal=12");
}
