//! SCOPE's example with the energies of #108, and what SCOPE says of its refusals, word for word.

use lister_reference::{
    answer_to, lines, read, texts::example, Input, WORKED as TEXT, WORKED_TABLES as LINES,
};

fn printed(text: &str) -> String {
    String::from_utf8(answer_to(text.as_bytes()).printed).unwrap()
}

#[test]
fn the_seven_lines() {
    assert_eq!(printed(TEXT), LINES);
}

#[test]
fn the_values() {
    let input = read(TEXT.as_bytes()).unwrap();
    let lamp = |x, energy| [x, 32768, energy];
    let points = vec![lamp(16384, 10), lamp(20480, 20), lamp(26624, 30), lamp(26624, 40)];
    let expected = Input {
        min_zoom: 0,
        max_zoom: 1,
        min_points: 2,
        radius: 64,
        extent: 512,
        node_size: 64,
        points,
    };
    assert_eq!(input, expected);
    assert_eq!(lines(&input), LINES.as_bytes());
}

#[test]
fn the_example_is_written_as_it_stands() {
    assert_eq!(example().text(), TEXT.as_bytes());
}

/// With min_points 3 each of the three tables has the four lamps, none of them clustered.
#[test]
fn four_single_lamps() {
    let lines = printed(&TEXT.replace("min_points=2", "min_points=3"));
    let field = |at: usize| -> Vec<&str> {
        lines.lines().map(|line| line.split(' ').nth(at).unwrap()).collect()
    };
    assert_eq!(field(7), ["1"; 12]);
    assert_eq!(field(8), ["10", "20", "30", "40"].repeat(3));
}
