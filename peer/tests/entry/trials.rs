//! Sound pairs by chance, written in each form, and inputs with faults by chance.

use crate::{entered, pair, svg, PLAIN};
use peer::entry::enter;
use peer::frames;
use peer::pairs::dice::Dice;
use peer::pairs::shapes::SHAPES;
use peer::pairs::{pair_up_to, Kind};

/// A drawing as coordinates, y upwards.
fn text(list: &[i32]) -> String {
    list.chunks(2).map(|c| format!("{} {}\n", c[0], c[1])).collect()
}

fn polygon(list: &[i32]) -> String {
    let points: String = list.chunks(2).map(|c| format!("{},{}\n", c[0], -c[1])).collect();
    format!("<polygon points=\"{points}\"/>\n")
}

/// A path of steps, each written as one command of those that can tell it.
fn path(dice: &mut Dice, list: &[i32]) -> String {
    let mut here = [0, 0];
    let mut data = String::new();
    for (k, corner) in list.chunks(2).enumerate() {
        let next = [corner[0], -corner[1]];
        let by = [next[0] - here[0], next[1] - here[1]];
        let [go, line] = if k == 0 { ["M", "m"] } else { ["L", "l"] };
        let mut ways =
            vec![format!("{go}{} {}", next[0], next[1]), format!("{line}{},{}", by[0], by[1])];
        if k > 0 && by[1] == 0 {
            ways.extend([format!("H{}", next[0]), format!("h {}", by[0])]);
        }
        if k > 0 && by[0] == 0 {
            ways.extend([format!("V{}", next[1]), format!("v {}", by[1])]);
        }
        data += &ways[dice.below(ways.len())];
        here = next;
    }
    format!("<path d='{data}{}'/>", dice.pick(&["Z", "z", " z\n"]))
}

#[test]
fn every_form_gives_the_same_frames() {
    let mut dice = Dice::new(1);
    for _ in 0..200 {
        let shape = dice.pick(&SHAPES);
        let drawn = pair_up_to(&mut dice, Kind::Shaped(shape), 24);
        let (first, second) = (&drawn.first, &drawn.second);
        let frames = pair(first, second);
        let inputs = [
            format!("{}\n{}", text(first), text(second)),
            svg(&(polygon(first) + &polygon(second))),
            svg(&(path(&mut dice, first) + &path(&mut dice, second))),
        ];
        for input in inputs {
            let found = entered(&input, PLAIN);
            assert!(found.frames == frames && found.remarks.is_empty(), "{input}");
        }
    }
}

/// Whatever is taken is a pair whose counts and coordinates the desk takes: its number is none of
/// 1, 2, 3 and 6.
#[test]
fn inputs_with_faults() {
    let whole =
        svg(&format!("{}{}", polygon(&[0, 0, 9, 0, 9, 9, 4, 3]), "<path d='m0 0h9V-9L4-3z'/>"));
    let plain = "0 0\n9 0\n9 9\n4 3\n\n0 0\n9 0\n9 9\n4 3\n";
    let symbols = b" \n,.-+0159eEmMlLhHvVzZcC<>/='\"!?&[]\xc3\xa4";
    let mut dice = Dice::new(2);
    let mut taken = 0;
    for _ in 0..20_000 {
        let mut input = dice.pick(&[&whole[..], plain]).as_bytes().to_vec();
        for _ in 0..=dice.below(3) {
            let at = dice.below(input.len());
            match dice.below(3) {
                0 => input[at] = dice.pick(symbols),
                1 => input.insert(at, dice.pick(symbols)),
                _ => drop(input.remove(at)),
            }
        }
        if let Ok(found) = enter(&input, PLAIN) {
            taken += 1;
            let answer = String::from_utf8(frames::run(&found.frames)).unwrap();
            assert_eq!(answer.lines().count(), 1);
            let bad = ["EF\n", "E001\n", "E002\n", "E003\n", "E006\n"];
            assert!(!bad.contains(&&answer[..]), "{answer}{}", String::from_utf8_lossy(&input));
        }
    }
    assert!((2_000..18_000).contains(&taken), "{taken}");
}
