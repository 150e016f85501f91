//! Which way round drawings run, and turning both round. The desk takes anticlockwise drawings;
//! corner i of one belongs to corner i of the other, so one is never turned round alone.

use super::cursor::{refuse, Refusal};
use super::NAMES;
use crate::drawing::{doubled_area, Corner};

/// Turns both drawings round if that is wished and both run clockwise, and says what there is to
/// say of it. Corner 0 stays corner 0. The drawings begin at the bytes `starts` of the input.
pub fn turn(
    drawings: &mut [Vec<Corner>; 2],
    starts: [usize; 2],
    wished: bool,
) -> Result<Option<String>, Refusal> {
    let areas = drawings.each_ref().map(|drawing| doubled_area(drawing).signum());
    if !wished {
        return Ok(clockwise(areas));
    }
    if let Some(k) = areas.iter().position(|&area| area == 0) {
        return refuse(starts[k], format!("{} has no area and runs no way round", NAMES[k]));
    }
    match areas {
        [1, 1] => {
            Ok(Some("both drawings run anticlockwise already: nothing was turned round".into()))
        }
        [-1, -1] => {
            for drawing in drawings {
                drawing[1..].reverse();
            }
            Ok(None)
        }
        _ => {
            let k = usize::from(areas[1] < 0);
            refuse(starts[k], alone(k))
        }
    }
}

/// Says which drawings run clockwise, if any do.
fn clockwise(areas: [i128; 2]) -> Option<String> {
    match areas.map(|area| area < 0) {
        [true, true] => {
            Some("both drawings run clockwise: --anticlockwise turns them round".into())
        }
        [true, false] => Some(alone(0)),
        [false, true] => Some(alone(1)),
        [false, false] => None,
    }
}

fn alone(k: usize) -> String {
    format!("{} alone runs clockwise: list its points the other way round", NAMES[k])
}
