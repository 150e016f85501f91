//! One row of the benchmark: who takes part is first held to the peer, then measured. The product and
//! the rival give the peer's answers. Of the library of another checkout, whose rules may have been
//! others, only what no rule has changed is asked.

use super::contestants::{self, Works, ROOM};
use super::race::{race, Turns};
use super::Times;
use crate::desks::{compare_call, Desk, Peer, CELLS};
use crate::library::Library;
use crate::pairs::calls::Call;
use crate::pairs::Pair;
use crate::{cutting, desk, rival};

/// The product's libraries that take part.
#[derive(Default)]
pub struct Libraries {
    pub product: Option<Library>,
    pub before: Option<Library>,
}

/// The times on the pairs of one row; who does not take part has none.
pub struct Measured {
    /// How many pairs get a cutting, of how many.
    pub cut: String,
    pub peer: Times,
    pub rival: Times,
    pub product: Times,
    pub before: Times,
}

pub fn measure(turns: Turns, libraries: &Libraries, pairs: &[Pair]) -> Result<Measured, String> {
    let before = libraries.before.as_ref().filter(|before| serves(before, pairs));
    for pair in pairs {
        rival_agrees(pair)?;
        libraries.product.as_ref().map_or(Ok(()), |product| product_agrees(product, pair))?;
        before.map_or(Ok(()), |before| before_agrees(before, before.judges(), pair))?;
    }
    let cut = pairs.iter().filter(|pair| number(&Peer, pair) == 0).count();
    let works = [
        contestants::peer(pairs),
        contestants::rival(pairs),
        work(before, pairs),
        work(libraries.product.as_ref(), pairs),
    ];
    let [peer, rival, before, product] = race(turns, works, pairs.len());
    Ok(Measured { cut: format!("{cut}/{}", pairs.len()), peer, rival, product, before })
}

fn work<'a>(library: Option<&'a Library>, pairs: &'a [Pair]) -> Works<'a> {
    library.map_or(Works::default(), |it| contestants::library(it, pairs))
}

/// Whether a library answers all the pairs. An earlier one may have had other limits.
fn serves(library: &Library, pairs: &[Pair]) -> bool {
    pairs.iter().all(|pair| [0, 9].contains(&number(library, pair)))
}

fn number(desk: &impl Desk, pair: &Pair) -> u8 {
    desk.answer(&pair.first, &pair.second, &mut [0; ROOM]).number
}

/// The rival gives the peer's answer.
fn rival_agrees(pair: &Pair) -> Result<(), String> {
    let answer = |search: desk::Search| {
        let mut room = [0; ROOM];
        (desk::answer_by(search, &pair.first, &pair.second, &mut room), room)
    };
    if answer(rival::first_smallest) == answer(cutting::first_smallest) {
        Ok(())
    } else {
        Err(format!("the rival and the peer differ for {pair:?}"))
    }
}

/// So does the product, in every stage.
fn product_agrees(product: &Library, pair: &Pair) -> Result<(), String> {
    let lists = [&pair.first, &pair.second];
    let [first, second] = lists.map(|list| cells(&Peer, list));
    let room = vec![0; ROOM];
    let n = pair.first.len() / 2;
    let mut calls = vec![
        Call::Answer { pair: pair.clone(), room: room.clone() },
        Call::Cut { n, first, second, room },
    ];
    for list in lists.map(Vec::clone) {
        calls.push(Call::Judge { list: list.clone() });
        calls.push(Call::Sight { list, cells: vec![0; CELLS] });
    }
    calls.iter().try_for_each(|call| compare_call(product, call))
}

/// Another library judges the drawings alike, if it has a call for that, and sees alike by the
/// strict rule. Its cells may tell a centre's sight besides, or not; its cuttings follow from them.
pub fn before_agrees(before: &impl Desk, judges: bool, pair: &Pair) -> Result<(), String> {
    for list in [&pair.first, &pair.second] {
        if judges && before.judge(list) != Peer.judge(list) {
            return Err(format!("the other library judges otherwise: {list:?}"));
        }
        let strict = |cells: Vec<u8>| -> Vec<u8> { cells.iter().map(|cell| cell % 2).collect() };
        if strict(cells(before, list)) != strict(cells(&Peer, list)) {
            return Err(format!("the other library sees otherwise, by the strict rule: {list:?}"));
        }
    }
    Ok(())
}

fn cells(desk: &impl Desk, list: &[i32]) -> Vec<u8> {
    let mut cells = vec![0; CELLS];
    desk.sight(list, &mut cells);
    cells
}
