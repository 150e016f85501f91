//! show [--answers FILE] [--mark X,Y --landings FILE] < frames > page.svg: draws the pairs of an
//! input with the answers that the program gave to them, which the file holds; and a mark of the
//! first drawings with the places where it lands, which are in a file too, a line for each pair.
//! show --verdicts FILE < pairs with lists > page.svg: draws the pieces of the lists, and what is
//! wrong with them by the product's lines in the file.

use peer::ask::mark;
use peer::marks::Mark;
use peer::show::{page, page_of_lists, page_with_mark};
use std::io::{self, Read, Write};
use std::process::ExitCode;

const USAGE: &str = "\
show [--answers FILE] [--mark X,Y --landings FILE] < frames > page.svg
show --verdicts FILE < pairs with lists > page.svg
  --answers FILE    the program's line for each pair
  --mark X,Y        a mark of the first drawings, two whole numbers
  --landings FILE   where it lands, a line for each pair: 0, and for x and for y the whole steps
                    and the 64 bits of the rest of a step; 0 alone where it is on no piece; the
                    number of a refusal
  --verdicts FILE   what was said of the list of each pair, a line for each: its number, and with
                    23 and 24 the place, from 0, and the drawing, 1 or 2";

fn main() -> ExitCode {
    let words: Vec<String> = std::env::args().skip(1).collect();
    let Some(asked) = asked(&words) else {
        eprintln!("{USAGE}");
        return ExitCode::from(2);
    };
    match show(&asked) {
        Ok(()) => ExitCode::SUCCESS,
        Err(error) => {
            eprintln!("show: {error}");
            ExitCode::FAILURE
        }
    }
}

/// What the words ask for: files, and a mark with its own.
#[derive(Default)]
struct Asked<'a> {
    answers: Option<&'a str>,
    mark: Option<Mark>,
    landings: Option<&'a str>,
    verdicts: Option<&'a str>,
}

/// What the words ask for, if they do so rightly, each at most once, a mark and its landings
/// together, verdicts alone.
fn asked(words: &[String]) -> Option<Asked<'_>> {
    let mut asked = Asked::default();
    let mut words = words.iter().map(String::as_str);
    while let Some(word) = words.next() {
        let value = words.next()?;
        let again = match word {
            "--answers" => asked.answers.replace(value).is_some(),
            "--mark" => asked.mark.replace(mark(value)?).is_some(),
            "--landings" => asked.landings.replace(value).is_some(),
            "--verdicts" => asked.verdicts.replace(value).is_some(),
            _ => true,
        };
        if again {
            return None;
        }
    }
    let of_frames = asked.answers.is_some() || asked.mark.is_some();
    let together = asked.mark.is_some() == asked.landings.is_some();
    (together && !(of_frames && asked.verdicts.is_some())).then_some(asked)
}

fn show(asked: &Asked) -> io::Result<()> {
    let read = |file: Option<&str>| file.map(std::fs::read).transpose();
    let (answers, landings) = (read(asked.answers)?, read(asked.landings)?);
    let verdicts = read(asked.verdicts)?;
    let mut input = Vec::new();
    io::stdin().read_to_end(&mut input)?;
    let page = match (asked.mark, landings, verdicts) {
        (Some(mark), Some(landings), _) => {
            page_with_mark(&input, answers.as_deref(), mark, &landings)
        }
        (_, _, Some(verdicts)) => page_of_lists(&input, &verdicts),
        _ => page(&input, answers.as_deref()),
    };
    io::stdout().write_all(page.as_bytes())
}
