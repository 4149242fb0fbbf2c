//! What a program answers on standard output and standard error, held to the plain rules.

use super::{Compared, same};
use checks::plain::Refused;
use checks::proved::{Answer, Program};

/// The refusal that a first line of standard error says.
fn refusal(err: &[u8]) -> Option<Refused> {
    let text = String::from_utf8_lossy(err);
    let mut words = text.lines().next()?.split([' ', ':']);
    let (refused, number, place) = (words.next()?, words.next()?, words.next()?);
    let words_follow = words.any(|word| !word.is_empty());
    let one_line = text.matches('\n').count() == 1 && text.ends_with('\n');
    (refused == "refused" && words_follow && one_line).then_some(Refused(number.parse().ok()?, place.parse().ok()?))
}

/// What the program made of it, in the same form as the plain rules.
fn outcome(answer: &Answer) -> Result<Result<String, Refused>, String> {
    let out = String::from_utf8_lossy(&answer.out).into_owned();
    match answer.status {
        Some(0) if answer.err.is_empty() => Ok(Ok(out)),
        Some(1) if out.is_empty() => match refusal(&answer.err) {
            Some(refused) => Ok(Err(refused)),
            None => Err(format!("no refusal on standard error: {answer:?}")),
        },
        _ => Err(format!("not as a program ends: {answer:?}")),
    }
}

/// Runs the program on the input, and holds what it answers to what the plain rules say.
pub fn compare(program: &Program, input: &[u8], plain: Result<String, Refused>) -> Compared {
    let shown = String::from_utf8_lossy(input);
    let answer = program.run(input).map_err(|error| format!("the program can't be run: {error}"))?;
    let proved = outcome(&answer).map_err(|fault| format!("{fault}\n  input: {shown:?}\n  plain: {plain:?}"))?;
    same("what the program prints", &shown, proved, plain)?;
    Ok(1)
}
