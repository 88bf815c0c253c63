//! Scripts of the program `screenplay`, run over the crate.
use crate::answer::Answer;
use crate::args::Args;
use crate::fault::Fault;
use screenplay::run;

/// Runs a script: what it prints, or why it fails.
pub fn script(args: &mut Args<'_>, answer: &mut Answer) -> Result<(), Fault> {
    if args.word()? != "run" {
        return Err(Fault::Unread);
    }
    match run(args.text()?) {
        Ok(printed) => answer.add(printed.as_str()),
        Err(screenplay::Fault::Line(line)) => answer.refused(&format!("line {line}: bad command")),
        Err(screenplay::Fault::Unsettled(step)) => {
            answer.refused(&format!("step {step}: unsettled"))
        }
        Err(screenplay::Fault::TooLarge) => Err(Fault::Unread),
    }
}
