//! `cqdb order`: references before walls.
use std::path::Path;

use cqdb::{references_first, Order, Pair};

use crate::args::{Args, Command, WINDOWS};
use crate::asked::{Said, NONE_SIGHTED};
use crate::input::INCOMPLETE;
use crate::lines::{self, Lines};
use crate::outcome::{Failure, Outcome, Output};

pub const COMMAND: Command = Command {
    name: "order",
    usage: "[OPTION].. PAIRS ROUND",
    summary: "say whether a round sights references before walls",
    text: "
Prints a line: yes or no. PAIRS has a line for each pair, the id of a reference, a
space and the id of a wall prism; ROUND has an id to a line, in the order in which
they are sighted. A pair is kept where its wall prism is not sighted, or its
reference is sighted before. The exit status is 1 where a pair is not kept; the
first one is named. Where there is no pair, the round has no id, or no wall prism of
a pair is sighted, the yes says that nothing was compared. The time grows with the
number of pairs times that of ids.
",
    options: &[INCOMPLETE, WINDOWS],
    operands: (2, 2),
    run,
};

fn run(args: Args) -> Outcome {
    let (pairs, round) = (pairs(&args, args.path(0))?, lines::ids(&args, args.path(1))?);
    let mut out = Output::new();
    let said = kept(&pairs, &round);
    out.text(&said.line(QUESTION))?;
    out.finish(said.is_yes())
}

/// The question whose answer `kept` gives.
pub const QUESTION: &str = "the round keeps references before walls";

/// The pairs of a file, one to a line.
pub fn pairs(args: &Args, path: &Path) -> Result<Vec<Pair>, Failure> {
    let pair = |line: &[u8]| {
        let [reference, wall] = lines::fields(line)?;
        Some(Pair { reference: lines::id_of(reference)?, wall: lines::id_of(wall)? })
    };
    let form = "the id of a reference, a space and the id of a wall prism";
    Lines::of_list(args, Some(path.as_os_str()), b'\n')?.parsed(args, form, pair)
}

/// Does a round keep every pair? Where there is no pair, the round has no id, or no wall of a pair is sighted, the yes
/// says that nothing was compared.
pub fn kept(pairs: &[Pair], round: &[u32]) -> Said {
    let no = |why: String| Said::No(why, Vec::new());
    match references_first(pairs, round) {
        Order::Yes if pairs.is_empty() => Said::YesAboutNothing("there is no pair, so nothing was compared"),
        Order::Yes if round.is_empty() => NONE_SIGHTED,
        Order::Yes => match pairs.iter().any(|pair| round.contains(&pair.wall)) {
            true => Said::Yes,
            false => Said::YesAboutNothing("no wall of a pair is sighted, so nothing was compared"),
        },
        Order::Fails { pair } => {
            let Pair { reference, wall } = pairs[pair];
            no(format!("pair {}: wall {wall} is sighted, and reference {reference} is not sighted before", pair + 1))
        }
    }
}
