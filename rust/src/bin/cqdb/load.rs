//! `cqdb load`: the load of a seed.
use crate::args::{Args, Command};
use crate::kind::Kind;
use crate::lines;
use crate::outcome::{Answer, Failure, Outcome};
use crate::replace::{Target, FORCE};

pub const COMMAND: Command = Command {
    name: "load",
    usage: "[OPTION].. SEED IMAGE",
    summary: "make the load of a seed, to measure with",
    text: "
Makes the image of 4096 entries that follow from SEED, a number up to 4294967295:
id i has the name P and eight hexadecimal digits of the state after step i + 1,
where a step takes s to 1664525 x s + 1013904223 modulo 2^32. Anyone can make the
same image from the same seed. IMAGE may be -, standard output.
",
    options: &[FORCE],
    operands: (2, 2),
    run,
};

fn run(args: Args) -> Outcome {
    let seed = lines::id_of(args.bytes(0)).ok_or_else(|| {
        Failure::new(format!("the seed {} is no decimal number up to 4294967295", lines::shown(args.bytes(0))))
    })?;
    let target = Target::new(&args, 1, Kind::Image)?;
    let image = cqdb::load(seed);
    target.replace(&image, &format!("{}: 4096 entries, {} bytes\n", args.path(1).display(), image.len()))?;
    Ok(Answer::Yes)
}
