//! The generator of command files: seeded random lists that look at the state, damaged files and
//! every list over a small alphabet. `pack` records the Rust's lines beside the lists.
//!
//! A batch is a run of lists, each behind its length in 4 little-endian bytes. A pack has the
//! lines behind each list in the same way.

use reference::run::run_list;
use std::env;
use std::io::{self, BufWriter, Read, Write};
use std::process::ExitCode;

#[path = "generate/choose.rs"]
mod choose;
#[path = "generate/damage.rs"]
mod damage;
#[path = "generate/exhaustive.rs"]
mod exhaustive;
#[path = "generate/layout.rs"]
mod layout;
#[path = "generate/list.rs"]
mod list;
#[path = "generate/profile.rs"]
mod profile;
#[path = "generate/rng.rs"]
mod rng;
#[path = "generate/spoil.rs"]
mod spoil;
#[path = "generate/view.rs"]
mod view;

use rng::Rng;

/// Calls of `one` under one profile.
const STRETCH: usize = 50;

const USAGE: &str = "usage:
  generate random --seed S --lists N --calls MIN..MAX [--profile NAME] [--first F]  > batch
  generate damage --seed S --lists N                                    > batch
  generate exhaustive --alphabet NAME --depth D                         > batch
  generate one --seed S --calls N [--profile NAME]                      > one plain command file
  generate pack                                                 < batch > pack
profiles: mixed trees exceptions waits suspends policies refusals information kills
alphabets:
";

/// Why a run ends early: a bad argument or a failed read or write.
enum Failure {
    Usage,
    File(io::Error),
}

impl From<io::Error> for Failure {
    fn from(error: io::Error) -> Self {
        Failure::File(error)
    }
}

type Done = Result<(), Failure>;

fn main() -> ExitCode {
    let arguments: Vec<String> = env::args().skip(1).collect();
    match run(&arguments) {
        Ok(()) => ExitCode::SUCCESS,
        Err(Failure::Usage) => {
            eprint!("{USAGE}");
            exhaustive::names(&mut io::stderr()).ok();
            ExitCode::from(2)
        }
        Err(Failure::File(error)) => {
            eprintln!("generate: {error}");
            ExitCode::from(1)
        }
    }
}

fn run(arguments: &[String]) -> Done {
    let (mode, options) = arguments.split_first().ok_or(Failure::Usage)?;
    let options = Options(options);
    let mut out = BufWriter::new(io::stdout().lock());
    match mode.as_str() {
        "random" => random(&options, &mut out)?,
        "damage" => damaged(&options, &mut out)?,
        "exhaustive" => every(&options, &mut out)?,
        "one" => one(&options, &mut out)?,
        "pack" => pack(&mut out)?,
        _ => return Err(Failure::Usage),
    }
    out.flush()?;
    Ok(())
}

// -- Options --------------------------------------------------------------------------------

/// Pairs of an option's name and its value.
struct Options<'a>(&'a [String]);

impl Options<'_> {
    fn text(&self, name: &str) -> Option<&str> {
        let place = self.0.iter().position(|word| word == name)?;
        self.0.get(place + 1).map(String::as_str)
    }

    fn number(&self, name: &str) -> Result<u64, Failure> {
        self.text(name).and_then(|text| text.parse().ok()).ok_or(Failure::Usage)
    }

    /// `MIN..MAX`, or one number for both.
    fn range(&self, name: &str) -> Result<(usize, usize), Failure> {
        let text = self.text(name).ok_or(Failure::Usage)?;
        let (low, high) = text.split_once("..").unwrap_or((text, text));
        match (low.parse(), high.parse()) {
            (Ok(low), Ok(high)) if low <= high => Ok((low, high)),
            _ => Err(Failure::Usage),
        }
    }
}

// -- Modes ----------------------------------------------------------------------------------

/// One list in twenty ends with something that is no call.
fn random(options: &Options, out: &mut impl Write) -> Done {
    let seed = options.number("--seed")?;
    let (low, high) = options.range("--calls")?;
    let first = options.number("--first").unwrap_or(0);
    for number in first..first + options.number("--lists")? {
        let mut rng = Rng::of_list(seed, number);
        let profile = options.text("--profile").unwrap_or("mixed");
        let profile = profile::profile(profile, &mut rng).ok_or(Failure::Usage)?;
        let calls = rng.between(low, high);
        let mut list = list::build(&mut rng, profile, calls);
        if rng.chance(5) {
            list.extend(list::stop_tail(&mut rng));
        }
        write_piece(&list, out)?;
    }
    Ok(())
}

fn damaged(options: &Options, out: &mut impl Write) -> Done {
    let seed = options.number("--seed")?;
    for number in 0..options.number("--lists")? {
        write_piece(&damage::build(&mut Rng::of_list(seed, number)), out)?;
    }
    Ok(())
}

fn every(options: &Options, out: &mut impl Write) -> Done {
    let name = options.text("--alphabet").ok_or(Failure::Usage)?;
    let depth = options.number("--depth")? as usize;
    let alphabet = exhaustive::ALPHABETS.iter().find(|alphabet| alphabet.name == name);
    let alphabet = alphabet.ok_or(Failure::Usage)?;
    exhaustive::lists(alphabet, depth, &mut |list| write_piece(list, out))?;
    Ok(())
}

/// One steady list; `mixed` changes the profile after each stretch.
fn one(options: &Options, out: &mut impl Write) -> Done {
    let mut rng = Rng::of_list(options.number("--seed")?, 0);
    let name = options.text("--profile").unwrap_or("mixed");
    let mut builder = list::Builder::new(true);
    let mut left = options.number("--calls")? as usize;
    while left > 0 {
        let profile = profile::profile(name, &mut rng).ok_or(Failure::Usage)?;
        let calls = left.min(STRETCH);
        builder.add(&mut rng, profile, calls);
        left -= calls;
    }
    out.write_all(&builder.list)?;
    Ok(())
}

/// Runs each list of the batch on the Rust and writes both.
fn pack(out: &mut impl Write) -> Done {
    let mut batch = Vec::new();
    io::stdin().lock().read_to_end(&mut batch)?;
    let mut rest = batch.as_slice();
    while !rest.is_empty() {
        let (list, after) = split_piece(rest)?;
        let mut lines = Vec::new();
        run_list(list, &mut lines);
        write_piece(list, out)?;
        write_piece(&lines, out)?;
        rest = after;
    }
    Ok(())
}

// -- Pieces behind their length -------------------------------------------------------------

fn write_piece(piece: &[u8], out: &mut impl Write) -> io::Result<()> {
    out.write_all(&(piece.len() as u32).to_le_bytes())?;
    out.write_all(piece)
}

/// The first piece and what follows it.
fn split_piece(bytes: &[u8]) -> io::Result<(&[u8], &[u8])> {
    let cut = || io::Error::new(io::ErrorKind::UnexpectedEof, "the batch is cut");
    let length = bytes.get(..4).ok_or_else(cut)?;
    let length = u32::from_le_bytes([length[0], length[1], length[2], length[3]]) as usize;
    let piece = bytes.get(4..4 + length).ok_or_else(cut)?;
    Ok((piece, &bytes[4 + length..]))
}
