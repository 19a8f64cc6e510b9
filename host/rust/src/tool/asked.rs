//! What is asked on the command line.

use super::Fault;

pub const USAGE: &str = "\
lomkhvide: what became of the records of a file, by the engine

  lomkhvide explain FILE            every change in words: final, not yet and whom to ring, or voted for and never sent
  lomkhvide explain FILE LOCATOR    whether a change is final, and why: certifying blocks, voters, paths, stake;
                                    where it is not, what is missing and whom to ring
  lomkhvide draw FILE [LOCATOR]     the graph as a page for a browser: step through the records, choose a change
  lomkhvide draw --svg FILE [LOCATOR]  the same as a drawing, for a slide or a document
  lomkhvide records FILE            each record in words: author, round, includes, statements
  lomkhvide check FILE              each refused record, with the reason and the place
  lomkhvide list FILE               the lines of the program listing
  lomkhvide stakes LIST FILE        makes a file of stakes of a list: a line for each member, its name and its stake
  lomkhvide stakes FILE             the members of a file of stakes, as such a list

FILE is an input of listing: the number of members (one byte; 255: the committee of the file 'stakes' here), the stakes
(8 bytes each), then records, each after its length (4 bytes). '-' is standard input.
LOCATOR is ROUND/AUTHOR/DIGEST/OFFSET, or these four as in a line 'final' of list; of the digest the first digits will do.

Options, and the commands that they belong to:
  --first N       feed the first N records only                                  all but stakes
  --stakes FILE   the committee of that file of stakes, where FILE begins with 255  all but stakes
  --store BYTES   lend a store of that size; else one in which all records fit   all but stakes
  --listing       lend what the program listing lends, and print its lines alone  list
  --reach A,B,..  the owners who can be reached by telephone, by number or name  explain
  --withdrawing   in the reading in which an owner may withdraw a vote by a reject  explain, draw
  --all           leave nothing out of a long answer                             explain, records
  --svg           a drawing in place of a page                                   draw
  --beside LINES  on the page, the lines of another count beside the engine's   draw
  --json          the same facts for a script                                    every command
  --help          this page

Exit status: 0 answered from all records; 3 answered, although some records were refused (the first line says how many);
1 the question is wrong; 2 the file cannot be read, or the answer cannot be written. A reason is one line.
";

#[derive(Clone, Copy, Debug, PartialEq, Eq)]
pub enum Command {
    List,
    Check,
    Records,
    Explain,
    Draw,
    Stakes,
}

impl Command {
    const ALL: [(&'static str, Command); 6] = [
        ("list", Command::List),
        ("check", Command::Check),
        ("records", Command::Records),
        ("explain", Command::Explain),
        ("draw", Command::Draw),
        ("stakes", Command::Stakes),
    ];

    fn name(self) -> &'static str {
        Command::ALL.iter().find(|(_, command)| *command == self).map_or("", |(name, _)| name)
    }
}

/// The commands that an option belongs to.
fn belongs(option: &str) -> Option<&'static [Command]> {
    use Command::*;
    Some(match option {
        "--first" | "--stakes" | "--store" => &[List, Check, Records, Explain, Draw],
        "--listing" => &[List],
        "--reach" => &[Explain],
        "--withdrawing" => &[Explain, Draw],
        "--all" => &[Explain, Records],
        "--svg" | "--beside" => &[Draw],
        "--json" => &[List, Check, Records, Explain, Draw, Stakes],
        _ => return None,
    })
}

#[derive(Clone, Debug, PartialEq, Eq)]
pub struct Asked {
    pub command: Command,
    pub file: String,
    /// The parts of the locator, or the file to be made, where one is given.
    pub rest: Vec<String>,
    pub first: Option<usize>,
    /// The owners who can be reached, as they were typed.
    pub reach: Option<String>,
    pub store: Option<usize>,
    pub stakes: Option<String>,
    pub listing: bool,
    pub withdrawing: bool,
    pub all: bool,
    pub svg: bool,
    /// A file of lines as `listing` prints them, by another count.
    pub beside: Option<String>,
    pub json: bool,
}

fn usage<T>(text: impl Into<String>) -> Result<T, Fault> {
    Err(Fault::Usage(text.into()))
}

/// Reads the words after the program's name; none where help is asked for.
pub fn asked(words: &[String]) -> Result<Option<Asked>, Fault> {
    let mut asked = Asked {
        command: Command::List,
        file: String::new(),
        rest: Vec::new(),
        first: None,
        reach: None,
        store: None,
        stakes: None,
        listing: false,
        withdrawing: false,
        all: false,
        svg: false,
        beside: None,
        json: false,
    };
    let mut plain = Vec::new();
    let mut options = Vec::new();
    let mut words = words.iter();
    while let Some(word) = words.next() {
        if !word.starts_with("--") {
            if word == "-h" {
                return Ok(None);
            }
            plain.push(word.clone());
            continue;
        }
        options.push(word.as_str());
        let mut value = |what: &str| match words.next() {
            Some(value) => Ok(value.clone()),
            None => usage(format!("{word} is followed by {what}")),
        };
        match word.as_str() {
            "--help" => return Ok(None),
            "--first" => asked.first = Some(number(word, &value("a number")?)?),
            "--store" => asked.store = Some(number(word, &value("a number")?)?),
            "--reach" => asked.reach = Some(value("owners, as 0,4,5")?),
            "--stakes" => asked.stakes = Some(value("a file of stakes")?),
            "--beside" => asked.beside = Some(value("a file of lines")?),
            "--listing" => asked.listing = true,
            "--withdrawing" => asked.withdrawing = true,
            "--all" => asked.all = true,
            "--svg" => asked.svg = true,
            "--json" => asked.json = true,
            option => return usage(format!("{option}: no such option; lomkhvide --help names them")),
        }
    }
    let mut plain = plain.into_iter();
    let Some(name) = plain.next().filter(|name| name != "help") else {
        return match options.first() {
            Some(option) => usage(format!("{option} of which command? lomkhvide --help names them")),
            None => Ok(None),
        };
    };
    let Some((_, command)) = Command::ALL.iter().find(|(known, _)| *known == name) else {
        return usage(format!("{name}: no such command; lomkhvide --help names them"));
    };
    asked.command = *command;
    agreeing(&asked, &options)?;
    let Some(file) = plain.next() else { return usage("which FILE? lomkhvide --help says more") };
    asked.file = file;
    asked.rest = plain.collect();
    let most = match command {
        Command::List | Command::Check | Command::Records => 0,
        Command::Stakes => 1,
        Command::Explain | Command::Draw => usize::MAX,
    };
    match asked.rest.get(most) {
        Some(word) => usage(format!("{word}: one argument too many")),
        None => Ok(Some(asked)),
    }
}

/// Whether every option belongs to the command and goes with the others.
fn agreeing(asked: &Asked, options: &[&str]) -> Result<(), Fault> {
    for option in options {
        if !belongs(option).is_some_and(|commands| commands.contains(&asked.command)) {
            let instead = match (*option, asked.command) {
                ("--withdrawing", Command::List) => {
                    ": its lines are those of listing; 'explain FILE --withdrawing' tells every change"
                }
                _ => "; lomkhvide --help says what does",
            };
            return usage(format!("{option} does not apply to {}{instead}", asked.command.name()));
        }
    }
    if asked.store.is_some_and(|store| !(16..1 << 32).contains(&(store as u64))) {
        return usage("--store: a store has 16 to 4294967295 bytes");
    }
    for (one, other) in
        [("--listing", "--store"), ("--listing", "--json"), ("--svg", "--json"), ("--svg", "--beside"), ("--beside", "--json")]
    {
        if options.contains(&one) && options.contains(&other) {
            return usage(format!("{one} and {other} do not go together"));
        }
    }
    Ok(())
}

fn number(name: &str, text: &str) -> Result<usize, Fault> {
    match text.parse() {
        Ok(number) => Ok(number),
        Err(_) => usage(format!("{name} is followed by a number, not by '{text}'")),
    }
}
