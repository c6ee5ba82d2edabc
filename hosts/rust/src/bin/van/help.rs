//! Every command with its words, what it does and an example.

pub struct Usage {
    pub name: &'static str,
    /// The words behind the name.
    pub words: &'static str,
    pub does: &'static str,
    /// Behind `van`.
    pub example: &'static str,
}

impl Usage {
    /// Of a command line.
    pub fn line(&self) -> String {
        format!("van {} {}", self.name, self.words)
    }

    /// Of a lesson, in which a van stands for the file; none if it has no such
    /// command.
    pub fn lesson_line(&self) -> Option<String> {
        let words = match self.name {
            "new" | "play" => return None,
            "raise" => "",
            _ => self.words.strip_prefix("FILE")?,
        };
        Some(format!("VAN: {}{words}", self.name))
    }

    pub fn help(&self) -> String {
        let Usage { does, example, .. } = self;
        format!("{}\n\n{does}\n\nexample: van {example}\n", self.line())
    }
}

const fn usage(
    name: &'static str,
    words: &'static str,
    does: &'static str,
    example: &'static str,
) -> Usage {
    Usage { name, words, does, example }
}

pub fn find(name: &str) -> Option<&'static Usage> {
    USAGES.iter().find(|usage| usage.name == name)
}

/// The list of all commands.
pub fn all() -> String {
    let lines = USAGES.iter().map(|usage| {
        let space = if FIRST_OF_A_GROUP.contains(&usage.name) { "\n" } else { "" };
        format!("{space}  {}\n", usage.line())
    });
    format!("{ABOVE}{}\n{BELOW}", lines.collect::<String>())
}

/// The ten actions, what is between two images, what only reads, and lessons.
const FIRST_OF_A_GROUP: [&str; 5] = ["new", "found", "join", "statement", "play"];

const ABOVE: &str = "\
van: the van ledger in the hand. A file holds a van's image; a command calls the
library on it, and says in words what came back.
";

const BELOW: &str = "\
USER and OTHER are 0 to 7, CREW is 0 to 15, COST is 0 to 511. A SHARE is euros
and cents, 12.50, or cents, 1250c. A DAY is an ISO date, 2026-11-15, a MONTH 2026-11.

Exit status: 0 done; 1 refused, with the number and its reason; 2 a wrong command
line; 3 a file that can't be read or written. With 1 and 2 nothing is written, and
with 3 only where it says so.

van COMMAND --help says what a command does, with an example.
";

pub const USAGES: &[Usage] = &[
    usage(
        "new",
        "FILE --van VAN [--homes 0,1,2,3,4,5,6,7]",
        "Writes a new image for VAN, with no crews and no costs, to a file that is not\n\
         there yet. --homes names the home van of users 0 to 7, which is the same on all\n\
         vans of a fleet; without it each user's home is the van of the same number.",
        "new v0 --van 0 --homes 0,1,2,3,4,5,6,7",
    ),
    usage(
        "found",
        "FILE USER CREW [--rule RULE]",
        "USER founds CREW, and is its first member. Under rule 1, the one without --rule,\n\
         gifts go to members in equal parts. Under rule 2 they go by use, and a share of\n\
         5.00 or less needs no acknowledgement. A van founds crews 2 x van and 2 x van + 1.",
        "found v0 0 0 --rule 2",
    ),
    usage(
        "add",
        "FILE USER OTHER CREW",
        "USER adds OTHER to CREW, also one who has left it before.",
        "add v0 0 1 0",
    ),
    usage(
        "leave",
        "FILE USER CREW",
        "USER leaves CREW. Refused while USER owes there (13), or has a share that counts as\n\
         acknowledged in a cost that still waits for others (34).",
        "leave v0 0 0",
    ),
    usage(
        "enter",
        "FILE USER COST USER:SHARE... --day DAY",
        "USER enters COST, which USER paid, with the shares of those who draw on it. It is\n\
         in no crew yet: see put-in. A van enters costs 64 x van to 64 x van + 63.",
        "enter v0 0 0 0:3.00 1:6.00 --day 2026-11-15",
    ),
    usage(
        "put-in",
        "FILE USER COST CREW",
        "USER, who paid COST, puts it into CREW. It counts there once every share is\n\
         acknowledged; under rule 2 one of 5.00 or less counts as acknowledged.",
        "put-in v0 0 0 0",
    ),
    usage(
        "take-out",
        "FILE USER COST CREW",
        "USER, who paid COST, takes it out of CREW. Acknowledgements of others are gone.",
        "take-out v0 0 0 0",
    ),
    usage(
        "change",
        "FILE USER COST USER:SHARE... --day DAY",
        "USER, who paid COST, gives it new shares and a new day; who is not named has no\n\
         share any more. Acknowledgements of others are gone.",
        "change v0 0 0 0:4.00 1:5.00 --day 2026-11-16",
    ),
    usage(
        "delete",
        "FILE USER COST",
        "USER, who paid COST, deletes it. It counts no more, and its number stays taken.",
        "delete v0 0 0",
    ),
    usage(
        "acknowledge",
        "FILE USER COST",
        "USER acknowledges the own share in COST, as it now is.",
        "acknowledge v1 1 0",
    ),
    usage(
        "absorb",
        "FILE USER OTHER COST",
        "USER, who paid COST, takes over the share of OTHER, who has left the crew without\n\
         having acknowledged it.",
        "absorb v0 0 1 0",
    ),
    usage(
        "join",
        "FILE OTHER [--raised]",
        "Joins the image in the file OTHER into the one in FILE; OTHER stays as it is. With\n\
         --raised an older OTHER is raised first, in memory.",
        "join v1 v0",
    ),
    usage(
        "raise",
        "OLD NEW",
        "Raises the image of version 1 or 2 in the file OLD to version 3, into the file\n\
         NEW, which is not there yet. OLD stays as it is.",
        "raise old/v0 v0",
    ),
    usage(
        "statement",
        "FILE [CREW] [--table]",
        "Prints the statement of CREW, or of all crews, in cents: raw is what a user paid\n\
         less the shares held, in valid costs. --table prints columns for people, in euros\n\
         and cents, and who is a member.",
        "statement v0 --table",
    ),
    usage(
        "pay",
        "FILE CREW",
        "Prints who pays whom, so that nobody in CREW owes anything.",
        "pay v0 0",
    ),
    usage(
        "month",
        "FILE CREW MONTH",
        "Prints each user's raw from the valid costs of CREW dated in MONTH.",
        "month v0 0 2026-11",
    ),
    usage(
        "balances",
        "FILE",
        "Prints the balances of all crews, a row for each, and a dash for who was never a\n\
         member.",
        "balances v0",
    ),
    usage(
        "cost",
        "FILE [COST]",
        "Prints COST with its shares and for whom it waits; without COST a line for each\n\
         cost that is there.",
        "cost v0 0",
    ),
    usage("check", "FILE", "Tells whether the file holds a sound image.", "check v0"),
    usage(
        "play",
        "LESSON",
        "Plays a lesson, a text file with a history of vans 0 to 7, in memory and from empty\n\
         images, each answer beside its line. It has one of these on a line:\n\
         \n\
         \x20 VAN: COMMAND ...    a command as above, without FILE; join names another VAN or\n\
         \x20                     a kept image, raise has no words behind it\n\
         \x20 VAN: keep NAME      keeps a copy of the van's image, for a later join NAME\n\
         \x20 VAN: version 1      or 2: the van begins with that older version, until raise\n\
         \x20 homes 0,1,...       the home van of each user, before anything else\n\
         \x20 expect LINE         the next line of the last answer is this one: done, or\n\
         \x20                     refused 13 (with or without its words), or a line of text;\n\
         \x20                     spaces before and behind it don't count\n\
         \x20 expect nothing more the last answer has no line beyond those expected\n\
         \x20 # ...               for the reader, also behind a command\n\
         \n\
         It stops with status 1 at the first expect that fails, and with 2 at a line that\n\
         is none of these. A refusal that nobody expects does not stop it.",
        "play examples/lessons/c1.txt",
    ),
];
