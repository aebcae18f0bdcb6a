//! The front end: it reads files and shows; what it shows was decided by the proved calls.

mod answer;
mod arguments;
mod calls;
mod commands;
mod csv;
mod files;
mod folder;
mod grade;
mod html;
mod kinds;
mod model;
mod parts;
mod reasons;
mod say;
mod show;
mod story;
mod table;
mod text;
mod words;

use answer::{answer, end, failure, Answered, GOOD};
use arguments::{Call, Options};
use commands::{asbestos, class, compare, explain, from, game, mark, page, strike, way};
use words::{calling, help};

/// A command: its name, the options that it has, what it does and its help.
struct Command {
    name: &'static str,
    options: Options,
    run: fn(&Call) -> Answered,
    help: fn() -> String,
}

const fn command(name: &'static str, alone: &'static [&'static str], run: fn(&Call) -> Answered, help: fn() -> String) -> Command {
    Command {
        name,
        options: Options { alone, followed: &[] },
        run,
        help,
    }
}

const COMMANDS: [Command; 11] = [
    command("mark", &[], mark::run, help::mark),
    command("explain", &[explain::ALL], explain::run, help::explain),
    command("page", &[explain::ALL], page::run, help::page),
    command("class", &[class::CSV], class::run, help::class),
    command("compare", &[], compare::run, help::compare),
    command("from", &[explain::ALL], from::run, help::from),
    command("strike", &[], strike::strike, help::strike),
    command("share", &[], strike::share, help::share),
    Command {
        name: "game",
        options: Options {
            alone: &[],
            followed: &[game::ATTACKER, game::GUARDIAN],
        },
        run: game::run,
        help: help::game,
    },
    command("way", &[], way::run, help::way),
    command("asbestos", &[asbestos::TEXT], asbestos::run, help::asbestos),
];

/// Answers the words of a call.
fn answered() -> Answered {
    let words: Result<Vec<String>, _> = std::env::args_os().skip(1).map(|w| w.into_string()).collect();
    let mut words = words.map_err(|_| failure(calling::no_text()))?.into_iter();
    let name = words.next().unwrap_or_default();
    let command = COMMANDS.iter().find(|c| c.name == name).ok_or_else(|| failure(calling::no_command()))?;
    let words = arguments::choose_language(command.name, words.collect())?;
    let help = (command.help)();
    if words.iter().any(|w| w == "--help" || w == "-h") {
        return Ok(answer(format!("{help}\n\n{}\n", help::language()), GOOD));
    }
    let usage = help.lines().next().unwrap_or_default();
    (command.run)(&arguments::sort(command.name, usage, &command.options, words)?)
}

fn main() {
    let answered = answered();
    let (Ok(answer) | Err(answer)) = &answered;
    end(answer)
}
