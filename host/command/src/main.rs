//! The command `usm`: what is in USM films, their streams as files, and films made of streams.
//!
//! Each subcommand is a file of `commands`. They share their options (`options`), the work on many films (`run`), the
//! files that are made (`files`), what is printed (`output`), and why tenants share a copy (`sharing`).
#![forbid(unsafe_code)]

mod commands;
mod ending;
mod files;
mod options;
mod output;
mod run;
mod sharing;

use std::io::Write;
use std::process::ExitCode;

use clap::{Parser, Subcommand};

use commands::*;
use output::Status;

/// Looks into USM films, extracts them and packs them
///
/// Each FILE is a film, a folder, of which all files that end in .usm are taken, or - for standard input. In folders,
/// hidden entries, links, pipes and devices are passed over. A file that is named twice is done once. A film that is
/// refused or can't be read does not stop the others.
#[derive(Parser)]
#[command(name = "usm", version, after_help = STATUS)]
struct Arguments {
    #[command(subcommand)]
    command: Command,
}

const STATUS: &str = "Status: 0 all is well, 1 some film is refused, 2 the arguments, a file or the system is at fault.
Errors go to standard error; that of a film has the number of the refusal, the place and the reason.";

#[derive(Subcommand)]
enum Command {
    Info(info::Info),
    Keys(keys::Keys),
    Clip(clip::Clip),
    List(list::List),
    Index(index::IndexFilm),
    Seek(seek::Seek),
    Table(table::Table),
    Extract(extract::Extract),
    Pack(pack::Pack),
    Csv(csv::Csv),
    FromOld(from_old::FromOld),
    ToOld(to_old::ToOld),
    Rekey(rekey::Rekey),
    Salvage(salvage::Salvage),
    Profile(profile::Profile),
    Statement(statement::Statement),
    Bill(bill::Bill),
    Digest(digest::Digest),
    #[command(hide = true)]
    Completions(completions::Completions),
}

fn main() -> ExitCode {
    ending::end_well(|| match Arguments::try_parse_from(options::jobs::joined(std::env::args_os())) {
        Ok(arguments) => run(arguments.command),
        Err(error) => print_usage(error),
    })
}

fn run(command: Command) -> Status {
    match command {
        Command::Info(info) => info.run(),
        Command::Keys(keys) => keys.run(),
        Command::Clip(clip) => clip.run(),
        Command::List(list) => list.run(),
        Command::Index(index) => index.run(),
        Command::Seek(seek) => seek.run(),
        Command::Table(table) => table.run(),
        Command::Extract(extract) => extract.run(),
        Command::Pack(pack) => pack.run(),
        Command::Csv(csv) => csv.run(),
        Command::FromOld(from_old) => from_old.run(),
        Command::ToOld(to_old) => to_old.run(),
        Command::Rekey(rekey) => rekey.run(),
        Command::Salvage(salvage) => salvage.run(),
        Command::Profile(profile) => profile.run(),
        Command::Statement(statement) => statement.run(),
        Command::Bill(bill) => bill.run(),
        Command::Digest(digest) => digest.run(),
        Command::Completions(completions) => completions.run(),
    }
}

/// Help and version, which are no errors, or what is wrong with the arguments.
fn print_usage(error: clap::Error) -> Status {
    if error.use_stderr() {
        let text = error.to_string();
        return output::report(Status::Failed, text.strip_prefix("error: ").unwrap_or(&text).trim_end());
    }
    match error.print().and_then(|()| std::io::stdout().flush()) {
        Ok(()) => Status::Success,
        Err(error) => output::failed(error),
    }
}
