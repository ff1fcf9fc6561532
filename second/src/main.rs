//! The second program: an independent implementation of the rules, written to
//! be compared with the proved library. It uses the standard library alone:
//!
//! ```text
//! rustc -O --edition 2021 second/src/main.rs -o second-program
//! rustc -O --edition 2021 --test second/src/main.rs -o second-tests
//! ```

mod area_damage;
mod bench;
mod book;
mod calls;
mod choices;
mod compare;
mod damage;
mod derivation;
mod descent;
mod edit;
mod edit_case;
mod edit_check;
mod grammar;
mod image;
mod kept_slots;
mod lent;
mod limits;
mod listing;
mod listing_input;
mod other_sentence;
mod parse;
mod parse_case;
mod per_symbol;
mod prepare;
mod prepare_case;
mod random;
mod random_grammar;
mod random_lists;
mod random_ll1;
mod random_sentence;
mod read_back;
mod read_back_case;
mod reference;
mod reply;
mod sets;
mod show;
mod splice;
mod starts;
mod symbol_set;
mod tables;
mod token_damage;
mod tokens;
mod tree;

#[cfg(test)]
mod earley;
#[cfg(test)]
mod enumeration;
#[cfg(test)]
mod plain_parse;
#[cfg(test)]
mod samples;

use std::error::Error;
use std::io::{self, Read, Write};
use std::process::{Command, ExitCode};

const USAGE: &str = "usage:
  second show FILE|-                 the grammar that an image holds
  second prepare FILE|-              the reply of prepare and the table bytes that are not 0
  second listing                     what `listing` prints for token bytes on standard input
  second images SEED COUNT PROGRAM [ARGUMENT ..]
                                     compare PROGRAM with `show -` on COUNT images
  second listings SEED COUNT PROGRAM [ARGUMENT ..]
                                     the same with `listing` on COUNT lists of token bytes
  second prepares SEED COUNT PROGRAM [ARGUMENT ..]
                                     compare PROGRAM with prepare on COUNT cases, which it
                                     takes on standard input and answers on standard output
  second parses SEED COUNT PROGRAM [ARGUMENT ..]
  second reads SEED COUNT PROGRAM [ARGUMENT ..]
  second edits SEED COUNT PROGRAM [ARGUMENT ..]
                                     the same with parse, with read back and with edit
  second book RULES                  the token bytes of a book with RULES rules
  second bench-prepare COUNT FILE|-  nanoseconds of prepare and of copying the tables, each
                                     the mean of COUNT calls
  second bench-parse COUNT GRAMMAR TOKENS
                                     the same of parse into 1,000 slots, of the parse alone
                                     when all is checked, and of copying tree, tables and work
  second bench-read-back COUNT GRAMMAR TOKENS
                                     the same of read back, of the walk that tells a valid
                                     tree alone, and of copying tree and tokens
  second bench-edit COUNT GRAMMAR TOKENS
                                     the same of edits of a book in 1,000 slots, the best of
                                     20 batches: another first, middle and last host, the
                                     middle rule removed; and of copying tree, tables and work";

/// Exit status for a command that could not be carried out.
const NOT_RUN: u8 = 2;

fn main() -> ExitCode {
    let arguments: Vec<String> = std::env::args().skip(1).collect();
    let words: Vec<&str> = arguments.iter().map(String::as_str).collect();
    run(&words).unwrap_or_else(|fault| {
        eprintln!("{fault}");
        ExitCode::from(NOT_RUN)
    })
}

/// Carries out one command line.
fn run(words: &[&str]) -> Result<ExitCode, Box<dyn Error>> {
    match *words {
        ["show", source] => {
            print!("{}", show::grammar_text(&read_source(source)?));
            Ok(ExitCode::SUCCESS)
        }
        ["prepare", source] => {
            print!("{}", show::tables_text(&read_source(source)?));
            Ok(ExitCode::SUCCESS)
        }
        ["listing"] => {
            print!("{}", listing::listing(&read_source("-")?));
            Ok(ExitCode::SUCCESS)
        }
        ["images", seed, count, program, ref arguments @ ..] => {
            let ask = |image: &[u8]| compare::ask_program(program, arguments, image);
            let failed = compare::images(seed.parse()?, count.parse()?, ask, &mut io::stdout())?;
            Ok(status(failed))
        }
        ["listings", seed, count, program, ref arguments @ ..] => {
            let ask = |tokens: &[u8]| compare::ask_program(program, arguments, tokens);
            let failed = compare::listings(seed.parse()?, count.parse()?, ask, &mut io::stdout())?;
            Ok(status(failed))
        }
        ["prepares", seed, count, ref command @ ..] => {
            compare_calls(prepare_case::cases, seed, count, command)
        }
        ["parses", seed, count, ref command @ ..] => {
            compare_calls(parse_case::cases, seed, count, command)
        }
        ["reads", seed, count, ref command @ ..] => {
            compare_calls(read_back_case::cases, seed, count, command)
        }
        ["edits", seed, count, ref command @ ..] => {
            compare_calls(edit_case::cases, seed, count, command)
        }
        ["bench-prepare", count, source] => {
            println!("{}", bench::prepare(count.parse()?, &read_source(source)?));
            Ok(ExitCode::SUCCESS)
        }
        ["book", rules] => {
            let book = book::tokens(rules.parse()?);
            io::stdout().write_all(&tokens::bytes(&book))?;
            Ok(ExitCode::SUCCESS)
        }
        ["bench-parse", count, image, tokens] => {
            let (image, tokens) = (read_source(image)?, read_source(tokens)?);
            println!("{}", bench::parse(count.parse()?, &image, &tokens)?);
            Ok(ExitCode::SUCCESS)
        }
        ["bench-read-back", count, image, tokens] => {
            let (image, tokens) = (read_source(image)?, read_source(tokens)?);
            println!("{}", bench::read_back(count.parse()?, &image, &tokens)?);
            Ok(ExitCode::SUCCESS)
        }
        ["bench-edit", count, image, tokens] => {
            let (image, tokens) = (read_source(image)?, read_source(tokens)?);
            println!("{}", bench::edit(count.parse()?, &image, &tokens)?);
            Ok(ExitCode::SUCCESS)
        }
        _ => Err(USAGE.into()),
    }
}

/// Compares the calls of a program, which comes with its arguments.
fn compare_calls<C: calls::Case, I: Iterator<Item = C> + Send + 'static>(
    cases: fn(u64) -> I,
    seed: &str,
    count: &str,
    command: &[&str],
) -> Result<ExitCode, Box<dyn Error>> {
    let (program, arguments) = command.split_first().ok_or(USAGE)?;
    let mut command = Command::new(program);
    command.args(arguments);
    let (seed, count) = (seed.parse()?, count.parse()?);
    let failed = calls::calls(cases(seed), seed, count, &mut command, &mut io::stdout())?;
    Ok(status(failed))
}

/// Success if no case failed.
fn status(failed: usize) -> ExitCode {
    if failed == 0 {
        ExitCode::SUCCESS
    } else {
        ExitCode::FAILURE
    }
}

/// The bytes of a file, or of standard input for `-`.
fn read_source(source: &str) -> io::Result<Vec<u8>> {
    if source != "-" {
        return std::fs::read(source);
    }
    let mut bytes = Vec::new();
    io::stdin().read_to_end(&mut bytes)?;
    Ok(bytes)
}
