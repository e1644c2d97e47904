//! How to use the command, in words.
use crate::arguments::Command;

pub const USAGE: &str = "\
usage: framed run MODEL [--frames F] [--texts T] [--fuel N] [--look PATH ..]
       framed where MODEL [--frames F] [--texts T] [--fuel N] [--always]
       framed check MODEL .. [--frames F] [--texts T]
       framed trace MODEL [--frames F] [--texts T] [--fuel N]
       framed write MODEL
       framed replay SCRIPT
       framed --help | framed COMMAND --help | framed --version";

/// The usage of one command.
pub fn usage(command: Command) -> &'static str {
    match command {
        Command::Run => "framed run MODEL [--frames F] [--texts T] [--fuel N] [--look PATH ..]",
        Command::Where => "framed where MODEL [--frames F] [--texts T] [--fuel N] [--always]",
        Command::Check => "framed check MODEL .. [--frames F] [--texts T]",
        Command::Trace => "framed trace MODEL [--frames F] [--texts T] [--fuel N]",
        Command::Write => "framed write MODEL",
        Command::Replay => "framed replay SCRIPT",
    }
}

/// The help for one command, or for all.
pub fn text(command: Option<Command>) -> String {
    let Some(command) = command else {
        return format!("{ABOUT}\n{USAGE}\n{COMMANDS}\n{LIMITS}{FUEL}{LOOK}{ALWAYS}\n{STATUS}\n{EXAMPLES}");
    };
    let usage = usage(command);
    match command {
        Command::Run => format!("{RUN}\nusage: {usage}\n\n{LIMITS}{FUEL}{LOOK}\n{STATUS}\n{RUN_EXAMPLES}"),
        Command::Where => {
            format!("{WHERE}\nusage: {usage}\n\n{LIMITS}{FUEL}{ALWAYS}\n{STEPS_STATUS}\n{WHERE_EXAMPLES}")
        }
        Command::Check => format!("{CHECK}\nusage: {usage}\n\n{LIMITS}\n{CHECK_STATUS}\n{CHECK_EXAMPLES}"),
        Command::Trace => format!("{TRACE}\nusage: {usage}\n\n{LIMITS}{FUEL}\n{STEPS_STATUS}\n{TRACE_EXAMPLES}"),
        Command::Write => format!("{WRITE}\nusage: {usage}\n\n{WRITE_STATUS}\n{WRITE_EXAMPLES}"),
        Command::Replay => format!("{REPLAY}\nusage: {usage}\n\n{REPLAY_STATUS}\n{REPLAY_EXAMPLES}"),
    }
}

const ABOUT: &str = "The proved machine of the Framed language.
";

const COMMANDS: &str = "
  run      runs a model and prints what it shows
  where    runs a model and, where frames have no room, says which instructions made them
  check    says for each model whether it loads, and where and why it does not
  trace    runs a model and prints each instruction that it makes
  write    prints a model in the one form that all models of the same program have
  replay   makes the calls of a script one after the other and prints each answer

A MODEL or SCRIPT is a file; `-` is standard input. Results go to standard output, words
about a refusal, an end or an error to standard error.
";

const LIMITS: &str = "  --frames F   how many frames may be reached, 3 to 256; else 256
  --texts T    how many made texts may be reached, 0 to 256; else 256
";

const FUEL: &str = "  --fuel N     how many steps may be made, 0 to 4294967295; else 100000
";

const LOOK: &str = "  --look PATH ..
               prints what stands at the end of each path after the run. A path is `self`
               or `^`, the program, with names: self.faults, ^.table.trim.length. All
               arguments up to the next that begins with `--` are paths
";

const ALWAYS: &str = "  --always     where: says what made the frames however the run stops
";

const STATUS: &str = "\
status: 0  done
        1  an end by number, 31 to 37
        2  the model is refused, or a path of --look
        3  stopped by fuel
        4  wrong usage, or an error of input or output
";

const EXAMPLES: &str = "\
examples: framed run examples/drive.framed --look self.faults self.line
          framed trace examples/call.framed
";

const RUN: &str = "\
Runs a model. Prints what it shows, then `end E steps S frames F texts T`: E is 0 (done),
31 to 37 or `fuel`; then the steps made, and the frames and made texts that are reached.
";

const RUN_EXAMPLES: &str = "\
examples: framed run examples/drive.framed --look self.faults self.line
          framed run - --frames 20 --texts 2 --fuel 1000000 < examples/drive.framed
";

const WHERE: &str = "\
Runs a model as `run` does. Where it ends 36, for want of room for frames, it also prints what
made the frames that are reached: `N frames reached, made:`, and a line for each instruction
that made some of them, most frames first, as

  37 by instruction 4 at MODEL:3:18: self.list := frame: [ next := self.list ];

Instructions are counted from 1 by where each begins in the source, those in code literals
too; `look` gives the same number as a frame's maker. `at loading` are the frames that are
written outside code, and the first self.
";

const WHERE_EXAMPLES: &str = "\
examples: framed where examples/leak.framed
          framed where examples/drive.framed --fuel 1000 --always
";

const CHECK: &str = "\
Loads each model and runs none. Prints `MODEL: loads`, or why it does not and where.
";

const CHECK_STATUS: &str = "\
status: 0  all load
        2  one is refused
        4  one cannot be read, or wrong usage, or an error of output
";

const CHECK_EXAMPLES: &str = "\
examples: framed check examples/*.framed
          framed check model.framed --frames 40 --texts 8
";

const TRACE: &str = "\
Runs a model as `run` does, and prints a line for each step: where the instruction stands
(LINE:COLUMN, from 1, in bytes), its text, and behind `->` the value that was stored (a text
in quotes), the line that was shown, or the code that was jumped to.
";

const STEPS_STATUS: &str = "\
status: 0  done
        1  an end by number, 31 to 37
        2  the model is refused
        3  stopped by fuel
        4  wrong usage, or an error of input or output
";

const TRACE_EXAMPLES: &str = "\
examples: framed trace examples/call.framed
          framed trace examples/drive.framed --fuel 50
";

const WRITE: &str = "\
Loads a model and prints its program on one line, in the one form that all models of the same
program have: one space between neighbouring tokens and none inside a path, no needless zeros,
no last comma, and each `^` path with as few `^` and names as it can have. Comments are not
kept. The text loads as the same program, where it has at most 16384 bytes.
";

const WRITE_STATUS: &str = "\
status: 0  written
        2  the model is refused
        4  wrong usage, or an error of input or output
";

const WRITE_EXAMPLES: &str = "\
examples: framed write model.framed > tidy.framed
          framed write examples/drive.framed | framed run -
";

const REPLAY: &str = "\
Makes the calls of a script and prints each answer, as the program `replay` does. Files are
looked for in the working directory. A script is a list of calls in the tokens of a source:

  load \"FILE\" F T    loaded, or refused N
  run FUEL SPACE     what was shown, then run E steps S bytes B. SPACE is at most 4096;
                     FUEL -1 is the largest
  collect            collect frames F texts T
  look \"PATH\"        look integer N, look text BYTES, look code, look frame maker N, or
                     refused N
  write SPACE        write bytes N TEXT, the program as Framed text, or refused N. SPACE is
                     at most 32768, and 32767 is enough for every model

A token that does not fit is printed behind a `?`, and the next call begins after it.
";

const REPLAY_STATUS: &str = "\
status: 4  something was printed behind a `?`, or wrong usage, or an error of input or output
        2  else, where a call was refused
        0, 1, 3
           else, as the last run stopped: done, an end by number, fuel or output
";

const REPLAY_EXAMPLES: &str = "\
examples: cd crates/replay/data && framed replay ../stdin
          echo 'load \"hello.framed\" 3 0 run 9 99' | framed replay -
";
