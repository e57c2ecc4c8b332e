//! What `axle --help` writes, and the usage line of a wrong call.

use crate::commands::COMMANDS;
use crate::failure::Failure;

const ABOUT: &str = "\
axle: the loss map of an axle's component data, such data made from numbers, a listing
taken in, the steps of a sensor's uncertainty, and the drag of a retarder

usage:
";

const DETAILS: &str = "
FILE     component data; - for standard input, but not of losses; ./-name for a name that
         begins with -
SPEED    speed at the wheel in rpm, at most one digit after the point; of drag, the speed
         of the retarder's drive
TORQUE   torque at the wheel in Nm, at most two digits after the point; of steps, the
         torque that the sensor measured
LISTING  a listing as list writes it; spaces and tabs at both ends of its lines are not
         looked at; - for standard input
NUMBERS  a text with the numbers of component data; - for standard input
N to R   the whole numbers of a sensor, in the order of the data
RATIO    step-up ratio of a retarder, its speed over that of its drive, from 0.1 to 10, at
         most three digits after the point
READINGS, BEARING_LOSSES
         torques in Nm, at most two digits after the point, joined by commas: what was
         measured of the retarder as a stand-alone unit, and what the rig's bearings took
         of it; both at the first 2 to 13 of the points 200, 400, 600, 900, 1200, 1600,
         2000, 2500, 3000, 3500, 4000, 4500 and 5000 rpm, as many as there are

The standard input of losses has a question on each line: SPEED and TORQUE, set apart by
spaces or tabs. Blanks at both ends of a line are not looked at; a line of blanks alone
asks nothing, but is counted. The last line may do without its line feed. The losses are
printed a line each, in the order of the questions. Where one is refused, or is not two
such numbers, nothing is printed and its line is told, counted from 1.

A line of NUMBERS is one of these words with its numbers, set apart by blanks. Each
word stands once, in any order, but for row. Lines that are empty or begin with # are
passed over. Every line ends with a line feed, the last too.
  kind     1 standard, 2 measured, 3 measured with a sensor on each half-shaft
  line     axle line, from 1 to 5: SR, SRT, SP, HR, HRT
  ratio    at most three digits after the point
  speeds   of the grid, in whole rpm at the wheel
  torques  of the grid, in whole Nm at the wheel
  input    of kinds 2 and 3, the sensor's whole numbers: N w z c k s p d R
  output   of kinds 2 and 3, the same; of kind 3 the left sensor
  right    of kind 3, the same
  row      of kinds 2 and 3, for each point of the grid, all torques of the first speed
           and then of the next: input and output torque, of kind 3 input, left and
           right, in Nm, at most two digits after the point

Below the map's first torque a loss follows the line of the first two torques and
may be negative. The nearest point is the lower one of two that are equally near, and
the end of the axis for a point outside it. Steps are printed a line each: a, b, g, h
and U, each with its grains, of which 100 are 0.01 Nm. A refused line of a listing is
told with its number, counted from 1, the header's. A drag is refused also where
the retarder's speed, SPEED times RATIO, is below 200 rpm or above the last point that
has a reading.

Answers go to standard output, refusals and failures to standard error.
Status 0: answered. Status 1: the data, the listing, the numbers or a question is
refused.
Status 2: something could not be read or written, or wrong usage.

examples, in the folder examples:
  axle list standard.axle > map.csv
  axle loss standard.axle 100.0 500.00   prints 140.21
  axle loss measured.axle 100 500        prints -41.25
  echo 100.0 500.00 | axle losses standard.axle
  axle nearest standard.axle 150.1 500   prints 200,0
  axle check - < standard.axle
  axle load standard.csv
  axle load --list - < standard.csv
  axle write measured.numbers > new.axle
  axle steps 10000 0 0 100 1000 0 0 0 10 340
  axle drag 1.5 200 10.00,15.00 1,2      prints 11.00
";

pub fn text() -> String {
    let width = COMMANDS.iter().map(|command| command.usage().len()).max();
    let width = width.unwrap_or(0);
    let line = |usage: &str, help: &str| format!("  {usage:width$}   {help}\n");
    let commands = COMMANDS
        .iter()
        .map(|command| line(&command.usage(), command.help));
    let lines: String = commands.chain([line("axle --help", "this text")]).collect();
    format!("{ABOUT}{lines}{DETAILS}")
}

/// Where no command is meant that is known: the words there are.
pub fn wrong_usage(message: String) -> Failure {
    let names = COMMANDS.iter().map(|command| command.name);
    let names: Vec<&str> = names.filter(|name| !name.contains(' ')).collect();
    Failure::WrongUsage {
        message,
        usage: format!("axle {} .., or axle --help", names.join("|")),
    }
}
