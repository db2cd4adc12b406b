//! What the run tool and the label tool print, and a report on registers of any capacities. All are outside the LOOP-only setting, and have
//! the plain word.

use crate::machine::{are_sizes, Machine, CAPACITY, REGISTERS};
use crate::program::{read, variables, Setting};
use crate::source::{run, State};
use crate::translation::{translate, Form};
use crate::word::{spell, Instruction};
use crate::{refuse, sheet, Refusal};

pub const SOURCE_BUDGET: u32 = 100_000;
pub const WORD_BUDGET: u32 = 1_000_000;
pub const WORD_BYTES: usize = 65_536;

/// Rule 21: "a scratch or counter register that the word names, of less capacity than the largest of a variable". The registers above
/// those of the K variables are the scratch and the counters.
pub fn check_helpers(word: &[Instruction], k: usize, capacities: &[u16]) -> Result<(), Refusal> {
    let largest = capacities.iter().take(k).max();
    let named = word.iter().filter_map(|i| i.register()).filter(|&r| r > k);
    if named.map(|r| capacities.get(r - 1)).any(|capacity| capacity < largest) {
        return refuse(21, 0);
    }
    Ok(())
}

/// The capacities of the variables, of which there are at least 32 registers.
fn of_variables(capacities: &[u16]) -> [u32; 32] {
    std::array::from_fn(|i| capacities[i].into())
}

fn runs(text: &[u8], sheet: &[u8], capacities: &[u16]) -> Result<String, Refusal> {
    let commands = read(Setting::Any, text)?;
    let k = variables(&commands);
    if capacities.len() != REGISTERS || !are_sizes(capacities) {
        return refuse(10, 0);
    }
    let word = translate(Form::Plain, &commands);
    check_helpers(&word, k, capacities)?;
    let rows = sheet::read(sheet, k, &of_variables(capacities))?;
    if spell(&word).len() > WORD_BYTES {
        return refuse(19, 0);
    }
    let mut out = String::from("source-end source-steps word-end word-steps X0\n");
    for row in rows {
        let mut state = State::fresh(of_variables(capacities), row);
        let source = run(&commands, &mut state, SOURCE_BUDGET);
        let ones: Vec<_> = row[..k].iter().map(|&v| vec![b'1'; v as usize]).collect();
        let mut machine = Machine::fresh(capacities, &ones);
        let (end, steps) = machine.run(&word, WORD_BUDGET);
        out += &format!("{} {} {} {} {}\n", source.end.name(), source.steps, end.name(), steps, state.values[0]);
    }
    Ok(out)
}

fn printed(answer: Result<String, Refusal>) -> String {
    answer.unwrap_or_else(|r| format!("refused {} {}\n", r.number, r.place))
}

/// The whole text, from the program's and the sheet's, on 64 registers of these capacities.
pub fn report_on(text: &[u8], sheet: &[u8], capacities: &[u16]) -> String {
    printed(runs(text, sheet, capacities))
}

/// The same "with 64 registers, capacity 1,024".
pub fn report(text: &[u8], sheet: &[u8]) -> String {
    report_on(text, sheet, &[CAPACITY as u16; REGISTERS])
}

/// The word of a program's text, on a line.
pub fn label(text: &[u8]) -> String {
    let word = |commands: Vec<_>| String::from_utf8_lossy(&spell(&translate(Form::Plain, &commands))).into_owned() + "\n";
    printed(read(Setting::Any, text).map(word))
}

/// The refusal that a printed text tells of.
pub fn refusal(printed: &str) -> Option<Refusal> {
    let (number, place) = printed.strip_prefix("refused ")?.strip_suffix('\n')?.split_once(' ')?;
    Some(Refusal { number: number.parse().ok()?, place: place.parse().ok()? })
}
