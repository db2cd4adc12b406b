//! Run sheets: rules 16 to 18. Names have either spelling, values are in digits.

use crate::program::{name, numeral, whole, Front};
use crate::{refuse, Refusal};

pub const BYTES: usize = 4_096;

/// The starting values of each run.
pub type Rows = Vec<[u32; 32]>;

fn fields(line: &[u8]) -> Vec<&[u8]> {
    if line.is_empty() {
        return Vec::new();
    }
    line.split(|&b| b == b' ').collect()
}

fn read_all(line: &[u8], one: fn(&[u8]) -> Front<'_>) -> Option<Vec<u64>> {
    fields(line).into_iter().map(|field| whole(one(field), b"")).collect()
}

/// The rows of a sheet for a program of `variables` variables, each of which has its capacity.
pub fn read(sheet: &[u8], variables: usize, capacities: &[u32; 32]) -> Result<Rows, Refusal> {
    if sheet.is_empty() || sheet.len() > BYTES || sheet[sheet.len() - 1] != b'\n' {
        return refuse(16, 0);
    }
    let mut lines = sheet[..sheet.len() - 1].split(|&b| b == b'\n');
    let Some(names) = read_all(lines.next().unwrap_or(b""), name) else { return refuse(16, 1) };
    let twice = names.iter().enumerate().any(|(at, n)| names[..at].contains(n));
    if twice || names.iter().any(|&n| n >= variables as u64) {
        return refuse(17, 1);
    }
    let mut rows = Rows::new();
    for (at, line) in lines.enumerate() {
        let place = at + 2;
        let values = match read_all(line, numeral) {
            Some(values) if values.len() == names.len() => values,
            _ => return refuse(16, place),
        };
        let mut row = [0; 32];
        for (n, v) in names.iter().zip(values) {
            if v > u64::from(capacities[*n as usize]) {
                return refuse(18, place);
            }
            row[*n as usize] = v as u32;
        }
        rows.push(row);
    }
    Ok(rows)
}
