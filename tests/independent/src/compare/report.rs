//! A difference in print: the input in hex, a field a line, and what both programs say of it.

use super::check::Program;
use super::subject::Subject;
use crate::hex;
use crate::program::fields_of;
use std::fs;
use std::io;
use std::path::Path;

/// Print the input that shows a difference, and keep it as a file.
pub fn print(program: Program, subject: &Subject, fields: &[Vec<u8>], file: &Path) -> io::Result<()> {
    let input = fields.concat();
    if let Some(folder) = file.parent() {
        fs::create_dir_all(folder)?;
    }
    fs::write(file, &input)?;
    let what = if program == Program::Inspect { "dump" } else { "event file" };
    println!("the shortest {what} found, {} fields, kept as {}:", fields.len(), file.display());
    print_folded(fields);
    let wanted = lines_of(program, &program.wanted(&input)?);
    let (said, end) = subject.answer(&input)?;
    let said = lines_of(program, &said);
    println!("the independent program:");
    print_beside(&wanted, &said);
    println!("the program under test:");
    print_beside(&said, &wanted);
    if let Err(end) = end {
        println!("    ({})", end.what);
    }
    Ok(())
}

/// A line for each line; for a dump, one for each field.
fn lines_of(program: Program, bytes: &[u8]) -> Vec<String> {
    if program == Program::Snapshot {
        return fields_of(bytes).iter().map(|field| hex::field(field)).collect();
    }
    let lines = bytes.split_inclusive(|&byte| byte == b'\n');
    lines.map(|line| String::from_utf8_lossy(line).replace('\n', "")).collect()
}

/// A field a line; many equal ones are one line with their number.
fn print_folded(fields: &[Vec<u8>]) {
    for row in fields.chunk_by(|one, other| one == other) {
        let field = hex::field(&row[0]);
        if row.len() > 9 {
            println!("    {field} x {}", row.len());
        } else {
            row.iter().for_each(|_| println!("    {field}"));
        }
    }
}

/// A star marks what the others do not say there. Of many lines that are the same, the last ones before that are printed.
fn print_beside(lines: &[String], others: &[String]) {
    let same = lines.iter().zip(others).take_while(|(one, other)| one == other).count();
    let left_out = if same > 40 { same - 10 } else { 0 };
    if left_out > 0 {
        println!("    ({left_out} lines that are the same)");
    }
    for (place, line) in lines.iter().enumerate().skip(left_out) {
        let mark = if others.get(place) == Some(line) { ' ' } else { '*' };
        println!("  {mark} {line}");
    }
}
