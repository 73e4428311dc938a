//! Compares the archive with straightforward Rust programs. See README.md for the commands.

mod blocks;
mod forms;
mod logs;
mod plain;
mod plain_blocks;
mod plain_forms;
mod plain_log;
mod plain_record;
mod records;
mod sheets;
mod timing;

use records::{record_in, record_in_mut};
use reference::model::Form;
use sheets::Group;
use std::hint::black_box;
use std::path::Path;
use std::process::ExitCode;
use timing::Row;

/// The output memory that both are lent.
const LENT: usize = 32_768;

/// One of the two sides: a text and an output memory to the numbers of the answer.
type Side<const N: usize> = fn(&[u8], &mut [u8]) -> [u32; N];

/// Two programs that do the same.
pub struct Sides<const N: usize> {
    archive: Side<N>,
    plain: Side<N>,
}

/// Running a sheet.
const RUN: Sides<7> = Sides {
    archive: |sheet, output| pavebox::run(sheet, output).numbers(),
    plain: |sheet, output| plain::run(sheet, output).expect(ACCEPTED),
};

/// Making the lines of an export.
const CSV: Sides<3> = Sides {
    archive: |export, output| pavebox::csv(export, output).numbers(),
    plain: plain_log::csv,
};

/// Making the lines of a program with blocks.
const BLOCKS: Sides<3> = Sides {
    archive: |program, output| pavebox::blocks(program, blocks::KEYS, output).numbers(),
    plain: |program, output| plain_blocks::blocks(program, blocks::KEYS, output),
};

/// Saving a record as a sheet.
const SAVE: Sides<2> = Sides {
    archive: |record, output| pavebox::write(record_in(record), output).numbers(),
    plain: |record, output| plain_record::save(record_in(record), output),
};

/// Opening a sheet as a record, which is at the start of the output memory.
const OPEN: Sides<2> = Sides {
    archive: |sheet, output| pavebox::read(sheet, record_in_mut(output)).numbers(),
    plain: |sheet, output| plain_record::open(sheet, record_in_mut(output)).expect(ACCEPTED),
};

/// Turning a sheet of this form into the other one.
const fn turn(form: Form) -> Sides<3> {
    match form {
        Form::One => Sides {
            archive: |sheet, output| forms::called(pavebox::to_sheet2_entry, sheet, output),
            plain: |sheet, output| plain_forms::to_two(sheet, output).expect(ACCEPTED),
        },
        Form::Two => Sides {
            archive: |sheet, output| forms::called(pavebox::to_sheet1_entry, sheet, output),
            plain: |sheet, output| plain_forms::to_one(sheet, output).expect(ACCEPTED),
        },
    }
}

const ACCEPTED: &str = "the sheets of the comparison are accepted";

fn main() -> ExitCode {
    let words: Vec<String> = std::env::args().skip(1).collect();
    let words: Vec<&str> = words.iter().map(String::as_str).collect();
    let done = match words.as_slice() {
        [] => compare_and_time(),
        [side @ ("archive" | "plain"), count] => run_one(side, count, "all"),
        [side @ ("archive" | "plain"), count, name] => run_one(side, count, name),
        ["texts", folder] => write_texts(folder),
        _ => Err(usage()),
    };
    match done {
        Ok(()) => ExitCode::SUCCESS,
        Err(message) => {
            eprintln!("{message}");
            ExitCode::FAILURE
        }
    }
}

fn usage() -> String {
    "usage: bench\n       bench archive|plain COUNT \
     [all|long|short|largest|LH|all L|random|runs|calls|log|blocks|saved|opened|turned]\n       \
     bench archive|plain COUNT \
     two|'two long|short|largest|LAB|all L|random|runs|calls|saved|opened|turned'\n       \
     bench texts FOLDER"
        .to_string()
}

fn compare_and_time() -> Result<(), String> {
    let sheets = Form::ALL.map(|form| (sheets::halves(form), sheets::kinds(form)));
    for (halves, kinds) in &sheets {
        compare_all(&RUN, halves)?;
        compare_all(&RUN, kinds)?;
    }
    let (logs, blocks) = ([logs::full()], [blocks::full()]);
    let (saved, opened) = (
        Form::ALL.map(records::saved),
        Form::ALL.map(records::opened),
    );
    compare_all(&RUN, &Form::ALL.map(sheets::largest))?;
    compare_all(&CSV, &logs)?;
    compare_all(&BLOCKS, &blocks)?;
    compare_all(&SAVE, &saved)?;
    compare_all(&OPEN, &opened)?;
    for form in Form::ALL {
        compare(&turn(form), &forms::turned(form))?;
    }
    println!("archive and plain agree on all sheets, exports, programs with blocks and records");
    for (form, (halves, kinds)) in Form::ALL.into_iter().zip(&sheets) {
        time_sheets(form, halves, kinds);
    }
    println!("full exports of a belt log:");
    time(&CSV, &logs);
    println!("programs with blocks, of 64 commands:");
    time(&BLOCKS, &blocks);
    println!("full records, saved as sheets and opened from them:");
    time(&SAVE, &saved);
    time(&OPEN, &opened);
    println!("sheets of full records, turned into the other form:");
    for form in Form::ALL {
        time(&turn(form), &[forms::turned(form)]);
    }
    Ok(())
}

/// Times both sides on the sheets of a form: all, each half, and each kind of turns.
fn time_sheets(form: Form, halves: &[Group], kinds: &[Group]) {
    let (number, name) = match form {
        Form::One => (1, "all"),
        Form::Two => (2, "two"),
    };
    let all = Row(name, 0..halves.len());
    let rows: Vec<Row> = [all].into_iter().chain(timing::each(halves)).collect();
    println!("sheets of form {number}:");
    print!("{}", timing::report(&RUN, halves, &rows));
    println!("long runs of form {number}, by the kind of their turns:");
    time(&RUN, kinds);
}

/// Times both sides on each group by itself.
fn time<const N: usize>(sides: &Sides<N>, groups: &[Group]) {
    print!("{}", timing::report(sides, groups, &timing::each(groups)));
}

fn compare_all<const N: usize>(sides: &Sides<N>, groups: &[Group]) -> Result<(), String> {
    groups.iter().try_for_each(|group| compare(sides, group))
}

/// Both sides on each text: the numbers, and every byte of the output memory.
fn compare<const N: usize>(sides: &Sides<N>, group: &Group) -> Result<(), String> {
    for text in &group.texts {
        let (mut one, mut other) = (vec![b'~'; LENT], vec![b'~'; LENT]);
        let found = (sides.archive)(text, &mut one);
        let wanted = (sides.plain)(text, &mut other);
        if found != wanted || one != other {
            let text = text.escape_ascii();
            return Err(format!("archive {found:?}, plain {wanted:?}: \"{text}\""));
        }
    }
    Ok(())
}

/// Runs one side over each text, COUNT times, and prints what one such pass comes to.
fn run_one(side: &str, count: &str, name: &str) -> Result<(), String> {
    let count: u32 = count.parse().map_err(|_| usage())?;
    let (form, name) = form_and_name(name);
    let groups = groups_of(form, name)?;
    match (name, side) {
        ("log", "archive") => passes(CSV.archive, count, &groups),
        ("log", _) => passes(CSV.plain, count, &groups),
        ("blocks", "archive") => passes(BLOCKS.archive, count, &groups),
        ("blocks", _) => passes(BLOCKS.plain, count, &groups),
        ("saved", "archive") => passes(SAVE.archive, count, &groups),
        ("saved", _) => passes(SAVE.plain, count, &groups),
        ("opened", "archive") => passes(OPEN.archive, count, &groups),
        ("opened", _) => passes(OPEN.plain, count, &groups),
        ("turned", "archive") => passes(turn(form).archive, count, &groups),
        ("turned", _) => passes(turn(form).plain, count, &groups),
        (_, "archive") => passes(RUN.archive, count, &groups),
        _ => passes(RUN.plain, count, &groups),
    }
    let texts: usize = groups.iter().map(|group| group.texts.len()).sum();
    let positions: u64 = groups.iter().map(|group| group.positions).sum();
    let bytes: usize = groups.iter().map(|group| group.bytes).sum();
    println!("{texts} texts {positions} positions {bytes} bytes");
    Ok(())
}

/// What a name means: `two` are all sheets of form 2, and names of that form begin so.
fn form_and_name(name: &str) -> (Form, &str) {
    match name.strip_prefix("two ") {
        Some(rest) => (Form::Two, rest),
        None if name == "two" => (Form::Two, "all"),
        None => (Form::One, name),
    }
}

fn groups_of(form: Form, name: &str) -> Result<Vec<Group>, String> {
    let groups = match (form, name) {
        (_, "all") => sheets::halves(form),
        (_, "long") => vec![sheets::long(form)],
        (_, "short") => vec![sheets::short(form)],
        (_, "largest") => vec![sheets::largest(form)],
        (_, "saved") => vec![records::saved(form)],
        (_, "opened") => vec![records::opened(form)],
        (_, "turned") => vec![forms::turned(form)],
        (Form::One, "log") => vec![logs::full()],
        (Form::One, "blocks") => vec![blocks::full()],
        (_, kind) => of_kind(form, kind)?,
    };
    Ok(groups)
}

/// The long runs whose turns are of one kind.
fn of_kind(form: Form, name: &str) -> Result<Vec<Group>, String> {
    let name = Group::of_form(form, name).name;
    let mut kinds = sheets::kinds(form);
    kinds.retain(|kind| kind.name == name);
    if kinds.is_empty() {
        return Err(usage());
    }
    Ok(kinds)
}

fn passes<const N: usize>(side: Side<N>, count: u32, groups: &[Group]) {
    let mut output = vec![0; LENT];
    for _ in 0..count {
        for group in groups {
            pass(side, group, &mut output);
        }
    }
}

/// One side, once over each text. The output memory is the caller's, so that clearing it is no part
/// of what is counted.
fn pass<const N: usize>(side: Side<N>, group: &Group, output: &mut [u8]) {
    for text in &group.texts {
        black_box(side(black_box(text), black_box(&mut *output)));
    }
}

/// Writes each text to a file of its own: sheets `.txt`, exports `.csv`, programs `.blocks`, the sheets
/// of records `.record`, those that are turned `.turned`.
fn write_texts(folder: &str) -> Result<(), String> {
    let mut groups = vec![(logs::full(), "csv"), (blocks::full(), "blocks")];
    for form in Form::ALL {
        groups.extend(sheets::halves(form).into_iter().map(|half| (half, "txt")));
        groups.push((sheets::largest(form), "txt"));
        groups.push((records::opened(form), "record"));
        groups.push((forms::turned(form), "turned"));
    }
    for (group, suffix) in groups {
        let name = group.name.replace(' ', "_");
        for (place, text) in group.texts.iter().enumerate() {
            let file = Path::new(folder).join(format!("{name}_{place:03}.{suffix}"));
            let failed = |error| format!("{}: {error}", file.display());
            std::fs::write(&file, text).map_err(failed)?;
        }
    }
    Ok(())
}
