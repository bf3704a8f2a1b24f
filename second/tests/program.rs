//! The line format and the program that speaks it.

use second::{answer_line, case_line, parse_line, random_case, rows, Call, Random, BAD_LINE};
use std::io::Write;
use std::process::{Command, Output, Stdio};

const BENCH: &str = "00000003000000020000000400000001000000020000002\
                     00000002c00000044000000010000000200000003000000\
                     000000000000000000000000000000000000000000\
                     0a0b0c0d0000000001020304000000000b090f0900000000";

/// Runs the program with these arguments and this input.
fn run(arguments: &[&str], input: &[u8]) -> Output {
    let mut program = Command::new(env!("CARGO_BIN_EXE_second"))
        .args(arguments)
        .stdin(Stdio::piped())
        .stdout(Stdio::piped())
        .stderr(Stdio::piped())
        .spawn()
        .expect("the program starts");
    let mut stdin = program.stdin.take().expect("an input");
    stdin.write_all(input).expect("the input is read");
    drop(stdin);
    program.wait_with_output().expect("the program ends")
}

fn printed(arguments: &[&str], input: &[u8]) -> String {
    let output = run(arguments, input);
    assert!(output.status.success(), "{arguments:?}");
    String::from_utf8(output.stdout).expect("text")
}

#[test]
fn a_step_is_answered_with_all_it_changed() {
    let sense = "aa".repeat(40);
    let zeros = format!("{}aaaaaa", "00".repeat(37));
    let read = format!("step {BENCH} 00000001 28000000000000000100 - eeeeeeeeee {sense}");
    assert_eq!(answer_line(&read), format!("0 4 = 0a0b0c0dee {zeros}"));
    let write = format!("step {BENCH} 00000002 2a000000000100000100 cafef00d - {sense}");
    let after = BENCH.replace("0102030400000000", "01020304cafef00d");
    assert_eq!(answer_line(&write), format!("0 0 {after} = {zeros}"));
    let short = "step - 00000001 - - - aa";
    assert_eq!(answer_line(short), "261 - = = =");
}

#[test]
fn the_other_calls_have_their_answers() {
    assert_eq!(answer_line(&format!("reset {BENCH} 00000001")), "0 =");
    assert_eq!(answer_line("reset - 00000001"), "257 =");
    let failed = BENCH.replace("00000003000000000000", "01000003000000000000");
    assert_ne!(failed, BENCH);
    let mark = format!("mark {BENCH} 00000003 00000001");
    assert_eq!(answer_line(&mark), format!("0 {failed}"));
    let mark = format!("mark {BENCH} 00000003 00000100");
    assert_eq!(answer_line(&mark), "262 =");
    assert_eq!(answer_line("rows -"), "6e6f742061207368656c660a");
}

#[test]
fn a_malformed_line_is_a_bad_line() {
    let bad = [
        "",
        " ",
        "step",
        "spin - 00000001",
        "reset -",
        "reset - 00000001 -",
        "reset - 1",
        "reset - 000000001",
        "reset - 0000000g",
        "reset - -",
        "reset 0 00000001",
        "reset 0x 00000001",
        "reset = 00000001",
        "mark - 00000001",
        "mark - 00000001 -",
        "step - 00000001 - - -",
        "step - 00000001 - - - - -",
        "step - 00000001 é - - -",
        "rows",
        "rows - -",
        "RESET - 00000001",
        "reset  00000001",
        "reset -  00000001",
        " reset - 00000001",
        "reset - 00000001 ",
        "reset\t-\t00000001",
        "reset - 00000001\r",
        "reset - 0000000A",
        "reset AB 00000001",
    ];
    for line in bad {
        assert_eq!(answer_line(line), BAD_LINE, "{line}");
    }
}

#[test]
fn random_cases_go_through_text_unchanged() {
    let mut random = Random::new(11);
    for _ in 0..3_000 {
        let case = random_case(&mut random);
        let line = case_line(&case);
        assert_eq!(parse_line(&line).as_ref(), Some(&case), "{line}");
        assert_ne!(answer_line(&line), BAD_LINE);
        if case.call == Call::Rows {
            let text: String = rows(&case.image)
                .bytes()
                .map(|byte| format!("{byte:02x}"))
                .collect();
            assert_eq!(answer_line(&line), text);
        }
    }
}

#[test]
fn cut_lines_are_answered_too() {
    let mut random = Random::new(12);
    let mut bad = 0;
    for _ in 0..3_000 {
        let mut line = case_line(&random_case(&mut random));
        line.truncate(random.below(line.len() as u64) as usize);
        bad += u32::from(answer_line(&line) == BAD_LINE);
    }
    assert!(bad > 1_500 && bad < 3_000, "{bad}");
}

#[test]
fn the_program_answers_line_by_line() {
    let input = b"reset - 00000001\nnonsense\n\xFF\xFE\nrows -";
    let answers = "257 =\nbad line\nbad line\n6e6f742061207368656c660a\n";
    assert_eq!(printed(&[], input), answers);
    assert_eq!(printed(&["answer"], input), answers);
    assert_eq!(printed(&[], b""), "");
}

#[test]
fn the_program_writes_the_cases_of_a_seed() {
    let written = printed(&["cases", "42", "30"], b"");
    let mut random = Random::new(42);
    let lines: Vec<String> = (0..30)
        .map(|_| case_line(&random_case(&mut random)))
        .collect();
    assert_eq!(written, lines.join("\n") + "\n");
    let answers = printed(&["answer"], written.as_bytes());
    let due: Vec<String> = lines.iter().map(|line| answer_line(line)).collect();
    assert_eq!(answers, due.join("\n") + "\n");
}

#[test]
fn the_program_picks_the_first_calls_of_each_way() {
    let reset = format!("reset {BENCH} 00000001");
    let other = format!("reset {BENCH} 00000002");
    let lines = [
        "reset - 00000001",
        "nonsense",
        &reset,
        "reset - 00000002",
        "rows -",
        "reset 00 00000001",
        "reset - 00000003",
        &other,
    ];
    let input = lines.join("\n");
    let short = "reset - 00000001\nreset - 00000002\n";
    assert_eq!(printed(&["pick", "2", "16"], input.as_bytes()), short);
    let longer = printed(&["pick", "1", "300"], input.as_bytes());
    assert_eq!(longer, format!("reset - 00000001\n{reset}\n"));
    assert_eq!(printed(&["pick", "0", "300"], input.as_bytes()), "");
}

#[test]
fn wrong_arguments_are_told_the_usage() {
    for arguments in [
        &["help"][..],
        &["cases"],
        &["cases", "1"],
        &["cases", "x", "1"],
        &["cases", "1", "-1"],
        &["pick", "1"],
        &["pick", "1", "x"],
        &["answer", "1"],
    ] {
        let output = run(arguments, b"");
        assert_eq!(output.status.code(), Some(2), "{arguments:?}");
        assert!(output.stdout.is_empty(), "{arguments:?}");
        assert!(output.stderr.starts_with(b"usage: second"), "{arguments:?}");
    }
}
