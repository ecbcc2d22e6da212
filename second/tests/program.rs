//! The command line, by running the program.

use second::{cases, run_cases, stream};
use std::io::Write;
use std::process::{Command, Output, Stdio};

fn second(words: &[&str], input: &[u8]) -> Output {
    let mut child = Command::new(env!("CARGO_BIN_EXE_second"))
        .args(words)
        .stdin(Stdio::piped())
        .stdout(Stdio::piped())
        .stderr(Stdio::piped())
        .spawn()
        .expect("the program starts");
    let mut stdin = child.stdin.take().expect("a pipe");
    let input = input.to_vec();
    // From a thread of its own, lest both pipes fill up; the program may end
    // without reading all of it.
    let writer = std::thread::spawn(move || drop(stdin.write_all(&input)));
    let output = child.wait_with_output().expect("the program ends");
    writer.join().expect("the writer ends");
    output
}

fn answered(words: &[&str], input: &[u8]) -> Vec<u8> {
    let output = second(words, input);
    assert!(output.status.success(), "{words:?}");
    output.stdout
}

#[test]
fn report_and_run() {
    assert_eq!(answered(&["report"], cases::TABLE_A_TEXT), cases::TABLE_A_REPORT);
    assert_eq!(answered(&["report"], b""), b"refused\t1\t0\t0\n");
    assert_eq!(answered(&["report"], &[b'a'; 200_000]), b"refused\t2\t0\t0\n");
    for command in ["run", "run-fast"] {
        assert_eq!(answered(&[command, "39"], cases::TABLE_A_TEXT), b"pulse\t2\nradio\t7\nsave\t39\n");
        assert_eq!(answered(&[command, "0"], cases::TABLE_A_TEXT), b"pulse\t-\nradio\t-\nsave\t-\n");
        assert_eq!(answered(&[command, "1000001"], cases::TABLE_A_TEXT), b"refused\t23\n");
        assert_eq!(answered(&[command, "1000001"], b"\n"), b"refused\t6\t1\t0\n");
    }
}

#[test]
fn the_text_stream_and_its_answers() {
    let bytes = answered(&["text-stream"], b"");
    let items = stream::items(&bytes).expect("a whole stream");
    let by_hand = cases::text_cases();
    assert_eq!(items.len(), by_hand.len() + 600);
    let mut expected = Vec::new();
    for (case, item) in by_hand.iter().zip(&items) {
        assert_eq!(&case.text, item);
        match case.expected {
            (0, 0, 0) => expected.extend_from_slice(&case.text),
            (number, line, field) => {
                expected.extend_from_slice(format!("refused\t{number}\t{line}\t{field}\n").as_bytes())
            }
        }
    }
    let answers = answered(&["text-answers"], &bytes);
    assert!(answers.starts_with(&expected));
    assert!(answers.len() > expected.len());
}

#[test]
fn streams_of_reports_and_runs() {
    let bytes = stream::from_items(&[cases::TABLE_A_TEXT, b"\n"]);
    let expected = [cases::TABLE_A_REPORT, b"refused\t6\t1\t0\n"].concat();
    assert_eq!(answered(&["report-answers"], &bytes), expected);

    let items = [stream::run_item(4, b"a\t9\t9\t2\n"), stream::run_item(1_000_001, b"a\t9\t9\t2\n")];
    let bytes = stream::from_items(&items);
    assert_eq!(answered(&["run-answers"], &bytes), b"a\t2\nrefused\t23\n");

    let drawn = answered(&["draw", "7", "50"], b"");
    assert_eq!(stream::items(&drawn).map(|items| items.len()), Ok(50));
    assert_eq!(drawn, answered(&["draw", "7", "50"], b""));
    assert_ne!(drawn, answered(&["draw", "7", "50", "very-heavy"], b""));
    let runs = answered(&["run-stream", "7", "50"], b"");
    assert_eq!(stream::items(&runs).map(|items| items.len()), Ok(50));
    let worked = answered(&["worked-cases"], b"");
    assert_eq!(stream::items(&worked).map(|items| items.len()), Ok(cases::worked_cases().len()));
}

#[test]
fn hand_chosen_runs_as_a_stream() {
    let bytes = answered(&["run-tables"], b"");
    let expected: String = run_cases::run_cases().into_iter().map(|case| case.expected).collect();
    assert_eq!(answered(&["run-answers"], &bytes), expected.as_bytes());
}

#[test]
fn coverage_of_a_stream() {
    let drawn = answered(&["draw", "7", "2000"], b"");
    let lines = String::from_utf8(answered(&["coverage"], &drawn)).expect("words and digits");
    for line in lines.lines() {
        let (_, count) = line.split_once('\t').expect("a kind and its count");
        assert!(count.parse::<u64>().is_ok_and(|count| count > 0), "{line}");
    }
    let runs = answered(&["run-stream", "7", "600"], b"");
    let lines = String::from_utf8(answered(&["run-coverage"], &runs)).expect("words and digits");
    assert!(lines.contains("\nrefusal 23\t"), "{lines}");
    // A single table meets next to nothing, and that is said.
    let output = second(&["coverage"], &stream::from_items(&[cases::TABLE_A_TEXT]));
    assert_eq!(output.status.code(), Some(1));
    assert!(output.stdout.is_empty());
    let said = String::from_utf8(output.stderr).expect("words");
    assert!(said.starts_with("second: never met: refusal  1, refusal  2,"), "{said}");
    assert!(!said.contains("row fits by split"), "{said}");
}

#[test]
fn wrong_commands_and_broken_streams() {
    let wrong: [&[&str]; 6] =
        [&[], &["reports"], &["run"], &["run", "x"], &["run", "-1"], &["draw", "1"]];
    for words in wrong {
        let output = second(words, b"");
        assert_eq!(output.status.code(), Some(2), "{words:?}");
        assert!(output.stdout.is_empty() && !output.stderr.is_empty(), "{words:?}");
    }
    for command in ["report-answers", "text-answers", "run-answers", "coverage", "run-coverage"] {
        assert_eq!(second(&[command], &[0, 5, b'a']).status.code(), Some(1), "{command}");
    }
    assert!(answered(&["help"], b"").starts_with(b"usage: second"));
}

#[test]
fn timing_gives_one_number() {
    let out = answered(&["time-run", "1000", "3"], cases::TABLE_A_TEXT);
    let text = String::from_utf8(out).expect("digits");
    assert!(text.trim_end().parse::<u64>().is_ok_and(|nanoseconds| nanoseconds > 0), "{text}");
    assert_eq!(second(&["time-run", "1000", "3"], b"\n").status.code(), Some(1));
}
