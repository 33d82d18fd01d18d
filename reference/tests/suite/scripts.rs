//! The script format and the script of vectors.

use reference::script::{play, Script};
use reference::{paper, vectors, Calls, Fast, HandStep, LegTable, Plain, Telling, WorkState};

pub fn answers(calls: &impl Calls, script: &[u8]) -> Vec<u8> {
    let mut out = Vec::new();
    play(calls, script, &mut out).expect("writing to memory");
    out
}

fn text(script: &[u8]) -> String {
    String::from_utf8(answers(&Plain, script)).expect("text")
}

#[test]
fn answers_to_each_command() {
    let mut one_way = [0; 64];
    one_way[0] = 2;
    let mut script = Script::default();
    script.sweep();
    script.open(64, &[3, 0, 0, 0]);
    script.pass(2);
    script.chain();
    script.cut(&[0; 64]);
    script.cut(&one_way);
    script.run(7);
    script.list(&[2, 3, 1]);
    script.list(&[2, 3]);
    script.report(24);
    script.report(3);
    script.write(6);
    script.write(3);
    script.first_round(3, 3);
    script.first_round(4, 3);
    script.first_round(4, 2);
    let expected = "\
sweep 7 removed 0
state n 0 limit 0 place 0 mark 0 end open legs 0
open 0 at 0
state n 3 limit 64 place 0 mark 0 end open legs 6 1=0000000000000006 2=0000000000000005 3=0000000000000003
pass 0 removed 0
state n 3 limit 64 place 0 mark 0 end open legs 6 1=0000000000000006 2=0000000000000005 3=0000000000000003
chain 0 removed 0
state n 3 limit 64 place 0 mark 0 end open legs 6 1=0000000000000006 2=0000000000000005 3=0000000000000003
cut 0 removed 0
state n 3 limit 64 place 0 mark 0 end open legs 6 1=0000000000000006 2=0000000000000005 3=0000000000000003
must 1=0000000000000006 2=0000000000000005 3=0000000000000003
cut 12 removed 0
state n 3 limit 64 place 0 mark 0 end open legs 6 1=0000000000000006 2=0000000000000005 3=0000000000000003
must 1=0000000000000002
run 0 steps 5 removed 0
state n 3 limit 64 place 0 mark 0 end stable legs 6 1=0000000000000006 2=0000000000000005 3=0000000000000003
list 0 yes
list 9 no
report 0 length 21
1: 2 3
2: 1 3
3: 1 2
...
report 10 length 0
...
write 0 length 4
030000002e2e
write 10 length 0
2e2e2e
first 0 outcome 3 nodes 3
2e2e2e
first 0 outcome 1 nodes 4
020301
first 9 outcome 0 nodes 0
2e2e
";
    assert_eq!(text(script.bytes()), expected);
}

/// The state stays from preview to preview, and the step then does what was shown.
#[test]
fn answers_to_previews() {
    let mut script = Script::default();
    script.preview(HandStep::Pass(0));
    script.open(64, &paper::NINE_LEGS);
    script.preview(HandStep::Sweep);
    script.preview(HandStep::Chain);
    script.preview(HandStep::Pass(7));
    script.sweep();
    let rows = "3=0000000000000020 4=0000000000000002 5=0000000000000004 6=0000000000000001";
    let opened = format!("state n 6 limit 64 place 0 mark 0 end open legs 9 1=000000000000000e 2=0000000000000011 {rows}");
    let swept = format!("state n 6 limit 64 place 0 mark 0 end open legs 6 1=0000000000000008 2=0000000000000010 {rows}");
    let expected = format!(
        "\
preview 7 end open legs 0
state n 0 limit 0 place 0 mark 0 end open legs 0
open 0 at 0
{opened}
preview 0 end open legs 3 1=0000000000000006 2=0000000000000001
{opened}
preview 0 end open legs 0
{opened}
preview 8 end open legs 0
{opened}
sweep 0 removed 3
{swept}
"
    );
    assert_eq!(text(script.bytes()), expected);
}

/// Only sweeps, chain steps and passes have previews; a cut pass stops, too.
#[test]
fn previews_of_other_commands_stop() {
    let mut whole = Script::default();
    whole.preview(HandStep::Pass(9));
    assert_eq!(whole.bytes(), b"VP\x09\0\0\0\0\0\0\0");
    for length in 1..whole.bytes().len() {
        assert_eq!(text(&whole.bytes()[..length]), "stop\n");
    }
    for other in (0..=u8::MAX).filter(|byte| !b"SCP".contains(byte)) {
        let script = [&[b'V', other][..], &[0; 40]].concat();
        assert_eq!(text(&script), "stop\n");
    }
    assert!(text(b"VSVC").starts_with("preview 7 end open legs 0\n"));
}

#[test]
fn a_work_state_comes_back_as_it_was() {
    let mut state = Plain.open(&[2, 0, 0], 64).state;
    state.n = u64::MAX;
    state.place = 9;
    state.mark = true;
    state.rows[63] = u64::MAX;
    let mut script = Script::default();
    script.work(&state);
    assert_eq!(script.bytes().len(), 28 + 8 * 64);
    let expected = "\
work
state n 18446744073709551615 limit 64 place 9 mark 1 end open legs 66 \
1=0000000000000002 2=0000000000000001 64=ffffffffffffffff
";
    assert_eq!(text(script.bytes()), expected);
}

/// A command whose row count is its last byte, with so many rows after another count.
fn of_rows(command: &[u8], count: u8, rows: usize) -> Vec<u8> {
    let mut bytes = command.to_vec();
    *bytes.last_mut().expect("the row count") = count;
    bytes.extend([2, 0, 0, 0, 0, 0, 0, 0].repeat(rows));
    bytes
}

/// The commands with a row count, and the starts of their answers.
fn commands_of_rows() -> [(Vec<u8>, &'static str); 2] {
    let [mut work, mut cut] = [Script::default(), Script::default()];
    work.work(&WorkState::BLANK);
    cut.cut(&[0; 64]);
    [
        (work.bytes().to_vec(), "work\n"),
        (cut.bytes().to_vec(), "cut 7 removed 0\n"),
    ]
}

/// Rows are written up to the last that is not empty; the rest are empty again, also
/// after a state of 64 rows.
#[test]
fn a_work_state_of_few_rows_comes_back_as_it_was() {
    let mut script = Script::default();
    script.work(&WorkState::opened(&LegTable::full(64), 64));
    let mut expected = text(script.bytes());
    let mut length = script.bytes().len();
    for (last, rows) in [(1, "1=0000000000000001"), (3, "3=0000000000000004")] {
        let mut state = WorkState::BLANK;
        state.rows[last - 1] = 1 << (last - 1);
        script.work(&state);
        length += 28 + 8 * last;
        expected += "work\nstate n 0 limit 0 place 0 mark 0 end open legs 1 ";
        expected += &format!("{rows}\n");
    }
    assert_eq!(script.bytes().len(), length);
    assert_eq!(text(script.bytes()), expected);
}

#[test]
fn row_counts_above_64_stop() {
    for (command, answer) in commands_of_rows() {
        for count in [0, 1, 63, 64] {
            let text = text(&of_rows(&command, count, usize::from(count)));
            assert!(text.starts_with(answer), "{text}");
            assert_eq!(
                text.matches("=0000000000000002").count(),
                usize::from(count)
            );
        }
        for count in [65, 128, 255] {
            assert_eq!(text(&of_rows(&command, count, 255)), "stop\n");
        }
    }
}

#[test]
fn cut_row_lists_stop() {
    for (command, _) in commands_of_rows() {
        for count in [1, 5, 64] {
            let whole = of_rows(&command, count, usize::from(count));
            for length in 1..whole.len() {
                assert_eq!(text(&whole[..length]), "stop\n");
            }
        }
    }
}

/// A must-drive table comes back as it was where the step is refused, also after one of
/// 64 rows.
#[test]
fn a_must_drive_table_comes_back_as_it_was() {
    let mut last = [0; 64];
    last[2] = 1 << 63;
    let mut script = Script::default();
    script.cut(&[u64::MAX; 64]);
    assert_eq!(script.bytes().len(), 2 + 8 * 64);
    script.cut(&last);
    assert_eq!(script.bytes().len(), 2 * 2 + 8 * (64 + 3));
    let text = text(script.bytes());
    assert!(text.contains(" 64=ffffffffffffffff\n"));
    assert!(text.ends_with("\nmust 3=8000000000000000\n"));
}

/// The same state once more takes one byte, also after a call, and is answered like the
/// first time.
#[test]
fn a_state_is_made_again_by_one_byte() {
    let making: [fn(&mut Script); 2] = [
        |script| script.open(64, &[3, 0, 0, 0]),
        |script| script.work(&WorkState::opened(&LegTable::full(3), 64)),
    ];
    for make in making {
        let mut script = Script::default();
        make(&mut script);
        let first = text(script.bytes());
        script.run(9);
        let length = script.bytes().len();
        make(&mut script);
        assert_eq!(script.bytes()[length..], *b"A");
        assert!(text(script.bytes()).ends_with(&first));
    }
}

#[test]
fn again_stops_where_no_state_was_made() {
    assert_eq!(text(b"A"), "stop\n");
    assert!(text(b"SA").ends_with("\nstop\n"));
}

#[test]
fn unknown_and_cut_commands_stop() {
    assert_eq!(text(b""), "");
    assert_eq!(text(b"XSS"), "stop\n");
    let calls: [fn(&mut Script); 2] = [
        |script| script.open(64, &[2, 0, 0]),
        |script| script.first_round(9, 2),
    ];
    for call in calls {
        let mut script = Script::default();
        call(&mut script);
        for length in 1..script.bytes().len() {
            assert_eq!(text(&script.bytes()[..length]), "stop\n");
        }
    }
}

#[test]
fn buffers_that_are_too_long_stop() {
    for (opcode, call, longest) in [(b'T', "report", 16_384_u16), (b'B', "write", 640)] {
        let into = |length: u16| [&[opcode][..], &length.to_le_bytes()].concat();
        let answer = text(&into(longest));
        assert!(answer.starts_with(&format!("{call} 7 length 0\n")));
        assert_eq!(text(&into(longest + 1)), "stop\n");
    }
}

/// The script, and the section of previews that is stored beside it.
fn stored() -> [Script; 2] {
    [vectors::script(), vectors::previews()]
}

#[test]
fn vectors_are_answered_alike() {
    for script in stored() {
        let plain = answers(&Plain, script.bytes());
        assert!(plain == answers(&Fast, script.bytes()));
        assert!(plain == answers(&Telling, script.bytes()));
        assert!(!plain.ends_with(b"stop\n"));
    }
}

/// Each call gives each of its numbers somewhere in the vectors.
#[test]
fn vectors_draw_every_number() {
    let script = vectors::script();
    let text = String::from_utf8(answers(&Fast, script.bytes())).expect("text");
    let numbers: [(&str, &[u8]); 10] = [
        ("open", &[0, 1, 2, 3, 4, 5, 6]),
        ("sweep", &[0, 7]),
        ("chain", &[0, 7]),
        ("pass", &[0, 7, 8]),
        ("cut", &[0, 7, 11, 12]),
        ("run", &[0, 7]),
        ("list", &[0, 7, 9]),
        ("report", &[0, 7, 10]),
        ("write", &[0, 7, 10]),
        ("first", &[0, 7, 9]),
    ];
    for (call, numbers) in numbers {
        for number in numbers {
            let start = format!("{call} {number} ");
            assert!(text.lines().any(|line| line.starts_with(&start)));
        }
    }
}

#[test]
fn vectors_of_previews_draw_every_number() {
    let script = vectors::previews();
    let text = String::from_utf8(answers(&Fast, script.bytes())).expect("text");
    for number in [0, 7, 8] {
        let start = format!("preview {number} ");
        assert!(text.lines().any(|line| line.starts_with(&start)));
    }
}
