//! The program as it is called from a shell.

mod kernel;

use std::io::Write;
use std::process::{Command, Output, Stdio};
use std::thread;

/// The most bytes of cases and answers together.
const MOST_BYTES: usize = 7_800_000;
const LONGEST_LINE: usize = 8000;

const SUBJECTS: [&str; 11] = [
    "setlink",
    "status",
    "settings",
    "packet",
    "codes",
    "account",
    "state",
    "transactions",
    "lists",
    "journals",
    "printouts",
];

fn run(arguments: &[&str], input: &[u8]) -> Output {
    let mut child = Command::new(env!("CARGO_BIN_EXE_reference"))
        .args(arguments)
        .stdin(Stdio::piped())
        .stdout(Stdio::piped())
        .stderr(Stdio::piped())
        .spawn()
        .expect("the program starts");
    let mut standard_input = child.stdin.take().expect("standard input is piped");
    let input = input.to_vec();
    // A program that stops at a bad line need not read the rest, so that a
    // broken pipe is no failure here.
    let writer = thread::spawn(move || {
        let _ = standard_input.write_all(&input);
    });
    let output = child.wait_with_output().expect("the program ends");
    writer.join().expect("the writer ends");
    output
}

fn answers(cases: &str) -> String {
    let output = run(&["answer"], cases.as_bytes());
    assert!(output.status.success(), "{}", String::from_utf8_lossy(&output.stderr));
    String::from_utf8(output.stdout).expect("answers are ASCII")
}

fn generated() -> String {
    cases_of(&["generate"])
}

/// The cases of a subject and their answers.
fn answered(subject: &str) -> (String, String) {
    let cases = cases_of(&["generate", subject]);
    let answers = answers(&cases);
    (cases, answers)
}

fn cases_of(arguments: &[&str]) -> String {
    let output = run(arguments, b"");
    assert!(output.status.success());
    String::from_utf8(output.stdout).expect("cases are ASCII")
}

#[test]
fn answers_of_every_operation() {
    let examples = [
        ("link 00000000 00000219 00 00", "0000 0000 00000219"),
        ("link 00000204 0000010d 00 01", "0001 0902 00000204"),
        ("link 00000204 00000219 01 00", "0001 0901 00000204"),
        ("write-status 0040 0000 01 07 00 00", "00 00 4000010000007001"),
        ("write-status 0601 0000 01 07 00 00", "0f 02 0000000000000000"),
        ("write-status 0040 0000 01 08 00 00", "0f 05 0000000000000000"),
        ("write-status 0040 0000 01 07 00 01", "0f 06 0000000000000000"),
        ("read-status 0006010023010d00", "00 00 0600 0123 00 00 01 05"),
        ("read-status -", "0f 01 0000 0000 00 00 00 00"),
        ("read-status 0106010023010d00", "0f 02 0000 0000 00 00 00 00"),
        ("read-status 0006000023010d00", "0f 03 0000 0000 00 00 00 00"),
        ("read-status 0006010023010d02", "0f 04 0000 0000 00 00 00 00"),
        ("read-status 0006010023018d00", "0f 05 0000 0000 00 00 00 00"),
        ("read-status 0006010023010500", "0f 06 0000 0000 00 00 00 00"),
        ("fresh-settings -", "0c -"),
        ("fresh-settings eeeeeeeeeeeeeeeeeeeeeeeeeeeeeeee", "00 400000000000000000000000000000ee"),
        ("sound-settings 400000000000000000000000000000", "01"),
        ("sound-settings 4000000000000000000000000000", "00"),
        (
            "enable 400000000000000000000000000000 c902030405060708090a0b0c0d0e",
            "0b c90302030405060708090a0b0c0d0e",
        ),
        ("enable 400000000000000000000000000000 -", "08 400000000000000000000000000000"),
        ("mac c90302030405060708090a0b0c0d0e 00a0c9010203cb007109", "01 020304050607"),
        ("mac 400000000000000000000000000000 00a0c9010203cb007109", "02 00a0c9010203"),
        ("ipv4 c90302030405060708090a0b0c0d0e 00a0c9010203cb007109", "01 08090a0b"),
        ("ipv4 400000000000000000000000000000 00a0c9010203cb007109", "02 cb007109"),
        ("ipv4 400000000000000000000000000000 00a0c9010203cb0071", "00 -"),
        ("crc 00 313233343536373839", "f4 f4"),
        ("crc a5 -", "a5 a5"),
        ("code 92 ca 41", "00 a5"),
        ("code 00 00 -", "00 00"),
        ("code-pattern 92 c4 00ff 01", "00 4b"),
        ("code-pattern 92 c4 0100 01", "11 00"),
    ];
    for (case, answer) in examples {
        assert_eq!(answers(&format!("{case}\n")), format!("{answer}\n"), "{case}");
    }
}

/// The 35 numbers of an account as a field, those not given zero.
fn account(numbers: &[(usize, u64)]) -> String {
    let mut all = [0; 35];
    for (place, number) in numbers {
        all[*place] = *number;
    }
    all.iter().map(|number| format!("{number:016x}")).collect()
}

/// A state with the check off as a field: its account, the maximum, the check.
fn state(numbers: &[(usize, u64)], maximum: u64) -> String {
    format!("{}{maximum:016x}00", account(numbers))
}

/// The same with the check on.
fn checked(numbers: &[(usize, u64)], maximum: u64) -> String {
    format!("{}{maximum:016x}01", account(numbers))
}

/// The digest of bytes, as a field.
fn digest(bytes: &[u8]) -> String {
    let add = |digest: u64, byte: &u8| (digest * 257 + u64::from(*byte)) % 4_294_967_291;
    format!("{:08x}", bytes.iter().fold(1, add))
}

/// The digest of the bytes of a field.
fn digest_of_field(field: &str) -> String {
    digest(&bytes_of(field))
}

fn pattern(size: usize, seed: usize) -> Vec<u8> {
    (0..size).map(|place| ((seed + 7 * place) % 256) as u8).collect()
}

#[test]
fn answers_about_a_store() {
    let mut filled = pattern(60, 5);
    filled[17..].fill(0);
    let part = digest(&pattern(1535, 9));
    for (case, answer) in [
        ("fill 003c 05 0000000000000011", digest(&filled)),
        ("fill 003b 05 0000000000000011", digest(&pattern(59, 5))),
        ("fill 0000 05 0000000000000000", "00000001".to_string()),
        ("shown 0600 09 00000000000005ff", format!("05ff {part}")),
        ("shown 0600 09 0000000000000601", "0000 00000001".to_string()),
    ] {
        assert_eq!(answers(&format!("{case}\n")), format!("{answer}\n"), "{case}");
    }
}

#[test]
fn answers_about_an_account_and_a_state() {
    let for_32 = state(&[], 32);
    let for_240 = state(&[], 240);
    assert_eq!(answers("fresh-state 00000020 00\n"), format!("00 {for_32}\n"));
    assert_eq!(answers("fresh-state 00000000 00\n"), format!("10 {for_240}\n"));
    let (for_32_checked, for_240_checked) = (checked(&[], 32), checked(&[], 240));
    assert_eq!(answers("fresh-state 00000020 01\n"), format!("00 {for_32_checked}\n"));
    assert_eq!(answers("fresh-state 00000000 01\n"), format!("10 {for_240_checked}\n"));
    assert_eq!(answers(&format!("sound-state {for_32_checked}\n")), "01\n");
    let bad_check = format!("{}02", &for_32[..for_32.len() - 2]);
    assert_eq!(answers(&format!("sound-state {bad_check}\n")), "00\n");
    assert_eq!(answers(&format!("sound-state {for_32}\n")), "01\n");
    for unsound in [state(&[(34, 1)], 32), state(&[], 0), state(&[], 241)] {
        assert_eq!(answers(&format!("sound-state {unsound}\n")), "00\n");
    }
    assert_eq!(answers(&format!("sound-account {}\n", account(&[]))), "01\n");
    assert_eq!(answers(&format!("sound-account {}\n", account(&[(34, 1)]))), "00\n");
    // An open fragment of 33 bytes: sound by itself, and not under a maximum of 32.
    let open = [(30, 1), (31, 33), (34, 1)];
    assert_eq!(answers(&format!("sound-account {}\n", account(&open))), "01\n");
    assert_eq!(answers(&format!("sound-state {}\n", state(&open, 33))), "01\n");
    assert_eq!(answers(&format!("sound-state {}\n", state(&open, 32))), "00\n");
}

#[test]
fn answers_about_what_is_carried() {
    let fresh = "400000000000000000000000000000";
    let before = state(&[], 32);
    let open = state(&[(30, 1), (31, 3), (34, 1)], 32);
    let sent = state(&[(0, 1), (1, 2), (2, 18), (34, 2)], 32);
    let taken = state(&[(0, 1), (1, 2), (2, 18), (32, 1), (34, 3)], 32);
    let mut store = pattern(1600, 7);
    store[..3].copy_from_slice(&[1, 2, 3]);
    let after_open = digest(&store);
    store[3..18].copy_from_slice(&pattern(15, 0x30));
    store[18..60].fill(0);
    let after_sent = digest(&store);
    let settings = "410000000000000000000000000000";
    let cases = format!(
        "show\npacket 0000000000000001\nsend c4 01 00\n\
         start {before} 0640 07 {fresh}\nsend 84 00 010203\nsend-pattern 44 01 000f 30\n\
         packet 000000000000003c\nsend ca 00 41\nshow\n"
    );
    let zeros = state(&[], 0);
    let expected = [
        format!("{zeros} -"),
        "0000 00000001".to_string(),
        format!("0c 0000 {} 00000001 00000001", digest_of_field(&zeros)),
        "01".to_string(),
        format!("00 0000 {} {after_open} {}", digest_of_field(&open), digest_of_field(fresh)),
        format!("01 003c {} {after_sent} {}", digest_of_field(&sent), digest_of_field(fresh)),
        format!("003c {}", digest(&store[..60])),
        format!("0b 0000 {} {after_sent} {}", digest_of_field(&taken), digest_of_field(settings)),
        format!("{taken} {settings}"),
    ];
    let given = answers(&cases);
    assert_eq!(given.lines().collect::<Vec<_>>(), expected);
}

#[test]
fn answers_about_check_bytes() {
    let fresh = "400000000000000000000000000000";
    let before = checked(&[], 240);
    let open = checked(&[(30, 1), (31, 3), (34, 1)], 240);
    let broken = [(9, 1), (10, 1), (11, 3), (28, 1), (34, 2)];
    let broken = checked(&broken, 240);
    let aborted = checked(&[(9, 1), (10, 1), (11, 3), (22, 1), (23, 3), (28, 1), (34, 3)], 240);
    let mut store = pattern(1536, 7);
    store[..3].copy_from_slice(&[0x11, 0x22, 0x33]);
    let rest = format!("{} {}", digest(&store), digest_of_field(fresh));
    let enabled = checked(&[(9, 1), (10, 1), (11, 3), (22, 1), (23, 3), (28, 2), (34, 4)], 240);
    let cases = format!(
        "start {before} 0600 07 {fresh}\n\
         send-coded 92 84 01 112233 d6\nshow\n\
         send-coded-pattern 92 04 01 0003 00 00\nshow\n\
         send-coded 92 44 01 112233 89\nshow\n\
         send-coded 92 ca 01 41 a4\nshow\n"
    );
    let expected = [
        "01".to_string(),
        format!("00 0000 {} {rest}", digest_of_field(&open)),
        format!("{open} {fresh}"),
        format!("11 0000 {} {rest}", digest_of_field(&broken)),
        format!("{broken} {fresh}"),
        format!("02 0000 {} {rest}", digest_of_field(&aborted)),
        format!("{aborted} {fresh}"),
        format!("11 0000 {} {rest}", digest_of_field(&enabled)),
        format!("{enabled} {fresh}"),
    ];
    assert_eq!(answers(&cases).lines().collect::<Vec<_>>(), expected);
}

#[test]
fn answers_about_fragments_onto_an_open_packet() {
    let before = |bytes| state(&[(30, 7), (31, bytes), (34, 7)], 240);
    let open = |bytes| state(&[(30, 8), (31, bytes), (34, 8)], 240);
    let fresh = "400000000000000000000000000000";
    let store = pattern(1540, 0xf0);
    let mut at_700 = store.clone();
    at_700[700..703].copy_from_slice(&[1, 2, 3]);
    let mut at_1533 = store.clone();
    at_1533[1533..1536].copy_from_slice(&[1, 2, 3]);
    let mut at_0 = store.clone();
    at_0[..3].copy_from_slice(&[1, 2, 3]);
    let superseded = state(&[(3, 1), (4, 7), (5, 1534), (30, 1), (31, 3), (34, 8)], 240);
    let sent = state(&[(0, 1), (1, 8), (2, 1536), (34, 8)], 240);
    let over = state(&[(12, 1), (13, 8), (14, 1537), (34, 8)], 240);
    for (bytes, command, answer, after, store) in [
        (700, "04", "00 0000", open(703), &at_700),
        (1533, "04", "00 0000", open(1536), &at_1533),
        (1533, "44", "01 0600", sent, &at_1533),
        (1534, "04", "00 0000", open(1537), &store),
        (1534, "44", "04 0000", over, &store),
        (1534, "84", "00 0000", superseded, &at_0),
    ] {
        let start = format!("start {} 0604 f0 {fresh}", before(bytes));
        let [state, settings] = [&after[..], fresh].map(digest_of_field);
        assert_eq!(
            answers(&format!("{start}\nsend {command} 01 010203\nshow\n")),
            format!("01\n{answer} {state} {} {settings}\n{after} {fresh}\n", digest(store)),
            "{command} onto {bytes}"
        );
    }
}

#[test]
fn names_and_empty_lines_are_copied() {
    assert_eq!(answers("# a  name\n\n#\nsound-settings -\n"), "# a  name\n\n#\n00\n");
    assert_eq!(answers(""), "");
}

#[test]
fn links_is_the_digest_of_the_single_answers() {
    let mut single = String::new();
    for word in 0x200..0x240 {
        for rest in ["00 00", "00 01", "01 00", "01 01"] {
            single.push_str(&format!("link 12345678 {word:08x} {rest}\n"));
        }
    }
    let digits: Vec<u8> = answers(&single).bytes().filter(u8::is_ascii_hexdigit).collect();
    assert_eq!(digits.len(), 64 * 4 * 16);
    let mut digest: u64 = 1;
    for pair in digits.chunks(2) {
        let text = std::str::from_utf8(pair).expect("digits");
        let byte = u64::from_str_radix(text, 16).expect("digits");
        digest = (digest * 257 + byte) % 4_294_967_291;
    }
    assert_eq!(answers("links 12345678 00000200 0040\n"), format!("{digest:08x}\n"));
}

#[test]
fn lines_that_are_no_case() {
    let too_long = format!("read-status {}", "00".repeat(4000));
    let long_name = format!("#{}", "x".repeat(LONGEST_LINE));
    let zeros = account(&[]);
    let fresh = state(&[], 240);
    let short_account = format!("sound-account {}", &zeros[2..]);
    let state_for_account = format!("sound-account {fresh}");
    let account_for_state = format!("sound-state {zeros}");
    let long_state = format!("sound-state {fresh}00");
    let state_without_check = format!("sound-state {}", &fresh[2..]);
    let account_to_start = format!("start {zeros} 0800 00 -");
    let state_to_print = format!("print {fresh} 0800");
    let large_store = format!("start {fresh} 0801 00 -");
    let large_room = format!("print {zeros} 0801");
    let no_room = format!("print {zeros}");
    let long_settings = format!("start {fresh} 0800 00 {}", "00".repeat(65));
    let lines = [
        "unknown 00",
        " sound-settings -",
        "sound-settings",
        "sound-settings ",
        "sound-settings  -",
        "sound-settings - ",
        "sound-settings - -",
        "sound-settings 4",
        "sound-settings 4G",
        "sound-settings 4A",
        "sound-settings --",
        "sound-settings 40\r",
        "link 00000000 00000219 00",
        "link 00000000 00000219 02 00",
        "link 00000000 00000219 00 02",
        "link 00000000 0219 00 00",
        "link 00000000 - 00 00",
        "links 00000000 ffffffff 0002",
        "write-status 0040 0000 02 07 00 00",
        "write-status 0040 0000 01 07 00 0000",
        "mac -",
        "Mac - -",
        "fill 0040 0000000000000000",
        "fill 0040 00 00000000",
        "shown 0040 00",
        "shown 0040 00 0000000000000000 01",
        "crc 00",
        "crc - 00",
        "crc 0000 00",
        "code 92 -",
        "code 92 c4",
        "code 92 c4 - 00",
        "code-pattern 92 c4 00ff",
        "code-pattern 92 c4 0801 00",
        "sound-account -",
        &short_account,
        &state_for_account,
        &account_for_state,
        &long_state,
        "fresh-account 00000020",
        "fresh-state 20",
        "fresh-state 00000020",
        "fresh-state 00000020 02",
        "sound-state -",
        &state_without_check,
        &account_to_start,
        &state_to_print,
        &large_store,
        &long_settings,
        "send 84 02 01",
        "send-pattern 84 01 0801 00",
        "send-coded 92 84 01 01",
        "send-coded 84 01 01 00",
        "send-coded 92 84 02 01 00",
        "send-coded 92 84 01 01 0000",
        "send-coded-pattern 92 84 01 0001 00",
        "send-coded-pattern 92 84 01 0801 00 00",
        "show -",
        "packet 40",
        "journal 00 -",
        "journal 0000",
        "journal 0000 - -",
        "print - 0000",
        &large_room,
        &no_room,
        &too_long,
        &long_name,
    ];
    for line in lines {
        let output = run(&["answer"], format!("# first\n{line}\n# third\n").as_bytes());
        assert_eq!(output.status.code(), Some(1), "{line}");
        assert_eq!(output.stdout, b"# first\n", "{line}");
        let message = String::from_utf8_lossy(&output.stderr);
        assert!(message.starts_with("line 2: not a case: "), "{line}: {message}");
    }
}

#[test]
fn input_that_is_no_text_of_lines() {
    for input in [&b"sound-settings -"[..], b"# caf\xc3\xa9\n", b"\xff\n"] {
        let output = run(&["answer"], input);
        assert_eq!(output.status.code(), Some(1));
        assert!(output.stdout.is_empty());
        assert!(output.stderr.starts_with(b"line 1: not a case: "));
    }
}

#[test]
fn the_longest_lines_are_taken() {
    let name = format!("#{}\n", "x".repeat(LONGEST_LINE - 1));
    assert_eq!(answers(&name), name);
    let settings = "00".repeat((LONGEST_LINE - "sound-settings ".len()) / 2);
    assert_eq!(answers(&format!("sound-settings {settings}\n")), "00\n");
}

#[test]
fn anything_else_is_answered_with_usage() {
    let wrong: [&[&str]; 17] = [
        &[],
        &["help"],
        &["generate", "generate"],
        &["generate", "journals", "printouts"],
        &["answer", "file"],
        &["account", "file", "file"],
        &["bench-journal"],
        &["bench-journal", "commands"],
        &["bench-journal", "fragments-30", "100"],
        &["bench-journal", "fragments-30-checked", "100"],
        &["bench-journal", "-checked", "100"],
        &["bench-journal", "commands", "-1"],
        &["bench-journal", "commands", "100k"],
        &["bench-journal", "commands", "100", "100"],
        &["--help", "--help"],
        &["--version"],
        &[""],
    ];
    for arguments in wrong {
        let output = run(arguments, b"");
        assert_eq!(output.status.code(), Some(2), "{arguments:?}");
        assert!(output.stdout.is_empty());
        assert!(output.stderr.starts_with(b"usage: "));
    }
}

#[test]
fn help_is_printed() {
    let output = run(&["--help"], b"");
    assert!(output.status.success());
    assert!(output.stdout.starts_with(b"usage: "));
    assert!(output.stderr.is_empty());
    let help = String::from_utf8(output.stdout).expect("help is ASCII");
    assert!(help.lines().all(|line| line.len() <= 80));
    assert!(SUBJECTS.iter().all(|subject| help.contains(subject)));
}

#[test]
fn generated_cases_are_the_same_each_time_and_all_are_answered() {
    assert_eq!(generated(), generated());
    let all_subjects = || SUBJECTS.map(|subject| cases_of(&["generate", subject])).concat();
    let cases = all_subjects();
    assert_eq!(cases, all_subjects());
    let answers = answers(&cases);
    assert!(cases.len() + answers.len() < MOST_BYTES);
    assert_eq!(cases.lines().count(), answers.lines().count());
    for (case, answer) in cases.lines().zip(answers.lines()) {
        assert!(case.len() <= LONGEST_LINE);
        if case.is_empty() || case.starts_with('#') {
            assert_eq!(case, answer);
        }
    }
}

#[test]
fn generated_cases_reach_every_answer() {
    let cases = generated();
    let answers = answers(&cases);
    let reached = |operation: &str, answer: &str| {
        cases.lines().zip(answers.lines()).any(|(case, given)| {
            case.split(' ').next() == Some(operation) && given.starts_with(answer)
        })
    };
    let expected: [(&str, &[&str]); 17] = [
        ("link", &["0000 0000 ", "0001 0002 ", "0001 0901 ", "0001 0902 ", "0001 0903 "]),
        ("link", &["0001 0905 "]),
        ("write-status", &["00 00 ", "0f 02 ", "0f 05 ", "0f 06 "]),
        ("read-status", &["00 00 ", "0f 01 ", "0f 02 ", "0f 03 ", "0f 04 ", "0f 05 ", "0f 06 "]),
        ("fresh-settings", &["00 ", "0c "]),
        ("enable", &["08 ", "09 ", "0a ", "0b ", "0c ", "0d "]),
        ("mac", &["00 -", "01 ", "02 "]),
        ("ipv4", &["00 -", "01 ", "02 "]),
        ("fresh-state", &["00 ", "10 "]),
        ("send-pattern", &["00 ", "01 ", "02 ", "03 ", "04 ", "05 ", "06 ", "07 "]),
        ("send-pattern", &["08 ", "09 ", "0a ", "0b ", "0c ", "0d ", "0e ", "11 "]),
        ("send", &["11 "]),
        ("send-coded", &["00 ", "01 ", "02 ", "05 ", "07 ", "0b ", "11 "]),
        ("send-coded-pattern", &["00 ", "01 ", "02 ", "03 ", "04 ", "05 ", "06 ", "07 "]),
        ("send-coded-pattern", &["08 ", "09 ", "0a ", "0b ", "0c ", "0d ", "0e ", "11 "]),
        ("code", &["00 ", "11 00"]),
        ("code-pattern", &["00 ", "11 00"]),
    ];
    for (operation, kinds) in expected {
        for kind in kinds {
            assert!(reached(operation, kind), "{operation} never answered {kind}");
        }
    }
    for operation in ["sound-settings", "sound-account", "sound-state", "start"] {
        assert!(reached(operation, "00") && reached(operation, "01"), "{operation}");
    }
}

#[test]
fn named_lists_are_answered_as_their_names_say() {
    let cases = generated();
    let answers = answers(&cases);
    let mut name = "";
    let mut expected: Vec<u8> = Vec::new();
    let mut named = 0;
    for (case, answer) in cases.lines().zip(answers.lines()) {
        if case.is_empty() || case.starts_with('#') {
            assert!(expected.is_empty(), "{name}");
            name = case;
            if let Some((_, numbers)) = case.split_once(": answers ") {
                let number = |text: &str| text.parse().expect("a number");
                expected = numbers.split(", ").map(number).collect();
                expected.reverse();
                named += 1;
            }
        } else if case.starts_with("send") && name.contains(": answers ") {
            let given = u8::from_str_radix(&answer[..2], 16).expect("a number");
            assert_eq!(Some(given), expected.pop(), "{name}");
        }
    }
    assert!(named > 800, "{named}");
}

#[test]
fn repeated_transactions_are_answered_as_their_names_say() {
    let (cases, answers) = answered("transactions");
    let mut expected: Option<u8> = None;
    let mut named = 0;
    for (case, answer) in cases.lines().zip(answers.lines()) {
        if case.is_empty() || case.starts_with('#') {
            let number = |(_, number): (&str, &str)| number.parse().expect("a number");
            expected = case.split_once(": each answered ").map(number);
        } else if let (true, Some(expected)) = (case.starts_with("send"), expected) {
            assert_eq!(answer[..2], format!("{expected:02x}"), "{case}");
            named += 1;
        }
    }
    assert!(named > 700, "{named}");
}

#[test]
fn named_codes_are_as_their_names_say() {
    let (cases, answers) = answered("codes");
    let mut name = "";
    let mut named = 0;
    for (case, answer) in cases.lines().zip(answers.lines()) {
        if case.is_empty() || case.starts_with('#') {
            name = case;
            continue;
        }
        let crc = case.starts_with("crc ");
        if let Some((_, code)) = name.split_once(": code 0x") {
            let expected = if crc { format!("{code} {code}") } else { format!("00 {code}") };
            assert_eq!(answer, expected, "{name}");
            named += 1;
        } else if name.ends_with(": no code") {
            assert_eq!(answer, "11 00", "{name}");
            named += 1;
        } else if crc {
            assert_eq!(answer[..2], answer[3..], "{case}");
        }
    }
    assert!(named > 60, "{named}");
}

/// The bytes of a field.
fn bytes_of(field: &str) -> Vec<u8> {
    let digits = if field == "-" { "" } else { field };
    let byte = |pair: &[u8]| {
        let text = std::str::from_utf8(pair).expect("digits");
        u8::from_str_radix(text, 16).expect("digits")
    };
    digits.as_bytes().chunks(2).map(byte).collect()
}

/// Every code of the cases, by the kernel's own way.
#[test]
fn codes_are_those_of_the_kernel() {
    let (cases, answers) = answered("codes");
    let mut compared = 0;
    for (case, answer) in cases.lines().zip(answers.lines()) {
        let fields: Vec<&str> = case.split(' ').collect();
        let number = |place: usize| usize::from_str_radix(fields[place], 16).expect("digits");
        let (address_and_command, data) = match fields[0] {
            "crc" => {
                let code = kernel::pec(number(1) as u8, &bytes_of(fields[2]));
                assert_eq!(answer, format!("{code:02x} {code:02x}"), "{case}");
                compared += 1;
                continue;
            }
            "code" => ([number(1) as u8, number(2) as u8], bytes_of(fields[3])),
            "code-pattern" => ([number(1) as u8, number(2) as u8], pattern(number(3), number(4))),
            _ => continue,
        };
        if data.len() <= 255 {
            let message = [&address_and_command[..], &[data.len() as u8], &data].concat();
            let code = kernel::pec(0, &message);
            assert_eq!(answer, format!("00 {code:02x}"), "{case}");
            compared += 1;
        }
    }
    assert!(compared > 600, "{compared}");
}

#[test]
fn named_accounts_and_states_are_as_sound_as_their_names_say() {
    let cases = generated();
    let answers = answers(&cases);
    let mut lines = cases.lines().zip(answers.lines());
    let mut named = 0;
    while let Some((name, _)) = lines.next() {
        let expected = if name.ends_with(": not sound") {
            "00"
        } else if name.ends_with(": sound") {
            "01"
        } else {
            continue;
        };
        let (_, answer) = lines.next().expect("a case after its name");
        assert_eq!(answer, expected, "{name}");
        named += 1;
    }
    assert!(named > 400, "{named}");
}

#[test]
fn named_status_cases_are_answered_as_their_names_say() {
    let (cases, answers) = answered("status");
    let ends = [
        ("written", "00 00 "),
        ("read", "00 00 "),
        ("size of block", "0f 01 "),
        ("length", "0f 02 "),
        ("packet status", "0f 03 "),
        ("MNG reserved bits", "0f 04 "),
        ("decision index", "0f 05 "),
        ("VLAN index", "0f 06 "),
    ];
    let mut name = "";
    let mut named = [0; 8];
    for (case, answer) in cases.lines().zip(answers.lines()) {
        if case.is_empty() || case.starts_with('#') {
            name = case;
            continue;
        }
        let end = name.rsplit_once(": ").map(|(_, end)| end);
        if let Some(place) = ends.iter().position(|(its_end, _)| end == Some(its_end)) {
            assert!(answer.starts_with(ends[place].1), "{name}: {answer}");
            named[place] += 1;
        }
    }
    assert!(named.iter().all(|count| *count > 10), "{named:?}");
}

#[test]
fn nothing_but_zeros_comes_back_with_a_bad_status_field() {
    let (cases, answers) = answered("status");
    for (case, answer) in cases.lines().zip(answers.lines()) {
        if let Some(field_and_rest) = answer.strip_prefix("0f ") {
            let (field, rest) = field_and_rest.split_at(2);
            assert!(("01"..="06").contains(&field), "{case}: {answer}");
            assert!(rest.chars().all(|character| "0 ".contains(character)), "{case}: {answer}");
        }
    }
}

/// The digits of the bytes of a text.
fn digits(text: &str) -> String {
    text.bytes().map(|byte| format!("{byte:02x}")).collect()
}

const HEADING: &str = "fate packets fragments bytes\n";

#[test]
fn answers_about_journals() {
    let zeros = "sent 0 0 0\nsuperseded 0 0 0\nflushed 0 0 0\nbroken 0 0 0\nover 0 0 0\n\
                 short 0 0 0\nlinkdown 0 0 0\naborted 0 0 0\nbadlength 0 0 0\n\
                 badcheck 0 0 0\nopen 0 0 0\ntaken 0\nrefused 0\ntotal 0\n";
    let zeros = digits(&format!("{HEADING}{zeros}"));
    let bad = digits("bad journal\n");
    for (case, answer) in [
        ("journal 0000 54434f0100f0", &zeros),
        ("journal 0001 54434f0100f0", &zeros),
        ("journal ffff 54434f0100f0", &zeros),
        ("journal 0000 54434f0200f0", &zeros),
        ("journal 0002 54434f0200f0", &zeros),
        ("journal 0000 54434f0300f0", &bad),
        ("journal 0003 54434f020020920501", &bad),
        ("journal 0000 54434f0100f1", &bad),
        ("journal 0000 54434f0100", &bad),
        ("journal 0002 54434f010020c40201ff", &bad),
        ("journal 0000 -", &bad),
    ] {
        assert_eq!(answers(&format!("{case}\n")), format!("{answer}\n"), "{case}");
    }
    // A header alone and one room for all of its printout, then a byte less.
    let length = zeros.len() / 2;
    let pattern = |from: usize, to: usize| -> String {
        pattern(to, 0xaa)[from..].iter().map(|byte| format!("{byte:02x}")).collect()
    };
    let account = account(&[]);
    for (room, answer) in [
        (length, format!("{length:04x} {zeros}")),
        (length + 2, format!("{length:04x} {zeros}{}", pattern(length, length + 2))),
        (length - 1, format!("0000 {}", pattern(0, length - 1))),
        (0, "0000 -".to_string()),
    ] {
        let case = format!("print {account} {room:04x}");
        assert_eq!(answers(&format!("{case}\n")), format!("{answer}\n"), "room {room}");
    }
    let unsound = format!("print {} 0003", self::account(&[(34, 1)]));
    assert_eq!(answers(&format!("{unsound}\n")), "0000 aab1b8\n");
}

#[test]
fn named_journals_are_as_good_as_their_names_say() {
    let (cases, answers) = answered("journals");
    let bad = digits("bad journal\n");
    let mut name = "";
    let (mut good_named, mut bad_named) = (0, 0);
    for (case, answer) in cases.lines().zip(answers.lines()) {
        if case.is_empty() || case.starts_with('#') {
            name = case;
        } else if name.ends_with(": an account") {
            assert!(answer.starts_with(&digits(HEADING)), "{name}");
            good_named += 1;
        } else if name.ends_with(": bad journal") {
            assert_eq!(answer, bad, "{name}");
            bad_named += 1;
        }
    }
    assert!(good_named > 50 && bad_named > 80, "{good_named} {bad_named}");
}

#[test]
fn named_printouts_are_as_their_names_say() {
    let (cases, answers) = answered("printouts");
    let mut expected: Vec<bool> = Vec::new();
    let mut named = 0;
    for (case, answer) in cases.lines().zip(answers.lines()) {
        if let Some(name) = case.strip_prefix('#') {
            assert!(expected.is_empty());
            expected = match name.rsplit_once(": ") {
                Some((_, "nothing, printed, printed")) => vec![true, true, false],
                Some((_, "nothing")) => vec![false],
                _ => Vec::new(),
            };
        } else if let Some(printed) = expected.pop() {
            assert_eq!(answer.starts_with("0000 "), !printed, "{case}");
            named += 1;
        }
    }
    assert!(named > 300, "{named}");
}

/// A file that holds these bytes.
fn file(name: &str, bytes: &[u8]) -> String {
    let path = format!("{}/{name}", env!("CARGO_TARGET_TMPDIR"));
    std::fs::write(&path, bytes).expect("a file is written");
    path
}

#[test]
fn accounts_of_files_and_of_standard_input() {
    let journal = b"TCO\x01\x00\x20\x84\x01\x02\x11\x22\x05\x00\x00";
    let checked = b"TCO\x02\x00\x20\x92\x84\x01\x03\x11\x22\x33\xd6\x92\x05\x00\x00\x00";
    for (name, journal, end) in [
        ("good-journal", &journal[..], "badcheck 0 0 0\nopen 1 1 2\ntaken 0\nrefused 1\ntotal 2\n"),
        ("checked-journal", checked, "badcheck 0 1 0\nopen 0 0 0\ntaken 0\nrefused 0\ntotal 2\n"),
    ] {
        let path = file(name, journal);
        for output in [run(&["account", &path], b""), run(&["account"], journal)] {
            assert!(output.status.success());
            assert!(output.stderr.is_empty());
            let text = String::from_utf8(output.stdout).expect("an account is ASCII");
            assert!(text.starts_with(HEADING));
            assert!(text.ends_with(end), "{text}");
        }
    }
    let path = file("bad-journal", &journal[..journal.len() - 1]);
    for output in [run(&["account", &path], b""), run(&["account"], b"")] {
        assert_eq!(output.status.code(), Some(1));
        assert_eq!(output.stdout, b"bad journal\n");
        assert!(output.stderr.is_empty());
    }
}

#[test]
fn files_that_cannot_be_read() {
    let folder = env!("CARGO_TARGET_TMPDIR");
    let missing = format!("{folder}/no-such-journal");
    for path in [&missing, folder] {
        let output = run(&["account", path], b"");
        assert_eq!(output.status.code(), Some(1));
        assert!(output.stdout.is_empty());
        let message = String::from_utf8_lossy(&output.stderr);
        assert!(message.starts_with(&format!("{path}: ")), "{message}");
    }
}

#[test]
fn journals_to_measure_with() {
    for (kind, line) in [
        ("fragments-240", "sent "),
        ("fragments-20", "sent "),
        ("commands", "aborted 0 "),
        ("fragments-240-checked", "sent "),
        ("fragments-20-checked", "sent "),
        ("commands-checked", "aborted 0 "),
    ] {
        let journal = run(&["bench-journal", kind, "1000000"], b"");
        assert!(journal.status.success());
        assert!((1_000_000..1_010_000).contains(&journal.stdout.len()), "{kind}");
        let output = run(&["account"], &journal.stdout);
        assert!(output.status.success(), "{kind}");
        let text = String::from_utf8(output.stdout).expect("an account is ASCII");
        let counted = text.lines().find_map(|text| text.strip_prefix(line));
        assert!(counted.map_or(false, |counted| !counted.starts_with("0 ")), "{text}");
        assert!(text.contains("\nbadcheck 0 0 0\nopen 0 0 0\n"), "{text}");
    }
    let header = run(&["bench-journal", "commands", "0"], b"");
    assert_eq!(header.stdout, b"TCO\x01\x00\xf0");
    let header = run(&["bench-journal", "fragments-20-checked", "0"], b"");
    assert_eq!(header.stdout, b"TCO\x02\x00\x14");
}

/// The same records in both versions.
#[test]
fn journals_to_measure_with_differ_in_their_check_bytes_alone() {
    for kind in ["fragments-240", "fragments-20", "commands"] {
        let [plain, checked] = [kind.to_string(), format!("{kind}-checked")].map(|kind| {
            let journal = run(&["bench-journal", &kind, "100000"], b"").stdout;
            let version = journal[3];
            let mut transactions = Vec::new();
            let mut rest = &journal[6..];
            while let [first, second, ..] = *rest {
                let (command, head) = if version == 2 { (second, 4) } else { (first, 3) };
                let length = usize::from(rest[head - 1]);
                let record = head + length + usize::from(version == 2);
                transactions.push((command, rest[head..head + length].to_vec()));
                if version == 2 {
                    let message = [&[first, command, length as u8], &rest[head..head + length]];
                    assert_eq!(rest[record - 1], kernel::pec(0, &message.concat()), "{kind}");
                }
                rest = &rest[record..];
            }
            transactions
        });
        let shorter = plain.len().min(checked.len());
        assert!(shorter > 300, "{kind}");
        assert_eq!(plain[..shorter], checked[..shorter], "{kind}");
    }
}
