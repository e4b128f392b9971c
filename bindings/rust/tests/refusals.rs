//! The smallest inputs of docs/REFUSALS.md: each row is read from the page and asked for, and the answer is the one
//! that stands there.

use turgamysk::{
    Covenant, CovenantKind, Decoder, Directory, NameHash, NameState, Refusal, hash_name,
    judge_transaction, put, verify_covenant_links,
};

const PAGE: &str = include_str!("../../../docs/REFUSALS.md");

/// A row: its number, the call, the input and the answer.
type Row = [&'static str; 4];

fn rows() -> Vec<Row> {
    let (_, table) = PAGE
        .split_once("\n## Smallest inputs\n")
        .expect("the page has the table");
    table
        .lines()
        .filter(|line| line.starts_with("| ") && !line.starts_with("| No."))
        .map(|line| {
            let cells: Vec<&str> = line.trim_matches('|').split('|').map(str::trim).collect();
            cells.try_into().expect("four cells")
        })
        .collect()
}

/// The bytes of a text: two hex digits each, or `00*8` for eight of them.
fn bytes(text: &str) -> Vec<u8> {
    text.split_whitespace()
        .flat_map(|word| {
            let (digits, times) = word.split_once('*').unwrap_or((word, "1"));
            let byte = u8::from_str_radix(digits, 16).expect("a byte in hex");
            vec![byte; times.parse().expect("a number of times")]
        })
        .collect()
}

/// The inputs of a row: the bytes between backticks, none where there are no bytes.
fn inputs(cell: &str) -> Vec<Vec<u8>> {
    cell.split('`').skip(1).step_by(2).map(bytes).collect()
}

fn refused_by(call: &str, inputs: &[Vec<u8>]) -> Refusal {
    let none = Vec::new();
    let first = inputs.first().unwrap_or(&none);
    let mut directory = Directory::new();
    match call {
        "`Covenant::decode`" => {
            Covenant::decode(first, &mut directory)
                .expect_err("refused")
                .refusal
        }
        "`Covenant::read` under an allowance of 0" => {
            Covenant::read(&mut Decoder::new(first), 0)
                .expect_err("refused")
                .refusal
        }
        "`read_compact_size`" => {
            Decoder::new(first)
                .read_compact_size()
                .expect_err("refused")
                .refusal
        }
        "`hash_name`" => hash_name(first).expect_err("refused"),
        "`NameState::decode` under a key of 32 zeros" => {
            NameState::decode(&NameHash([0; 32]), first)
                .expect_err("refused")
                .refusal
        }
        "`judge_transaction`" => judge_transaction(first).expect_err("refused").refusal,
        "`verify_covenant_links`" => {
            verify_covenant_links(&inputs[0], &inputs[1])
                .expect_err("refused")
                .refusal
        }
        "`put_u8` into no bytes" => put::put_u8(&mut [], 0, first[0]).expect_err("refused"),
        "`Covenant::encoded_size` of one item that starts at 1 and has 0 bytes" => {
            directory.starts[0] = 1;
            let covenant = Covenant {
                kind: CovenantKind::NONE,
                count: 1,
                source: first,
                directory: &directory,
            };
            covenant.encoded_size().expect_err("refused")
        }
        _ => panic!("the test does not know the call {call}"),
    }
}

/// The answer as the page writes it: the number, and what is carried in braces.
fn written(refusal: Refusal, parts: usize) -> String {
    let carried: Vec<String> = refusal
        .carried()
        .iter()
        .take(parts)
        .map(usize::to_string)
        .collect();
    if parts == 0 {
        return refusal.number().to_string();
    }
    format!("{} {{{}}}", refusal.number(), carried.join(", "))
}

#[test]
fn each_number_has_a_row_that_gives_it() {
    let rows = rows();
    let numbers: Vec<String> = (1..=30).map(|number: u8| number.to_string()).collect();
    let told: Vec<&str> = rows.iter().map(|row| row[0]).collect();
    assert_eq!(told, numbers);
    for [number, call, input, answer] in rows {
        let refusal = refused_by(call, &inputs(input));
        assert_eq!(refusal.number().to_string(), number, "{call}: {input}");
        let parts = match answer.split_once('{') {
            Some((_, carried)) => carried.split(',').count(),
            None => 0,
        };
        assert_eq!(written(refusal, parts), answer, "{call}: {input}");
        assert_eq!(
            &refusal.carried()[parts..],
            vec![0; 3 - parts],
            "{call}: {input}"
        );
    }
}

/// The rule of a number, from the page's first table: the fourth cell of its row.
fn rule_on_the_page(number: u8) -> &'static str {
    let row = PAGE
        .lines()
        .find(|line| line.starts_with(&format!("| {number} | `")))
        .expect("a row of the number");
    row.split('|').nth(4).expect("a rule").trim()
}

#[test]
fn each_refusal_prints_its_number_and_its_rule() {
    for number in 1..=30 {
        let refusal = Refusal::from_parts(number, [0; 3]).expect("a row of the table");
        let rule = rule_on_the_page(number);
        assert_eq!(refusal.rule(), rule);
        let told = format!("refused {number}, {refusal:?}: {rule}");
        assert_eq!(refusal.to_string(), told);
    }
}
