//! Where a coded list of calls ends: cut off, unknown, or without room for the reply.

mod common;

use common::*;

const FILL: u8 = 0xA5;

/// Runs calls with so much room and gives the replies; checks that the rest is untouched.
fn replies(calls: &[u8], room: usize) -> Vec<u8> {
    let mut buffer = vec![FILL; room];
    let length = brute::replay(calls, &mut buffer);
    assert!(buffer[length..].iter().all(|&byte| byte == FILL));
    buffer.truncate(length);
    buffer
}

#[test]
fn no_calls() {
    assert!(replies(b"", 100).is_empty());
}

#[test]
fn unknown_codes_end_the_list() {
    for code in (0..=255).filter(|code| !(1..=9).contains(code)) {
        let calls = [clear(0), vec![code, 0, 0, 0, 0, 0], clear(0)].concat();
        assert_eq!(replies(&calls, 100), [0]);
    }
}

#[test]
fn a_call_cut_off_anywhere_is_not_run() {
    let all = [
        load(0, &four_cards()),
        clear(1),
        judge(0, CARD_RECORD),
        compile(0),
        evaluate(0, CARD_RECORD),
        compare(0),
        hand_out(3),
        load_text(0, b"classdiagram d {}"),
        convert(&four_cards(), 3),
    ];
    for call in all {
        for length in 0..call.len() {
            let calls = [clear(0), call[..length].to_vec()].concat();
            assert_eq!(replies(&calls, 1000), [0], "{call:?} up to {length}");
        }
        assert!(replies(&[clear(0), call].concat(), 1000).len() > 1);
    }
}

#[test]
fn a_length_beyond_the_list_is_cut_off() {
    assert!(replies(&[1, 0, 255, 255, 255, 255, 16, 0, 1, 1], 100).is_empty());
    assert!(replies(&[1, 0, 0, 0, 0, 5, 16, 0, 1, 1], 100).is_empty());
    assert_eq!(replies(&[1, 0, 0, 0, 0, 4, 16, 0, 1, 1], 100), [0]);
    let mut text = load_text(0, b"classdiagram d {}");
    assert_eq!(replies(&text, 100), [0]);
    text[5] += 1;
    assert!(replies(&text, 100).is_empty());
    let mut file = convert(EMPTY_DIAGRAM, 0);
    assert_eq!(replies(&file, 100), [20, 0, 0, 0, 0]);
    file[4] += 1;
    assert!(replies(&file, 100).is_empty());
}

#[test]
fn lengths_have_the_high_byte_first() {
    let mut file = b"\x10\x00\x01\x01".to_vec();
    for name in b'A'..=b'X' {
        let mut content = vec![0, 16];
        content.extend([name; 16]);
        content.push(0);
        file.extend([0x30, 0, content.len() as u8]);
        file.extend(content);
    }
    assert!(file.len() > 256);
    assert_eq!(replies(&load(0, &file), 100), [0]);
    let blanks = [b' '; 70_000];
    let text = [b"classdiagram d {}", &blanks[..]].concat();
    assert_eq!(replies(&load_text(0, &text), 100), [0]);
}

#[test]
fn a_reply_without_room_is_not_written() {
    let loads = [load(0, &four_cards()), load(1, &two_cards())].concat();
    let sizes = [
        (judge(0, CARD_RECORD), 2),
        (evaluate(0, CARD_RECORD), 2),
        (compile(0), 450),
        (compare(3), 2),
        (compare(4), 3),
        (clear(0), 1),
        (load_text(0, b"classdiagram d {}"), 1),
        (load_text(0, b""), 1),
        (load_text(2, b""), 1),
        (judge(0, b""), 1),
        (compile(2), 1),
        (compare(9), 1),
        (hand_out(0), 5),
        (hand_out(7), 12),
        (convert(&four_cards(), 0), 5),
        (convert(b"", 7), 12),
        (convert(FOUR_CARDS_2, 4_096), 4_101),
    ];
    for (call, size) in sizes {
        let calls = [loads.clone(), call.clone(), clear(0)].concat();
        assert_eq!(replies(&calls, 2 + size - 1).len(), 2, "{call:?}");
        assert_eq!(replies(&calls, 2 + size).len(), 2 + size, "{call:?}");
        assert_eq!(replies(&calls, 2 + size + 1).len(), 2 + size + 1);
    }
}

#[test]
fn the_longest_buffers_do_not_fit() {
    assert!(replies(&hand_out(u32::MAX), 1000).is_empty());
    assert!(replies(&convert(EMPTY_DIAGRAM, u32::MAX), 1000).is_empty());
}

#[test]
fn a_conversion_byte_for_byte() {
    let mut call = vec![9, 0, 0, 0, 4, 0x10, 0, 1, 1, 0, 0, 0x10, 0];
    assert_eq!(call, convert(EMPTY_DIAGRAM, 4_096));
    let written = [&[0, 0, 0, 0, 4, 0x10, 0, 1, 2], &[FILL; 4_092][..]].concat();
    assert_eq!(replies(&call, 5_000), written);
    call[11..].copy_from_slice(&[0x0F, 0xFF]);
    let refused = [&[20, 0, 0, 0, 0], &[FILL; 4_095][..]].concat();
    assert_eq!(replies(&call, 5_000), refused);
}
