//! The assembler, as a caller meets it.

use ht1130::{ffi, form, Refusal, TextRefusal, Verdict, MASK, TEXT};

/// NOP but for what is given.
fn mask(parts: &[(usize, &[u8])]) -> [u8; MASK] {
    let mut mask = [0x3E; MASK];
    for (at, code) in parts {
        mask[*at..at + code.len()].copy_from_slice(code);
    }
    mask
}

#[track_caller]
fn accepted(text: &str, parts: &[(usize, &[u8])]) {
    let found = ht1130::assembled(text.as_bytes());
    assert_eq!(found, Ok(mask(parts)), "{text}");
}

#[track_caller]
fn refused(text: &str, refusal: Refusal, line: u32) {
    let found = ht1130::assembled(text.as_bytes());
    assert_eq!(found, Err(TextRefusal { refusal, line }), "{text}");
}

#[test]
fn texts() {
    accepted("", &[]);
    accepted("  \n\nEI", &[(0, &[0x2C])]);
    // Labels below and above, sums, a difference that is below 0 on the way
    accepted(
        "START : JMP MAIN+1-1\nORG 8\n RETI\nORG START+0FH+1\nMAIN:MOV A,3-(5-9)\nOUT PA , A\nJNZ A,MAIN\n",
        &[
            (0, &[0xE0, 0x10]),
            (8, &[0x2F]),
            (0x10, &[0x77, 0x30, 0xB8, 0x10]),
        ],
    );
    // The label of an ORG has the new address
    accepted(
        "HERE: ORG 7FEH\nJC 800H\nCALL HERE",
        &[(0x7FE, &[0xC0, 0x00, 0xF7, 0xFE])],
    );
    // R5 is no fixed word
    accepted("R5:MOV R1R0,R5+0A5H", &[(0, &[0x55, 0x0A])]);
    let deep = format!("JMP {}5{}", "(".repeat(16), ")".repeat(16));
    accepted(&deep, &[(0, &[0xE0, 0x05])]);
}

#[test]
fn refusals() {
    refused("NOP\nNOPE", Refusal::Syntax, 2);
    refused("NOP\nHERE:", Refusal::Syntax, 2);
    refused("nop", Refusal::Syntax, 1);
    refused("\n\nJMP 65536", Refusal::Syntax, 3);
    refused("R4:NOP", Refusal::Syntax, 1);
    let deep = format!("\nJMP {}5{}", "(".repeat(17), ")".repeat(17));
    refused(&deep, Refusal::Syntax, 2);

    refused("NOP\nJMP THERE", Refusal::Label, 2);
    refused("HERE:ORG HERE", Refusal::Label, 1);
    refused("ORG HERE\nHERE:NOP", Refusal::Label, 1);
    refused("HERE:NOP\nNOP\nHERE:NOP", Refusal::Label, 3);

    refused("ORG 4096", Refusal::Range, 1);
    refused("ORG 0-1", Refusal::Range, 1);
    refused("ORG 4095\nHALT", Refusal::Range, 2);
    refused("NOP\nORG 0\n\nNOP", Refusal::Range, 4);
    refused("NOP\nMOV A,16", Refusal::Range, 2);
    refused("ORG 7FDH\nJC 800H", Refusal::Range, 2);

    // 12 before 14 before 13, an ORG before another value
    refused("ORG 4096\nJMP THERE\n?", Refusal::Syntax, 3);
    refused("ORG 4096\nJMP THERE\n", Refusal::Label, 2);
    refused("MOV A,16\nORG 4096\n", Refusal::Range, 2);
}

#[test]
fn lengths() {
    let spaces = vec![b' '; TEXT + 1];
    assert_eq!(ht1130::assembled(&spaces[1..]), Ok(mask(&[])));
    let too_long = TextRefusal {
        refusal: Refusal::Syntax,
        line: 1,
    };
    assert_eq!(ht1130::assembled(&spaces), Err(too_long));
    // The last line of the longest text that has many
    let mut lines = vec![b'\n'; TEXT];
    lines[TEXT - 1] = b'?';
    assert_eq!(
        ht1130::assembled(&lines),
        Err(TextRefusal {
            refusal: Refusal::Syntax,
            line: 65535
        })
    );
    let wrong = TextRefusal {
        refusal: Refusal::BufferLength,
        line: 0,
    };
    for length in [0, 1, MASK - 1, MASK + 1] {
        for text in [&b"NOP"[..], b"?", &spaces] {
            let mut out = vec![0xA5; length];
            assert_eq!(ht1130::assemble(text, &mut out), Err(wrong));
            assert_eq!(out, vec![0xA5; length]);
        }
    }
}

/// The raw answer, and the lent bytes with what stands beside them.
fn raw(text: &[u8], length: usize) -> (u64, Vec<u8>) {
    let mut bytes = vec![0xA5; length + 20];
    let out = &mut bytes[10..10 + length];
    // SAFETY: both are valid for their lengths and do not overlap.
    let answer =
        unsafe { ffi::ht1130_assemble(text.as_ptr(), text.len(), out.as_mut_ptr(), length) };
    (answer, bytes)
}

#[test]
fn raw_answers() {
    for (text, length, answer) in [
        (&b"NOP"[..], MASK - 1, 2),
        (b"NOP", MASK + 1, 2),
        (b"NOP\n\n?", MASK, 12 | 3 << 32),
        (b"NOP\nEI\nJMP L", MASK, 14 | 3 << 32),
        (b"MOV A,7\nMOV A,8\nNOP\nORG 4096", MASK, 13 | 4 << 32),
        (b"MOV A,7\nMOV A,16", MASK, 13 | 2 << 32),
    ] {
        let (found, bytes) = raw(text, length);
        let text = String::from_utf8_lossy(text);
        assert_eq!(found, answer, "{text}");
        assert_eq!(bytes, vec![0xA5; length + 20], "{text} wrote something");
    }
    let (found, bytes) = raw(b"ORG 2\nMOV A,7", MASK);
    assert_eq!(found, 0);
    assert_eq!(bytes[10..10 + MASK], mask(&[(2, &[0x77])]));
    assert_eq!(
        (&bytes[..10], &bytes[10 + MASK..]),
        (&[0xA5; 10][..], &[0xA5; 10][..])
    );
}

/// What is assembled reads back, and can be checked.
#[test]
fn assembled_masks() {
    let text = b"EI\nIDLE:JMP IDLE\nORG 4\nRETI\nORG 8\nRETI";
    let mask = ht1130::assembled(text).unwrap();
    let read = ht1130::read(&mask, 1).unwrap().unwrap();
    assert_eq!((read.form, read.b, read.length), (form::JMP, 1, 2));
    assert_eq!(ht1130::check(&mask, &mut [0; MASK]), Ok(Verdict::Passed));
}

#[test]
fn numbers_and_words() {
    let numbers = [Refusal::Syntax, Refusal::Range, Refusal::Label].map(Refusal::number);
    assert_eq!(numbers, [12, 13, 14]);
    let refused = ht1130::assembled(b"NOP\nJMP L").unwrap_err();
    assert_eq!(
        refused.to_string(),
        "label missing, not above its ORG or defined again at line 2"
    );
}
