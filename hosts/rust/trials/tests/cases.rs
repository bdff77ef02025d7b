//! The model against the published cases of another model of the same document, made apart from this one.

use std::collections::BTreeMap;
use trials::case::Case;
use trials::vectors::{read, take_over, write, Vector};

fn published() -> Vec<Vector> {
    read(include_str!("../cases.txt")).expect("cases.txt is in its form")
}

#[test]
fn cases() {
    for (i, Vector { case, want }) in published().iter().enumerate() {
        let got = case.outcome();
        assert_eq!(got.numbers, want.numbers, "case {i}");
        for (buffer, (got, want)) in got.buffers.iter().zip(&want.buffers).enumerate() {
            assert!(got == want, "case {i}: buffer {buffer}");
        }
        assert_eq!(got.buffers.len(), want.buffers.len(), "case {i}");
    }
}

#[test]
fn the_form_is_read_and_written_alike() {
    assert!(write(&published()) == include_str!("../cases.txt"));
}

#[test]
fn published_files_are_taken_over() {
    let lines = [
        r#"{"op":"start","level":0,"table":"0100000000000000","block":"0000","want":{"number":21,"place":0,"block":"0000"}}"#,
        r#"{"op":"run","table":"","block":"01","budget":7,"log":"aabb","want":{"number":11,"steps":0,"records":0,"place":0,"block":"01","log":"aabb"}}"#,
        r#"{"op":"run","regs":"00","table":"","block":"","budget":7,"log":"","want":{}}"#,
        r#"{"op":"explain","table":"","block":"01","out":"aabbcc","want":{"number":0,"count":1,"end":2,"place":0,"out":"0100cc"}}"#,
        r#"{"op":"explain","regs":"00","table":"","block":"","out":"","want":{}}"#,
        r#"{"op":"next", "count":-1, "want":{}}"#,
        r#"{"op":"shelf","level":5,"buffer":"010203","lengths":"03000000","space":"aaaaaaaaaaaaaaaa","want":{"number":0,"space":"0b00000000000000"}}"#,
        r#"{"op":"shelf","level":5,"buffer":"","lengths":"","space":"aa","want":{"number":26,"space":"aa"}}"#,
        r#"{"op":"print","table":"0100000000000000","want":{"text":"ended 1 0 0\nfinished 1\n"}}"#,
    ];
    let (vectors, left) = take_over(&lines.join("\n")).expect("published cases");
    let text = [
        "start 0100*7. 0000 21 0 =",
        "run - 01 7 aabb 11 0 0 0 = -",
        "explain - 01 aabbcc 0 1 2 0 0100",
        "shelf 010203 0300*3. aa*8. 0 0b00*7.",
        "shelf - - aa 26 =",
        "print 0100*7. ended 1 0 0|finished 1|",
    ];
    let text = text.join("\n") + "\n";
    assert_eq!(write(&vectors), text);
    assert_eq!(read(&text), Ok(vectors.clone()));
    assert_eq!(left, BTreeMap::from(["explain", "next", "run"].map(|operation| (operation.to_string(), 1))));
    assert_eq!(vectors[2].want.buffers, [[1, 0, 0xcc]]);
    assert_eq!(vectors[3].want.buffers, [[11, 0, 0, 0, 0, 0, 0, 0]]);
    assert_eq!(vectors[5].case, Case::Print { table: vec![1, 0, 0, 0, 0, 0, 0, 0] });
}

#[test]
fn outputs_that_are_not_kept_are_told() {
    let lines = [
        r#"{"op":"run","table":"","block":"","budget":7,"log":"aa","want":{"number":11,"steps":0,"records":0,"place":0,"block":"","log":"ab"}}"#,
        r#"{"op":"explain","table":"","block":"","out":"aabbcc","want":{"number":0,"count":1,"end":2,"place":0,"out":"0100cd"}}"#,
        r#"{"op":"explain","table":"","block":"","out":"aabb","want":{"number":0,"count":1,"end":2,"place":0,"out":"010000"}}"#,
    ];
    for line in lines {
        assert_eq!(take_over(line), Err("line 1: bytes past what was written are not kept".to_string()));
    }
}
