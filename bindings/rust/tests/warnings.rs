//! The labels that recvs leave out, told through the bindings: by their parts of the text, in order, and no more than there are.

use epass::{Refusal, Script, SCRATCH_WORDS};

const TEXT: &[u8] = b"type t = +{'d : 1, 'b : 1, 'c : 1, 'a : 1}\nproc p () [c : t, e : t] = recv c ('b => cancel c; recv e ('a => cancel e | 'd => cancel e))\n";

#[test]
fn warnings_of_a_text() -> Result<(), Refusal> {
    let mut script = Script::check(TEXT, [0; SCRATCH_WORDS])?;
    let told: Vec<_> = script.warnings().map(|w| (w.process, w.channel, w.label, w.at)).collect();
    let recv = |channel: &str| {
        let term = format!("recv {channel} (");
        TEXT.windows(term.len()).position(|part| part == term.as_bytes()).unwrap() + "recv ".len()
    };
    let (c, e) = (recv("c"), recv("e"));
    let wanted: [(&[u8], &[u8], &[u8], usize); 5] =
        [(b"p", b"c", b"'d", c), (b"p", b"c", b"'c", c), (b"p", b"c", b"'a", c), (b"p", b"e", b"'b", e), (b"p", b"e", b"'c", e)];
    assert_eq!(told, wanted);
    assert_eq!(script.warning(4).unwrap().to_string(), "Warning: process p, channel e, missing 'c");
    assert_eq!(script.warning(5), None);
    assert_eq!(script.warning(u32::MAX), None);
    Ok(())
}

#[test]
fn none_of_a_script_with_all_branches() -> Result<(), Refusal> {
    let text = b"type t = +{'a : 1, 'b : 1}\nproc p () [c : t] = recv c ('b => cancel c | 'a => cancel c)\n";
    assert_eq!(Script::check(text, [0; SCRATCH_WORDS])?.warnings().count(), 0);
    Ok(())
}
