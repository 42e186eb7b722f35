//! The text form: any bytes come back, and faults name line and reason.

use oracle::digests::seeds;
use oracle::exhaustive;
use oracle::generate::trace_for;
use oracle::text::{assemble, list};

fn fault(text: &str) -> (usize, String) {
    let fault = assemble(text).expect_err("a faulty text");
    (fault.line, fault.reason)
}

#[test]
fn traces_come_back_from_their_text() {
    let some = exhaustive::traces().step_by(7);
    for (name, trace) in seeds(300).chain(some) {
        let text = list(&trace);
        assert!(assemble(&text).as_ref() == Ok(&trace), "{name}");
    }
}

#[test]
fn any_bytes_come_back_from_their_text() {
    let mut bytes = Vec::new();
    for seed in 0..40u64 {
        bytes.extend(trace_for(seed).iter().rev().take(97));
        assert!(
            assemble(&list(&bytes)).as_ref() == Ok(&bytes),
            "seed {seed}"
        );
        let mut cut = trace_for(seed);
        cut.truncate(cut.len() - 1 - seed as usize);
        assert!(assemble(&list(&cut)).as_ref() == Ok(&cut), "seed {seed}");
    }
}

#[test]
fn numbers_names_and_comments_may_be_written_in_several_ways() {
    let one = "wr cwriter 8 128 # a comment\n\n   rd cbaser+4 4\nrd 0x84 4";
    let two = "wr 0x88 0x8 0x80\nrd 132 4\n# only a comment\nrd 0x80+4 4\n";
    assert_eq!(assemble(one), assemble(two));
    let fields = "gm 0\n mapti lpi=8200 event=9 collection=2 device=5";
    let ordered = "gm 0x0\n mapti device=5 event=9 lpi=0x2008 collection=2";
    assert_eq!(assemble(fields), assemble(ordered));
}

#[test]
fn a_profile_goes_by_its_name_and_base_may_be_left_out() {
    let cf = |profile: &str| format!("cf limit=9000 budget=2 frame=65536 {profile} processors=7\n");
    let byte_of = |profile: &str| assemble(&cf(profile)).expect("a well-formed text")[14];
    for (profile, byte) in [
        ("", 0),
        ("profile=base", 0),
        ("profile=0", 0),
        ("profile=strict", 1),
        ("profile=1", 1),
        ("profile=2", 2),
        ("profile=0xff", 255),
    ] {
        assert_eq!(byte_of(profile), byte, "{profile}");
    }
    for (profile, listed) in [
        (
            "profile=base",
            "cf limit=9000 budget=2 frame=65536 processors=7\n",
        ),
        ("profile=1", &cf("profile=strict")),
        ("profile=2", &cf("profile=2")),
        ("profile=255", &cf("profile=255")),
    ] {
        let trace = assemble(&cf(profile)).expect("a well-formed text");
        assert_eq!(list(&trace), listed);
        assert_eq!(assemble(listed), Ok(trace));
    }
}

/// Bit 0 of CWRITER is Retry, at the two widths at which it can be written.
#[test]
fn cwriter_with_retry_has_a_form_of_its_own() {
    for (one, other, listed) in [
        (
            "wr cwriter retry 8 64",
            "wr 0x88 8 65",
            "wr cwriter retry 8 0x40\n",
        ),
        (
            "wr cwriter retry 4 0",
            "wr cwriter 4 1",
            "wr cwriter retry 4 0x0\n",
        ),
        (
            "wr 0x88 retry 8 0xfffffffffffffffe",
            "wr cwriter 8 0xffffffffffffffff",
            "wr cwriter retry 8 0xfffffffffffffffe\n",
        ),
        (
            "wr cwriter retry 2 64",
            "wr cwriter 2 65",
            "wr cwriter 2 0x41\n",
        ),
    ] {
        let trace = assemble(one).expect("a well-formed text");
        assert_eq!(assemble(other).as_ref(), Ok(&trace));
        assert_eq!(list(&trace), listed);
        assert_eq!(assemble(listed), Ok(trace));
    }
    for plain in ["wr cwriter 8 0x40\n", "wr cwriter+4 4 0x1\n"] {
        let trace = assemble(plain).expect("a well-formed text");
        assert_eq!(list(&trace), plain);
    }
}

#[test]
fn what_no_named_form_says_is_listed_as_words() {
    for words in [
        "words 0x108 0x0 0x8000000000000000 0x0",
        "words 0x9 0x0 0x8001000000010002 0x0",
        "words 0x3 0x100000000 0x0 0x0",
        "words 0x8 0x20 0x8000000000000000 0x0",
        "words 0x5 0x0 0x0 0x1",
        "words 0xe 0x0 0x0 0x0",
    ] {
        let trace = assemble(&format!("gm 0x1000\n{words}")).expect("a well-formed text");
        assert_eq!(list(&trace), format!("gm 0x1000\n  {words}\n"));
    }
}

#[test]
fn faults_name_line_and_reason() {
    let cases = [
        ("cf limit=1 budget=1 frame=1", 1, "processors= is missing"),
        (
            "cf limit=1 budget=1 frame=1 profile=lax processors=0",
            1,
            "profile=lax is neither base, strict nor a byte",
        ),
        (
            "cf limit=1 budget=1 frame=1 profile=256 processors=0",
            1,
            "profile=256 is neither base, strict nor a byte",
        ),
        (
            "cf limit=1 budget=1 frame=1 profile=0 profile=1 processors=0",
            1,
            "profile= is given twice",
        ),
        (
            "cf limit=1 budget=1 frame=1 processors=0 mode=1",
            1,
            "cf has only limit=, budget=, frame=, profile= and processors=",
        ),
        (
            "cf limit=1 budget=1 frame=1 profile=1 processors=0 mode=1",
            1,
            "cf has only limit=, budget=, frame=, profile= and processors=",
        ),
        ("\n\nrd nowhere 4", 3, "no register is named `nowhere`"),
        ("rd ctlr", 1, "rd takes a register and a width"),
        ("rd ctlr 256", 1, "256 is too large here"),
        ("tr 5 4294967296", 1, "4294967296 is too large here"),
        ("wr ctlr retry 4 0", 1, "`ctlr` has no retry, cwriter has"),
        (
            "wr cwriter+4 retry 4 0",
            1,
            "`cwriter+4` has no retry, cwriter has",
        ),
        (
            "wr cwriter retry 8 33",
            1,
            "33 has bit 0, which is retry's own",
        ),
        (
            "wr cwriter retry",
            1,
            "wr takes a register, a width and a value",
        ),
        ("wr ctlr 4 1x", 1, "`1x` is not a number of at most 64 bits"),
        (
            "# fine\nint device=5 event=9",
            2,
            "`int` belongs below a gm line",
        ),
        ("gm 0\n int device=5", 2, "event= is missing"),
        (
            "gm 0\n int device=5 event=9 lpi=1",
            2,
            "int has no field lpi=",
        ),
        ("gm 0\n int device=5 device=5", 2, "device= is given twice"),
        (
            "gm 0\n mapd device=5 bits=33",
            2,
            "bits=33 is not between 1 and 32",
        ),
        ("gm 0\n mapd device=5", 2, "bits= is missing"),
        ("gm 0\n mapc collection=5", 2, "processor= is missing"),
        (
            "gm 0\n bytes 123",
            2,
            "`123` is not pairs of hexadecimal digits",
        ),
        ("gm 0\n words 1 2 3", 2, "words takes four numbers"),
        (
            "gm 0\n repeat 129 sync",
            2,
            "a window has at most 4096 bytes",
        ),
        ("gm 0\n jump 5", 2, "no record or command is named `jump`"),
        ("cf limit=1 limit=2", 1, "limit= is given twice"),
        ("raw", 1, "bytes are missing"),
    ];
    for (text, line, reason) in cases {
        assert_eq!(fault(text), (line, reason.to_string()), "{text}");
    }
}
