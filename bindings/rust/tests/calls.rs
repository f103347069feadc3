//! The eight calls through the safe functions: the key of document 01, every refusal, and what is
//! written.

use cepruvels::*;

const N: usize = MOST_CEILING;

fn read(symbol: bool, text: &[u8]) -> Result<(Counts, String), Refused> {
    let mut workspace = vec![0xA5A5_A5A5; reading_numbers(N)];
    let mut out = vec![0xA5; 1 << 20];
    let call = if symbol { demangle } else { demangle_type };
    let answer = call(text, N, &mut workspace, &mut out).map(|(counts, bytes)| (counts, String::from_utf8(bytes.to_vec()).unwrap()));
    let mut workspace = vec![0x5A5A_5A5A; shape_numbers(N)];
    let check = if symbol { shape } else { shape_type };
    let checked = check(text, N, &mut workspace);
    if !matches!(answer, Err(Refused { refusal: Refusal::Output, .. })) {
        assert_eq!(checked, answer.clone().map(|(counts, _)| counts), "reading and check of {text:?}");
    }
    answer
}

fn refused(refusal: Refusal, place: usize) -> Refused {
    Refused { refusal, place }
}

fn counts(steps: usize, total: usize, wraps: usize) -> Counts {
    Counts { steps, total, wraps }
}

#[test]
fn key_of_symbols() {
    for (text, c, name) in [
        ("$s4main3fooyyF", Some((5, 5, 1)), "main.foo() -> ()"),
        ("_$S4main3fooyyF.1", Some((5, 5, 1)), "main.foo() -> () with unmangled suffix \".1\""),
        ("$s4main3foo3barySi_tF", Some((8, 10, 2)), "main.foo(bar: Swift.Int) -> ()"),
        ("$s4main3FooV1aACvp", Some((6, 8, 0)), "main.Foo.a : main.Foo"),
        ("$s4main7FooItemV0C0Sivp", None, "main.FooItem.Item : Swift.Int"),
        ("$s_", None, ""),
        ("$sr0_l", None, "<A, B>"),
    ] {
        let (got, written) = read(true, text.as_bytes()).unwrap();
        assert_eq!(written, name);
        if let Some((s, t, w)) = c {
            assert_eq!(got, counts(s, t, w), "{text}");
        }
    }
    assert_eq!(read(true, b"$s"), Err(refused(Refusal::Prefix, 0)));
    assert_eq!(read(true, b"$sZ"), Err(refused(Refusal::Stack, 2)));
    assert_eq!(read(true, b"$s4main"), Err(refused(Refusal::Leftover, 7)));
}

#[test]
fn key_of_types() {
    assert_eq!(read(false, b"SiSg"), Ok((counts(2, 9, 1), "Swift.Int?".to_string())));
    assert_eq!(read(false, b"S0i"), Err(refused(Refusal::Spelling, 0)));
    assert_eq!(read(false, b"q23_").unwrap().1, "Z");
    assert_eq!(read(false, b"q24_").unwrap().1, "AB");
    assert_eq!(read(false, b"S4096i").unwrap_err().refusal, Refusal::Leftover);
    assert_eq!(read(false, b"S4097i"), Err(refused(Refusal::Spelling, 0)));
    let metatypes = |n: usize| ["Si", &"m".repeat(n)].concat();
    assert!(read(false, metatypes(256).as_bytes()).is_ok());
    assert_eq!(read(false, metatypes(257).as_bytes()), Err(refused(Refusal::Nesting, 258)));
    assert_eq!(read(false, b"4mainA65534A").unwrap_err().refusal, Refusal::Leftover);
    assert_eq!(read(false, b"4mainA65535A"), Err(refused(Refusal::Charge, 5)));
    assert_eq!(read(false, &[b'y'; 4096]).unwrap_err().refusal, Refusal::Leftover);
    assert_eq!(read(false, &[b'y'; 4097]), Err(refused(Refusal::Steps, 4096)));
}

#[test]
fn refusals_before_the_run() {
    let (mut w, mut out) = (vec![7; 64], [9; 8]);
    for (text, n, refusal, place) in [
        (&b"$s4main3fooyyF"[..], 0, Refusal::Ceiling, 0),
        (b"$s4main3fooyyF", 65_537, Refusal::Ceiling, 0),
        (b"$s4main3fooyyF", usize::MAX, Refusal::Ceiling, 0),
        (b"$s4main3fooyyF", 2, Refusal::Workspace, 0),
        (&[b'y'; 65_536], 1, Refusal::Length, 0),
        (b"$s\xff", 1, Refusal::Encoding, 2),
        (b"$s1a.\xe2\x82", 1, Refusal::Encoding, 5),
        (b"4main", 1, Refusal::Prefix, 0),
        (b"", 1, Refusal::Prefix, 0),
    ] {
        assert_eq!(demangle(text, n, &mut w, &mut out).map(|(c, _)| c), Err(refused(refusal, place)));
        assert_eq!(w, [7; 64], "the workspace is as it was");
        assert_eq!(out, [9; 8], "the output is as it was");
    }
    assert_eq!(demangle_type(b"", 1, &mut w, &mut out).map(|(c, _)| c), Err(refused(Refusal::Leftover, 0)));
}

#[test]
fn only_the_text_is_written() {
    let n = 16;
    for room in 0..40 {
        let mut w = vec![3; reading_numbers(n) + 100];
        let mut out = vec![0xEE; room];
        let answer = demangle(b"$s4main3fooyyF", n, &mut w, &mut out).map(|(c, b)| (c, b.to_vec()));
        let text = b"main.foo() -> ()";
        if room < text.len() {
            assert_eq!(answer, Err(refused(Refusal::Output, 0)));
            assert_eq!(out, vec![0xEE; room]);
        } else {
            assert_eq!(answer, Ok((counts(5, 5, 1), text.to_vec())));
            assert_eq!(&out[text.len()..], &vec![0xEE; room - text.len()][..]);
        }
        assert_eq!(w[reading_numbers(n)..], [3; 100], "the workspace past 64 x N is as it was");
    }
}

#[test]
fn stopped_after_each_operator() {
    let text = b"$s4main3foo3barySi_tF";
    let (mut w, mut v) = (vec![1; reading_numbers(256)], vec![2; shape_numbers(256)]);
    for k in 0..12 {
        let (mut a, mut b) = ([0; 96], [1; 96]);
        let (c, stack) = demangle_stopped(text, 256, k, &mut w, &mut a).unwrap();
        let (d, entries) = shape_stopped(text, 256, k, &mut v, &mut b).unwrap();
        assert_eq!((c, stack), (d, entries));
        assert_eq!(c.steps, k.min(8));
        if k == 3 {
            assert_eq!(stack, [0, 1, 0, 0, 1, 0, 0, 1, 0], "three identifiers");
        }
        if k >= 8 {
            assert_eq!(stack[0], 19, "a function");
        }
    }
    let mut few = [5; 8];
    assert_eq!(demangle_stopped(text, 256, 3, &mut w, &mut few).map(|(c, _)| c), Err(refused(Refusal::Output, 0)));
    assert_eq!(few, [5; 8]);
    assert_eq!(demangle_type_stopped(b"SiSg", 256, 1, &mut w, &mut few).unwrap().1, [3, 2, 0]);
    assert_eq!(shape_type_stopped(b"SiSg", 256, 2, &mut v, &mut few).unwrap().1, [18, 5, 0]);
}

#[test]
fn a_demangler_grows_its_output() {
    let mut names = Demangler::with(N, 1 << 20);
    let wide = format!("Si_{}t", "SS".repeat(1000));
    assert_eq!(names.demangle_type(&wide).unwrap().len(), 11 + 14 * 1000);
    assert_eq!(names.demangle("$sr18446744073709551613_l"), Err(refused(Refusal::Output, 0)));
    assert_eq!(names.demangle("$s4main3fooyyF"), Ok("main.foo() -> ()"));
    assert_eq!(Demangler::with(0, 0).demangle("$s_"), Ok(""));
    assert_eq!(Demangler::with(0, 0).demangle("$sx"), Err(refused(Refusal::Output, 0)));
}

#[test]
fn refusals_have_their_numbers() {
    assert_eq!(Refusal::Ceiling.number(), 1);
    assert_eq!(Refusal::Output.number(), 12);
    assert_eq!(refused(Refusal::Stack, 2).to_string(), "10 at 2: a node is missing from the stack or of the wrong kind");
}

#[test]
fn many_threads_at_once() {
    std::thread::scope(|s| {
        for _ in 0..8 {
            s.spawn(|| {
                let mut names = Demangler::new();
                for _ in 0..2000 {
                    assert_eq!(names.demangle("$s4main3FooV1aACvp"), Ok("main.Foo.a : main.Foo"));
                }
            });
        }
    });
}
