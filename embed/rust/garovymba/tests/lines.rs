use garovymba::{Fault, Kind, Session, Took};

#[test]
fn lines_are_answered() -> Result<(), Fault> {
    let mut session = Session::open()?;
    for line in ["var x int 3", "let y add(x, 4)", "observe o y", "watch o", "stabilize"] {
        assert_eq!(session.line(line.as_bytes())?.0, Took::Accepted);
    }
    assert_eq!(session.line(b"# note")?, (Took::Blank, &b""[..]));
    assert_eq!(session.line(b"show o")?, (Took::Accepted, &b"o = 7\n"[..]));
    let notices = session.notices()?;
    assert_eq!((notices[0].kind, notices[0].name.as_str(), notices[0].now.as_str()), (Kind::Init, "o", "7"));
    Ok(())
}

#[test]
fn refusals_have_words() -> Result<(), Fault> {
    let mut session = Session::open()?;
    let (took, printed) = session.line(b"set z 1")?;
    assert_eq!((took, printed), (Took::Refused(4), &b"refused 4\n"[..]));
    assert_eq!((took.number(), took.words()), (104, "a name isn't declared"));
    assert_eq!(took.to_string(), "refused 4: a name isn't declared");
    assert_eq!((Fault::NoMemory.number(), Fault::NoMemory.to_string().as_str()), (-2, "no memory was found"));
    Ok(())
}

#[test]
fn words_are_those_of_the_library() {
    for number in 1..=255 {
        // SAFETY: incr_errstr gives a text that stays, for every number.
        let words = unsafe { std::ffi::CStr::from_ptr(garovymba_sys::incr_errstr(100 + i32::from(number))) };
        assert_eq!(words.to_str(), Ok(Took::Refused(number).words()));
    }
}
