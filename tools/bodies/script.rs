//! The lines of a session, without their faults.

#[derive(Clone, Copy, Debug, PartialEq, Eq)]
pub enum Ask {
    Status,
    Tree,
    Bound,
    Islands,
    Critical,
    Report,
    Place,
    Cert,
}

pub enum Command<'a> {
    OpenSwitch(&'a [u8]),
    CloseSwitch(&'a [u8]),
    TripBranch(&'a [u8]),
    RestoreBranch(&'a [u8]),
    LoseMeter(&'a [u8]),
    RegainMeter(&'a [u8]),
    Asked(Ask),
}

#[derive(Clone, Copy, Debug)]
pub enum LineFault {
    UnknownCommand,
    LineTooLong,
    BadName,
    WordMissing,
}

pub fn read_line(line: &[u8]) -> Result<Command<'_>, LineFault> {
    let mut words = line.splitn(2, |byte| *byte == b' ');
    let word = words.next().unwrap_or(b"");
    let name = words.next().ok_or(LineFault::WordMissing);
    Ok(match word {
        b"open" => Command::OpenSwitch(name?),
        b"close" => Command::CloseSwitch(name?),
        b"trip" => Command::TripBranch(name?),
        b"restore" => Command::RestoreBranch(name?),
        b"lose" => Command::LoseMeter(name?),
        b"regain" => Command::RegainMeter(name?),
        b"status" => Command::Asked(Ask::Status),
        b"tree" => Command::Asked(Ask::Tree),
        b"bound" => Command::Asked(Ask::Bound),
        b"islands" => Command::Asked(Ask::Islands),
        b"critical" => Command::Asked(Ask::Critical),
        b"report" => Command::Asked(Ask::Report),
        b"place" => Command::Asked(Ask::Place),
        b"cert" => Command::Asked(Ask::Cert),
        _ => return Err(LineFault::UnknownCommand),
    })
}
