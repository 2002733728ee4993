//! Reads the chart on standard input and prints its measures, and in which of them the last beat stands.
//! Run it with: cargo run --example measures < CHART
use std::io::{self, Read, Write};
use std::process::ExitCode;
use turnipcart::{Beat, Song, TEXT_LIMIT};

fn show_beat(beat: &Beat, out: &mut Vec<u8>) {
    out.push(b' ');
    match (beat.head, beat.chord) {
        (false, _) => out.push(b'.'),
        (true, None) => out.push(b'_'),
        (true, Some((base, extension))) => {
            out.extend_from_slice(base.as_bytes());
            out.extend_from_slice(extension);
        }
    }
}

fn show_song(song: &Song, out: &mut Vec<u8>) {
    for section in song.sections() {
        out.extend_from_slice(format!("section on line {}, in {}\n", section.line, section.time).as_bytes());
        for measure in section.measures() {
            out.extend_from_slice(format!("measure {}:", measure.place).as_bytes());
            measure.beats().for_each(|beat| show_beat(&beat, out));
            out.push(b'\n');
        }
    }
    if let Some(last) = song.beats().checked_sub(1) {
        if let Some(place) = song.find(last as u32).place {
            out.extend_from_slice(format!("beat {last} is in measure {place}\n").as_bytes());
        }
    }
}

fn run() -> io::Result<ExitCode> {
    let mut text = Vec::new();
    io::stdin().take(TEXT_LIMIT as u64 + 1).read_to_end(&mut text)?;
    let mut out = Vec::new();
    let code = match Song::read(&text) {
        Ok(song) => {
            show_song(&song, &mut out);
            ExitCode::SUCCESS
        }
        Err(why) => {
            out.extend_from_slice(format!("refused {} line {}\n", why.number, why.line).as_bytes());
            ExitCode::FAILURE
        }
    };
    io::stdout().write_all(&out)?;
    Ok(code)
}

fn main() -> ExitCode {
    run().unwrap_or_else(|why| {
        eprintln!("measures: {why}");
        ExitCode::from(3)
    })
}
