//! The frames that the program `page_vectors` reads and the lines that it prints: a page behind its length in two bytes, and a line for each.

use super::reader::read;
use crate::driver::report::{hex, Found};
use crate::pipes::output;
use std::path::Path;

/// What the program takes at once.
pub const MOST: usize = 65_536;

pub fn frame(page: &[u8]) -> Vec<u8> {
    let length = u16::try_from(page.len()).expect("a page of at most 65,535 bytes");
    [&length.to_be_bytes(), page].concat()
}

/// The pages of some frames.
pub fn pages(mut frames: &[u8]) -> Vec<&[u8]> {
    let mut pages = vec![];
    while let [high, low, rest @ ..] = frames {
        let (page, behind) = rest.split_at(usize::from(u16::from_be_bytes([*high, *low])));
        pages.push(page);
        frames = behind;
    }
    pages
}

/// The line of a page.
pub fn line(page: &[u8]) -> String {
    match read(page) {
        Err(fault) => fault.to_string(),
        Ok(page) => {
            let setup = &page.setup;
            let lanes = setup.lanes.iter();
            let lanes = lanes.map(|l| {
                let shared = if l.shared { "/shared" } else { "" };
                format!(" {}/{}/{}/{}{shared}", l.number, l.weight, l.longest, setup.framing)
            });
            let lanes: String = lanes.collect();
            format!("edition {}, format {}, lanes {},{lanes}", page.edition, setup.format, setup.lanes.len())
        }
    }
}

/// Pages by pipe to the program, which must print the line of each.
pub fn compare(program: &Path, pages: &[Vec<u8>]) -> Result<(), Found> {
    let frames: Vec<u8> = pages.iter().flat_map(|page| frame(page)).collect();
    let printed = output(program, &frames).map_err(|error| Found::new(error, vec![]))?;
    let printed = String::from_utf8_lossy(&printed);
    let mut lines = printed.lines();
    for page in pages {
        let (given, right) = (lines.next(), line(page));
        if given != Some(&right) {
            let said = vec![format!("page {}", hex(page))];
            return Err(Found::new(format!("it prints {given:?}, the rules say {right:?}"), said));
        }
    }
    Ok(())
}
