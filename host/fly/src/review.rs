//! A flight as a page that any browser shows from a disk: the page, the proved core as WebAssembly, and the flight's own files in it.

use crate::check::Given;
use crate::kept::{Kept, Trouble};

const PAGE: &str = include_str!("../review/page.html");
const CORE: &[u8] = include_bytes!(concat!(env!("OUT_DIR"), "/fosavalo.wasm"));
/// What calls the core, and of that what the page takes.
const CALLS: &str = include_str!(concat!(env!("OUT_DIR"), "/fosavalo.js"));
const TAKEN: &str = "{ Core, Refusal, SetUp, MOST_RECORDS, LOG_RIGHT, IMAGE_BYTES, ANSWER_BYTES, TICK_BYTES }";
/// The page's own scripts, in order.
const SCRIPTS: [&str; 6] = [
    include_str!("../review/read.js"),
    include_str!("../review/judge.js"),
    include_str!("../review/view.js"),
    include_str!("../review/draw.js"),
    include_str!("../review/tell.js"),
    include_str!("../review/page.js"),
];

/// What the page is told beside the files.
#[derive(Clone, Copy, Default)]
pub struct Told {
    /// Where this is given, and not left to the flight's file.
    pub given: Option<Given>,
    /// When the flight began, in seconds of the day.
    pub starts: Option<f64>,
}

/// Whether there is a core to put into a page.
pub fn can() -> bool {
    !CORE.is_empty() && !CALLS.is_empty()
}

/// The page with these files in it; with none, it waits for what is dropped on it.
pub fn page(files: &[(String, Vec<u8>)], told: Told) -> Vec<u8> {
    let given = told.given.map(|Given { profile, enter, exit }| format!("{{profile:{},enter:{enter:?},exit:{exit:?}}}", profile.word()));
    let [given, starts] = [given, told.starts.map(|starts| starts.to_string())].map(|told| told.unwrap_or("null".to_string()));
    // a page on a disk imports nothing, so what is exported is returned
    let calls = format!("const {TAKEN} = (() => {{\n{}return {TAKEN};\n}})();\n", CALLS.replace("\nexport ", "\n"));
    let script = calls + &SCRIPTS.concat();
    let mut page = Vec::with_capacity(files.iter().map(|(_, bytes)| bytes.len() / 3 * 4 + 200).sum::<usize>() + 200_000);
    let mut rest = PAGE;
    for mark in ["@CORE@", "@FILES@", "@PAGE@", "@SCRIPT@"] {
        let (before, after) = rest.split_once(mark).unwrap_or((rest, ""));
        page.extend_from_slice(before.as_bytes());
        match mark {
            "@CORE@" => base64(CORE, &mut page),
            "@PAGE@" => page.extend_from_slice(format!("{{given:{given},starts:{starts}}}").as_bytes()),
            "@SCRIPT@" => page.extend_from_slice(script.replace("</script", "<\\/script").as_bytes()),
            _ => files.iter().for_each(|(name, bytes)| {
                page.extend_from_slice(format!("<script type=\"text/plain\" class=\"file\" data-name={}>", attribute(name)).as_bytes());
                base64(bytes, &mut page);
                page.extend_from_slice(b"</script>\n");
            }),
        }
        rest = after;
    }
    page.extend_from_slice(rest.as_bytes());
    page
}

/// The files of a flight: its own file, where there is one, and its logs.
pub fn files(kept: &Kept) -> Result<Vec<(String, Vec<u8>)>, Trouble> {
    let mut files: Vec<(String, Vec<u8>)> =
        kept.file.iter().map(|file| (format!("{}.flight", kept.name), file.text().into_bytes())).collect();
    let mut names = kept.logs.iter().map(|log| log.file_name());
    kept.each(|log| {
        files.push((names.next().unwrap_or_default(), log.as_bytes().to_vec()));
        Ok(true)
    })?;
    Ok(files)
}

/// A text as an attribute's value.
fn attribute(text: &str) -> String {
    format!("\"{}\"", text.replace('&', "&amp;").replace('"', "&quot;").replace('<', "&lt;"))
}

fn base64(bytes: &[u8], to: &mut Vec<u8>) {
    const LETTERS: &[u8; 64] = b"ABCDEFGHIJKLMNOPQRSTUVWXYZabcdefghijklmnopqrstuvwxyz0123456789+/";
    to.reserve(bytes.len().div_ceil(3) * 4);
    for three in bytes.chunks(3) {
        let at = |k: usize| u32::from(three.get(k).copied().unwrap_or(0));
        let word = at(0) << 16 | at(1) << 8 | at(2);
        let four = [18, 12, 6, 0].map(|shift| LETTERS[(word >> shift & 63) as usize]);
        to.extend_from_slice(&four[..three.len() + 1]);
        to.resize(to.len() + 3 - three.len(), b'=');
    }
}
