//! Sheets of random lines, some of them not of the form.

use super::source::Source;
use crate::check::{Run, Seen, FILLER};
use crate::kinds::emptied;
use crate::plain;
use shelf::drill::LISTING_LINE;
use shelf::WORK_AREA;

pub fn all(run: &mut Run, source: &mut Source, inputs: usize) {
    let mut work = [vec![FILLER; WORK_AREA], vec![FILLER; WORK_AREA]];
    for _ in 0..inputs {
        let sheet = sheet(source);
        let needed = shelf::drill::output_size(&sheet);
        let room = if source.once_in(20) { needed - 1 } else { needed + source.below(3) };
        let short = source.once_in(30) as usize;
        let (mut got, mut want) = (vec![FILLER; room], vec![FILLER; room]);
        let [ours, plains] = &mut work;
        let answer = cendrulas::drill(&sheet, &mut got, &mut ours[short..]);
        let plain = plain::drill(&sheet, &mut want, &mut plains[short..]);
        run.same(
            || format!("sheet, room {room}, work area less {short}:\n{}", String::from_utf8_lossy(&sheet)),
            Seen { answer, buffers: &[&got, ours] },
            Seen { answer: plain, buffers: &[&want, plains] },
        );
        run.kinds.saw("drill", if answer.refusal == 0 { "accepted".into() } else { format!("refused {}", answer.refusal) });
        for line in got[..answer.count].chunks_exact(LISTING_LINE) {
            let column = |from: usize| std::str::from_utf8(&line[from..from + 8]).expect("text").trim_start();
            let (result, length) = (column(32), column(48));
            run.kinds.saw("line of a listing", emptied(result.into(), result == "2" && length == "0"));
        }
    }
}

/// Stretches of a step that begins, ends or blanks something and then visits, mostly by one client.
fn sheet(source: &mut Source) -> Vec<u8> {
    let t = if source.once_in(20) { source.below(7) } else { source.within(1, 4) };
    let servers = 3 * t.clamp(1, 4) + 1;
    let mut sheet = line(0, t, 0, 0, 0);
    let clients = [1, 2, source.within(3, 8), source.within(9, 16)];
    for _ in 0..source.below(12) {
        let client = if source.once_in(40) { source.below(20) } else { *source.pick(&clients) };
        let server = if source.once_in(20) { source.below(16) } else { source.within(1, servers) };
        sheet.extend(match source.below(10) {
            0 => line(4, 0, server, 0, 0),
            1 => line(5, client, 0, 0, 0),
            2..=5 => line(1, client, 0, length(source), source.below(257)),
            6 if source.once_in(40) => odd_line(source),
            _ => line(2, client, 0, 0, 0),
        });
        for k in 0..source.below(4 * servers) {
            let client = if source.once_in(10) { *source.pick(&clients) } else { client };
            let server = if source.once_in(40) { source.below(16) } else { 1 + (server + k) % servers };
            sheet.extend(line(3, client, server, 0, 0));
        }
    }
    if source.once_in(10) {
        spoil(source, &mut sheet);
    }
    sheet
}

fn length(source: &mut Source) -> usize {
    if source.once_in(8) {
        *source.pick(&[1, 2, 5, 1_025, 99_999_999])
    } else {
        source.content_length()
    }
}

fn line(verb: usize, client: usize, server: usize, length: usize, fill: usize) -> Vec<u8> {
    format!("{verb:>8}{client:>8}{server:>8}{length:>8}{fill:>8}\n").into_bytes()
}

/// Five numbers without sense.
fn odd_line(source: &mut Source) -> Vec<u8> {
    let mut number = || source.below(300);
    let (verb, client) = (number() % 8, number());
    line(verb, client, number() % 3, number() % 2, number())
}

/// A changed character, or the last ones cut off.
fn spoil(source: &mut Source, sheet: &mut Vec<u8>) {
    if source.once_in(3) {
        sheet.truncate(source.below(sheet.len() + 1));
    } else {
        let at = source.below(sheet.len());
        sheet[at] = *source.pick(b" 0159\n\tx");
    }
}
