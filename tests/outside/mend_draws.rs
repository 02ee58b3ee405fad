//! Drawn charts with drawn damage, one after the other, and noise: mended, each as it comes.

use crate::chart_draws::{damage, draw_draft};
use crate::chart_image;
use crate::door;
use crate::draw::Draw;
use crate::group::{Group, Outcome, Tests};
use crate::mend_call::{mend_all, Tallies};
use crate::mender::LONGEST_DAMAGED;

pub const GROUPS: &[Tests] = &[("mending drawn", draws), ("mending noise", noise)];

const DRAWN: usize = 12_000;
const ANEW: usize = 4;
const LONG: usize = 60;
const NOISE: usize = 4_000;

// Times that each number must come.
const OFTEN: u64 = 40;

// Draws damaged charts, one behind the other.
fn draw_row(draw: &mut Draw, count: usize) -> Vec<u8> {
    (0..count)
        .flat_map(|_| {
            let draft = draw_draft(draw);
            damage(draw, draft)
        })
        .collect()
}

fn draws(group: &mut Group, draw: &mut Draw) -> Outcome {
    let mut tallies = Tallies::new();
    for _ in 0..DRAWN {
        let draft = draw_draft(draw);
        let sound = draft.lay();
        let read = door::chart_read(&sound, chart_image::SIZE).number;
        group.known("a sound chart", 0, read)?;
        mend_all(group, "a sound chart", &sound, &mut tallies)?;
        for _ in 0..ANEW {
            let damaged = damage(draw, draft.clone());
            mend_all(group, "drawn", &damaged, &mut tallies)?;
            // Bytes changed here and there.
            let mut spoiled = damaged;
            for _ in 0..draw.within(1, 6) {
                if !spoiled.is_empty() {
                    let place = draw.below(spoiled.len());
                    spoiled[place] = draw.one_of(&[0, 1, 2, 3, 4, 9, 255]);
                }
            }
            mend_all(group, "drawn, spoiled", &spoiled, &mut tallies)?;
        }
        let row = draw_row(draw, 3);
        mend_all(group, "drawn, three in a row", &row, &mut tallies)?;
    }
    for _ in 0..LONG {
        let row = draw_row(draw, 250);
        for size in [row.len(), row.len().min(LONGEST_DAMAGED), LONGEST_DAMAGED + 1] {
            let mut input = row.clone();
            input.resize(size, 0);
            mend_all(group, "drawn, long", &input, &mut tallies)?;
        }
    }
    tallies.settle_often(group, OFTEN)
}

// Noise of small numbers, in which there are fields, before, behind and instead of a chart.
fn noise(group: &mut Group, draw: &mut Draw) -> Outcome {
    let mut tallies = Tallies::new();
    for _ in 0..NOISE {
        let size = draw.within(0, 300);
        let most = draw.one_of(&[2, 4, 8, 16, 256]);
        let noise: Vec<u8> = (0..size).map(|_| draw.below(most) as u8).collect();
        let sound = draw_draft(draw).lay();
        let cut = draw.below(sound.len());
        for input in [
            noise.clone(),
            [&noise[..], &sound].concat(),
            [&sound[..], &noise].concat(),
            [&sound[..cut], &noise, &sound[cut..]].concat(),
        ] {
            mend_all(group, "noise", &input, &mut tallies)?;
        }
    }
    Ok(())
}
