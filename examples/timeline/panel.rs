//! A panel for each opening, and one for what came before the first.

use crate::axis::{Band, Plot};
use crate::band::{self, Shared};
use crate::heads::Head;
use crate::history::{History, Opening};
use crate::judged::Judged;
use crate::marks;
use crate::rows::Rows;
use crate::script::Call;
use crate::svg::{Anchor, Font, Picture, Sign, BOLD, GREY, INK, PLAIN, REFUSED, WIDTH};
use crate::{key, scale, ticks};

/// The page's edge. Lines a pixel wide are sharp between whole numbers.
const LEFT: f64 = 14.5;

const TITLE: Font = Font { size: 15.0, ..BOLD };
const VALUES: Font = Font {
    size: 14.0,
    ..PLAIN
};

/// The room between bands, and between panels.
const BANDS: f64 = 12.0;
const PANELS: f64 = 22.0;

/// The labels' column is at least so wide, for the names of lanes.
const LABELS: f64 = 66.0;

/// Draws all panels and the key, and answers the height.
pub fn draw(picture: &mut Picture, history: &History) -> f64 {
    let mut y = 10.5;
    if history.openings.is_empty() && history.before.is_empty() {
        let at = (LEFT, y + 14.0);
        picture.text(at, Anchor::Start, PLAIN, "The script has no lines.");
        return y + 28.0;
    }
    y = outside(picture, "Before the first opening", &history.before, y);
    for (place, opening) in history.openings.iter().enumerate() {
        if place > 0 || !history.before.is_empty() {
            y = parted(picture, y);
        }
        y = panel(picture, opening, y);
    }
    key::draw(picture, y, LEFT)
}

/// A line between two panels.
fn parted(picture: &mut Picture, y: f64) -> f64 {
    let y = (y + PANELS / 2.0).floor() + 0.5;
    let style = format!("stroke=\"{GREY}\" stroke-width=\"0.8\"");
    picture.line((LEFT, y), (WIDTH - LEFT, y), &style);
    y + PANELS / 2.0
}

fn panel(picture: &mut Picture, opening: &Opening, y: f64) -> f64 {
    title(picture, opening, y + 15.0);
    let shared = shared(opening, scale::heads(opening), scale::end(opening));
    let bands = scale::bands(opening, &shared.plot);
    let y = draw_bands(picture, &shared, &bands, y + 32.0);
    let refused: Vec<&Call> = opening.refusals.iter().map(|it| &it.call).collect();
    let y = marks::list(picture, "Refused calls", &refused, y, LEFT);
    outside(picture, "Calls after it was closed", &opening.outside, y)
}

fn draw_bands(picture: &mut Picture, shared: &Shared, bands: &[Band], y: f64) -> f64 {
    bands.iter().fold(y, |y, band| {
        band::draw(picture, shared, band, y).floor() + 0.5 + BANDS
    })
}

/// Draws a plan, below it the planner's own rounds on the same axis, and the
/// key, and answers the height.
pub fn draw_plan(picture: &mut Picture, judged: &Judged) -> f64 {
    let own_heads = plan_heads(&judged.own);
    let mut heads = plan_heads(&judged.plan);
    let broken = judged.broken.as_ref();
    let packet = broken.and_then(|it| it.packet.as_ref());
    heads.extend(packet.map(Head::of_broken));
    let lists = [heads.clone(), own_heads.clone()];
    let mut plan = shared(&judged.plan, heads, judged.end);
    plan.ahead = Some(Sign::Rest);
    plan.broken = broken;
    let mut own = shared(&judged.own, own_heads, judged.end);
    own.ahead = None;
    let mut times = scale::times(&judged.plan, judged.end);
    times.extend(scale::times(&judged.own, judged.end));
    times.extend(packet.into_iter().flat_map(|it| [it.start, it.start + 1]));
    let bands = scale::bands_of(&times, &lists, &plan.plot);
    let y = plan_title(picture, judged, 25.5);
    let y = draw_bands(picture, &plan, &bands, y);
    let y = parted(picture, y);
    let title = "The planner's own rounds from the same beginning";
    picture.text((LEFT, y + 15.0), Anchor::Start, TITLE, title);
    let y = draw_bands(picture, &own, &bands, y + 32.0);
    key::draw(picture, y, LEFT)
}

/// The heads of a plan's rounds, and of the last one before.
fn plan_heads(opening: &Opening) -> Vec<Head> {
    let rounds = opening.rounds.iter().map(Head::of);
    std::iter::once(Head::of_last(opening.time))
        .chain(rounds)
        .collect()
}

/// What was found of the plan, and what it begins from.
fn plan_title(picture: &mut Picture, judged: &Judged, y: f64) -> f64 {
    let rounds = judged.plan.rounds.len();
    let unit = if rounds == 1 { "round" } else { "rounds" };
    let (title, fill) = match &judged.broken {
        Some(broken) => (
            format!("The plan breaks a rule in round {}", broken.round),
            REFUSED,
        ),
        None => (format!("The plan is sound, {rounds} {unit}"), INK),
    };
    let font = Font { fill, ..TITLE };
    picture.text((LEFT, y), Anchor::Start, font, &title);
    let Opening {
        slots, gap, time, ..
    } = &judged.plan;
    let values = format!("B = {slots}   G = {gap}   L = {time}");
    let x = LEFT + TITLE.width(&title) + 20.0;
    picture.text((x, y), Anchor::Start, VALUES, &values);
    y + 17.0
}

fn outside(picture: &mut Picture, title: &str, calls: &[Call], y: f64) -> f64 {
    let calls: Vec<&Call> = calls.iter().collect();
    marks::list(picture, title, &calls, y, LEFT)
}

fn title(picture: &mut Picture, opening: &Opening, y: f64) {
    let title = format!("Line {}:  {}", opening.call.line, opening.call.text);
    picture.text((LEFT, y), Anchor::Start, TITLE, &title);
    let Opening {
        slots,
        superframe,
        gap,
        time,
        ..
    } = opening;
    let values = format!("B = {slots}   F = {superframe}   G = {gap}   T = {time}");
    let x = LEFT + TITLE.width(&title) + 20.0;
    picture.text((x, y), Anchor::Start, VALUES, &values);
}

/// What all bands of a panel share: above all, the room that labels to the
/// left and marks to the right leave.
fn shared(opening: &Opening, heads: Vec<Head>, end: u64) -> Shared<'_> {
    let rows = Rows::of(&opening.streams, LEFT, end);
    let marks = marks::width(&opening.refusals) + 10.0;
    let after = marks.max(ticks::width(end) / 2.0 + 4.0).max(22.0);
    let before = (ticks::width(end) / 2.0).max(8.0) + 4.0;
    let left = (rows.right().max(LEFT + LABELS - before) + before).floor() + 0.5;
    Shared {
        opening,
        heads,
        rows,
        plot: Plot {
            left,
            width: WIDTH - after - left,
        },
        left: LEFT,
        ahead: Some(Sign::Ahead),
        broken: None,
    }
}
