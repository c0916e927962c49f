//! The board that the capacity desk looks at all day: a row for each station with a bar, and the totals.

use khuvelter::plan::{ceilings, reserved};
use khuvelter::{Share, Station};

use crate::style::{Ink, Style};

/// Cells of a bar.
const BAR: usize = 22;

/// The sign and the colour of each part of a bar, in the order in which they are drawn: held within the reservation, held above it,
/// reserved and not held yet, to be had now, not to be had now.
fn signs(style: Style) -> [(&'static str, Ink); 5] {
    [
        (style.sign("█", "#"), Ink::Good),
        (style.sign("▓", "+"), Ink::Above),
        (style.sign("░", "-"), Ink::Kept),
        (style.sign("·", "."), Ink::Faint),
        (" ", Ink::Faint),
    ]
}

/// The cells of each part: in proportion, at least one for a part that is not empty, `BAR` in all; none if all parts are empty.
fn cells(points: [u32; 5]) -> [usize; 5] {
    let total = points.iter().sum::<u32>() as usize;
    if total == 0 {
        return [0; 5];
    }
    let mut cells = points.map(|part| match part as usize * BAR / total {
        0 => usize::from(part > 0),
        cells => cells,
    });
    // What rounding has left over or overdrawn goes to the part that is furthest from its due.
    loop {
        let drawn: usize = cells.iter().sum();
        if drawn == BAR {
            return cells;
        }
        let due = |at: usize| points[at] as i64 * BAR as i64 - cells[at] as i64 * total as i64;
        if drawn < BAR {
            let at = (0..5).max_by_key(|&at| due(at)).unwrap_or_default();
            cells[at] += 1;
        } else {
            let at = (0..5).filter(|&at| cells[at] > 1).min_by_key(|&at| due(at)).unwrap_or_default();
            cells[at] -= 1;
        }
    }
}

/// A bar, framed; blank where there is nothing to draw.
fn bar(style: Style, points: [u32; 5]) -> String {
    let cells = cells(points);
    if cells == [0; 5] {
        return String::new();
    }
    let drawn: String =
        signs(style).iter().zip(cells).map(|((sign, ink), cells)| style.paint(*ink, &sign.repeat(cells))).collect();
    let (left, right) = (style.sign("▏", "|"), style.sign("▕", "|"));
    format!("{left}{drawn}{right}")
}

/// A station's points as the parts of its bar, which is its ceiling: held within and above its reservation, reserved and not held yet,
/// to be had now beyond the reservation, not to be had now.
fn station_parts(share: &Share) -> [u32; 5] {
    let above = share.above_reservation();
    let kept = share.own_unmet();
    let open = share.can_take_now() - kept.min(share.can_take_now());
    let shut = share.ceiling.saturating_sub(share.held + kept + open);
    [share.held - above, above, kept, open, shut]
}

/// The row of a station.
fn row(style: Style, share: &Share) -> String {
    let take = share.can_take_now();
    let take = style.paint(if take == 0 { Ink::Bad } else { Ink::Good }, &format!("{take:>12}"));
    let Share { ca, reservation, ceiling, held, .. } = share;
    let row = format!("{ca:>6}  {reservation:>8}  {ceiling:>7}  {held:>4}  {:>5}  {take}", share.own_unmet());
    format!("{row}  {}", bar(style, station_parts(share))).trim_end().to_string()
}

/// The whole board of a gateway.
pub fn board(style: Style, capacity: u32, plan: &[Station], shares: &[Share]) -> Vec<String> {
    let titles = "    CA  reserved  ceiling  held  unmet  can take now";
    let mut lines =
        vec![format!("{}  {}", style.paint(Ink::Title, titles), style.paint(Ink::Faint, "up to the ceiling"))];
    lines.extend(shares.iter().map(|share| row(style, share)));

    let held: u32 = shares.iter().map(|share| share.held).sum();
    let above: u32 = shares.iter().map(|share| share.above_reservation()).sum();
    let (free, unmet) = shares.first().map_or((capacity, 0), |share| (share.free, share.unmet));
    let open = free.saturating_sub(unmet);
    let sold = reserved(plan);

    let rule = style.sign("─", "-").repeat(titles.len());
    lines.push(style.paint(Ink::Faint, &rule));
    lines.push(format!("{:>6}  {sold:>8}  {:>7}  {held:>4}  {unmet:>5}", "all", ceilings(plan)));
    lines.push(String::new());

    let mut total = |name: &str, number: u32, meaning: &str, bar: &str| {
        let number = style.paint(Ink::Title, &format!("{number:>5}"));
        let meaning = style.paint(Ink::Faint, meaning);
        lines.push(format!("  {name:<17} {number}  {meaning}{bar}"));
    };
    let whole = bar(style, [held - above, above, unmet, open, 0]);
    let lent = if above > 0 { format!("; {above} of it is lent out above them") } else { String::new() };
    let sellable = capacity.saturating_sub(sold);
    total("capacity", capacity, "points of this gateway     ", &whole);
    total("held", held, &format!("{} within reservations, {above} above", held - above), "");
    total("free", free, "capacity minus held", "");
    total("unmet", unmet, "reserved and not held yet: kept free for their owners", "");
    total("open to all", open, "free minus unmet: stations may take it above their reservation", "");
    total("may still be sold", sellable, &format!("capacity minus all reservations{lent}"), "");
    lines.push(String::new());
    lines.extend(legend(style));
    lines
}

/// What the signs mean.
fn legend(style: Style) -> [String; 2] {
    let [within, above, kept, open, _] = signs(style).map(|(sign, ink)| style.paint(ink, sign));
    [
        format!("  {within} held within the reservation   {above} held above it   {kept} reserved and not held yet"),
        format!("  {open} can be taken now              blank: below the ceiling, but no room now"),
    ]
}

#[cfg(test)]
mod tests {
    use super::*;

    /// A share with its numbers in the order of the board.
    fn share(reservation: u32, ceiling: u32, held: u32, free: u32, unmet: u32) -> Share {
        Share { ca: 7, reservation, ceiling, held, free, unmet }
    }

    #[test]
    fn the_parts_of_a_bar_add_up_to_the_ceiling() {
        // Document 01's gateway; A and B of case i, A after its third point; a station that has sold nothing.
        assert_eq!(station_parts(&share(2, 4, 3, 5, 0)), [2, 1, 0, 1, 0]);
        assert_eq!(station_parts(&share(2, 5, 0, 5, 4)), [0, 0, 2, 1, 2]);
        assert_eq!(station_parts(&share(2, 5, 3, 2, 2)), [2, 1, 0, 0, 2]);
        assert_eq!(station_parts(&share(2, 2, 0, 2, 2)), [0, 0, 2, 0, 0]);
        assert_eq!(station_parts(&share(0, 0, 0, 2, 2)), [0; 5]);
    }

    #[test]
    fn a_bar_is_always_full_and_shows_every_part() {
        for points in [
            [1, 0, 0, 0, 0],
            [1, 1, 1, 1, 4000],
            [4000, 1, 1, 1, 1],
            [7, 3, 0, 0, 90],
            [1, 1, 1, 1, 1],
            [0, 0, 0, 0, 3],
        ] {
            let cells = cells(points);
            assert_eq!(cells.iter().sum::<usize>(), BAR, "{points:?}");
            for (part, cells) in points.iter().zip(cells) {
                assert_eq!(*part > 0, cells > 0, "{points:?}");
            }
        }
        assert_eq!(cells([0; 5]), [0; 5]);
        assert_eq!(cells([11, 0, 0, 0, 11]), [11, 0, 0, 0, 11]);
    }
}
