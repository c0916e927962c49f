//! A station's share of the table.

/// A station's share, and what is free and unmet in the whole table.
///
/// ```
/// use khuvelter::{types, Gateway, Point, Station};
///
/// // K 5, A (r 2, c 5) and B (r 2, c 2): A gets 3 points, and B's 2 are kept for B.
/// let mut gateway = Gateway::open(5, &[Station::new(1, 2, 5), Station::new(2, 2, 2)])?;
/// assert_eq!(gateway.share(1)?.can_take_now(), 3);
/// for ioa in 0..3 {
///     gateway.register(&Point::new(1, ioa, types::M_SP_NA_1, [0]))?;
/// }
/// let a = gateway.share(1)?;
/// assert_eq!((a.held, a.free, a.unmet, a.can_take_now()), (3, 2, 2, 0));
/// assert_eq!(gateway.share(2)?.can_take_now(), 2);
/// # Ok::<(), khuvelter::Refusal>(())
/// ```
#[derive(Clone, Copy, Debug, PartialEq, Eq, Hash)]
pub struct Share {
    /// The station's common address.
    pub ca: u16,
    /// The points that it has paid for.
    pub reservation: u32,
    /// The most points that it may hold.
    pub ceiling: u32,
    /// The points that it holds.
    pub held: u32,
    /// What is free in the whole table: K minus all held.
    pub free: u32,
    /// What is unmet in the whole table: reservation minus held, summed over the stations below their reservation.
    pub unmet: u32,
}

impl Share {
    /// What this station has paid for and does not hold yet.
    #[must_use]
    pub fn own_unmet(&self) -> u32 {
        self.reservation.saturating_sub(self.held)
    }

    /// What this station holds above its reservation.
    #[must_use]
    pub fn above_reservation(&self) -> u32 {
        self.held.saturating_sub(self.reservation)
    }

    /// How many more points of this station would be granted now: up to its reservation always, beyond it from what is free and kept
    /// for nobody, and never above its ceiling.
    #[must_use]
    pub fn can_take_now(&self) -> u32 {
        let beyond = self.free.saturating_sub(self.unmet);
        self.ceiling.saturating_sub(self.held).min(self.own_unmet() + beyond)
    }
}
