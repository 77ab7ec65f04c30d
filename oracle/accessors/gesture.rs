
// ---- appended at build time: what the published text keeps private, for the comparison alone ----

/// The tracker's fields, the two settings of the program, and those that the Rust does not have.
#[derive(Clone, Copy, PartialEq, Eq, Debug, Default)]
pub struct Fields {
    pub active: bool,
    pub down: Option<(u16, u16, u64)>,
    pub last: (u16, u16),
    pub moved: bool,
    pub far: i32,
    pub long_sent: bool,
    /// 0 none, 1 H, 2 V.
    pub axis: u8,
    pub grabbed: bool,
    pub direct: bool,
    pub early: bool,
    pub captured: bool,
    /// n, c0, t0, c1, t1.
    pub multi: Option<(u8, (i32, i32), u64, (i32, i32), u64)>,
    /// a, b, axis (0 H, 1 V), span0, c0, state.
    pub pair: Option<((u16, u16), (u16, u16), u8, i32, (i32, i32), u8)>,
    pub raw: bool,
    pub multi_end: Option<u64>,
    pub residual: bool,
    pub keys: u8,
    pub keys_want: u8,
    pub grab_ms: u16,
    pub raw_next: bool,
    pub more: crate::image::More,
}

impl Tracker {
    pub fn fields(&self) -> Fields {
        Fields {
            active: self.active,
            down: self.down.map(|(p, t)| (p.x, p.y, t)),
            last: (self.last.x, self.last.y),
            moved: self.moved,
            far: self.far,
            long_sent: self.long_sent,
            axis: self.axis.map_or(0, |a| if a == Axis::H { 1 } else { 2 }),
            grabbed: self.grabbed,
            direct: self.direct,
            early: self.early,
            captured: self.captured,
            multi: self.multi.map(|m| (m.n, m.c0, m.t0, m.c1, m.t1)),
            pair: self.pair.map(|p| ((p.a.x, p.a.y), (p.b.x, p.b.y), (p.axis == Axis::V) as u8, p.span0, p.c0, p.state)),
            raw: self.raw,
            multi_end: self.multi_end,
            residual: self.residual,
            keys: self.keys,
            keys_want: self.keys_want,
            grab_ms: grab_ms(),
            raw_next: RAW_NEXT.load(Ordering::Relaxed),
            more: Default::default(),
        }
    }

    /// The tracker with these fields; the settings of the program are set beside it.
    pub fn of(f: &Fields) -> Tracker {
        set_grab_ms(f.grab_ms);
        raw_next(f.raw_next);
        let pt = |(x, y)| Point { x, y };
        Tracker {
            active: f.active,
            down: f.down.map(|(x, y, t)| (Point { x, y }, t)),
            last: pt(f.last),
            moved: f.moved,
            far: f.far,
            long_sent: f.long_sent,
            axis: match f.axis {
                0 => None,
                1 => Some(Axis::H),
                _ => Some(Axis::V),
            },
            grabbed: f.grabbed,
            direct: f.direct,
            early: f.early,
            captured: f.captured,
            multi: f.multi.map(|(n, c0, t0, c1, t1)| Multi { n, c0, t0, c1, t1 }),
            pair: f.pair.map(|(a, b, axis, span0, c0, state)| Pair {
                a: pt(a),
                b: pt(b),
                axis: if axis == 0 { Axis::H } else { Axis::V },
                span0,
                c0,
                state,
            }),
            raw: f.raw,
            multi_end: f.multi_end,
            residual: f.residual,
            keys: f.keys,
            keys_want: f.keys_want,
        }
    }
}

pub fn dist_of(a: Point, b: Point) -> i32 {
    dist(a, b)
}

pub fn dist2_of(a: Point, b: Point) -> i32 {
    dist2(a, b)
}

pub fn centroid_of(pts: &[Point]) -> (i32, i32) {
    centroid(pts)
}

pub fn lock_axis_of(dx: i32, dy: i32) -> Option<Axis> {
    lock_axis(dx, dy)
}
