/// What the driver reaches of this file's private items.
pub mod oracle {
    use super::*;

    pub fn quantize(v: f64) -> f64 {
        super::quantize(v)
    }

    pub fn push_number(v: f64) -> Result<Vec<u8>, String> {
        let mut out = Vec::new();
        super::push_number(&mut out, v)?;
        Ok(out)
    }

    /// A glyph as converting left it.
    pub fn glyph(width: f64, program: Vec<u8>) -> Type2Glyph {
        Type2Glyph { width, program }
    }

    /// A stem: horizontal, first edge, width.
    pub type StemRecord = (bool, f64, f64);

    /// A command: 0 move, 1 line, 2 curve, 3 flex (its height last), each with its points, or 4 and the group's number.
    pub struct Command {
        pub kind: u64,
        pub coordinates: Vec<f64>,
        pub group: u64,
    }

    /// What a Type 1 run left.
    pub struct Run {
        pub bytes_run: usize,
        pub width: f64,
        pub groups: Vec<Vec<StemRecord>>,
        pub commands: Vec<Command>,
        /// Every number of the folded list and of the folded groups, and the folded width, is finite.
        pub folds_finite: bool,
    }

    /// Document 01's state at the start of a run, in its order.
    fn start<'a>(subrs: &'a [Vec<u8>], len_iv: usize) -> Interp<'a> {
        let (stack, ps_stack, hints) = Default::default();
        let [x, y, sbx, sby, width] = [0.0; 5];
        let (groups, cmds) = Default::default();
        Interp {
            stack,
            ps_stack,
            x,
            y,
            sbx,
            sby,
            need_move: true,
            flex: None,
            hints,
            groups,
            cmds,
            hints_changed: false,
            width,
            bytes_run: 0,
            subrs,
            len_iv,
        }
    }

    fn coordinates(points: &[Pt]) -> Vec<f64> {
        points.iter().flat_map(|p| [p.0, p.1]).collect()
    }

    fn command(cmd: &Cmd) -> Command {
        let (kind, coordinates, group) = match cmd {
            Cmd::Move(p) => (0, coordinates(&[*p]), 0),
            Cmd::Line(p) => (1, coordinates(&[*p]), 0),
            Cmd::Curve(p, q, r) => (2, coordinates(&[*p, *q, *r]), 0),
            Cmd::Flex(points, height) => {
                let mut all = coordinates(points);
                all.push(*height);
                (3, all, 0)
            }
            Cmd::Hints(group) => (4, Vec::new(), *group as u64),
        };
        Command {
            kind,
            coordinates,
            group,
        }
    }

    fn folds_finite(interp: &Interp, m: &Matrix) -> bool {
        let identity = [m.a, m.b, m.c, m.d, m.tx, m.ty] == [1.0, 0.0, 0.0, 1.0, 0.0, 0.0];
        let finite = |v: &f64| v.is_finite();
        m.transform_delta(interp.width, 0.0).0.is_finite()
            && (identity
                || interp
                    .cmds
                    .iter()
                    .all(|c| command(&transform_cmd(c, m)).coordinates.iter().all(finite))
                    && interp
                        .groups
                        .iter()
                        .flatten()
                        .all(|s| transform_stem(s, m).is_none_or(|t| t.pos.is_finite() && t.width.is_finite())))
    }

    /// The Type 1 run of the Rust.
    pub fn run(charstring: &[u8], subrs: &[Vec<u8>], len_iv: usize, matrix: &Matrix) -> Result<Run, String> {
        let mut interp = start(subrs, len_iv);
        interp.charge(charstring.len())?;
        interp.run(&decrypt_charstring(charstring, len_iv), 0)?;
        Ok(Run {
            bytes_run: interp.bytes_run,
            width: interp.width,
            groups: interp
                .groups
                .iter()
                .map(|g| g.iter().map(|s| (s.horizontal, s.pos, s.width)).collect())
                .collect(),
            commands: interp.cmds.iter().map(command).collect(),
            folds_finite: folds_finite(&interp, matrix),
        })
    }

    /// The points of the Rust's list, each put through the matrix as converting does it.
    pub fn folded_points(
        charstring: &[u8],
        subrs: &[Vec<u8>],
        len_iv: usize,
        m: &Matrix,
    ) -> Result<Vec<(f64, f64)>, String> {
        let mut interp = start(subrs, len_iv);
        interp.charge(charstring.len())?;
        interp.run(&decrypt_charstring(charstring, len_iv), 0)?;
        let identity = [m.a, m.b, m.c, m.d, m.tx, m.ty] == [1.0, 0.0, 0.0, 1.0, 0.0, 0.0];
        let mut points = Vec::new();
        for cmd in &interp.cmds {
            let folded = if identity {
                command(cmd)
            } else {
                command(&transform_cmd(cmd, m))
            };
            // A flex has its height last, which is no point.
            points.extend(folded.coordinates.chunks_exact(2).map(|p| (p[0], p[1])));
        }
        Ok(points)
    }

    /// The document's limits that the Rust has not, looked for after each step of the Rust's.
    pub fn first_limit(charstring: &[u8], subrs: &[Vec<u8>], len_iv: usize) -> Option<Vec<u64>> {
        watched(charstring, subrs, len_iv, &Matrix::identity(), &NO_STORES).limit
    }

    /// The lent stores: stem records, entries of the command store.
    pub struct Lent {
        pub records: usize,
        pub entries: usize,
    }

    pub const NO_STORES: Lent = Lent {
        records: usize::MAX,
        entries: usize::MAX,
    };

    /// Operands that fit in the strict reading (document 02, (c)).
    pub const STRICT_OPERANDS: usize = 24;

    /// What a run that is watched step by step came to.
    pub struct Watched {
        /// The limits that were passed first, all in one step.
        pub limit: Option<Vec<u64>>,
        /// Which of them the step comes to first.
        pub first: u64,
        pub bytes_run: usize,
        pub records: usize,
        pub entries: usize,
        /// The most operands that were held after a step.
        pub operands: usize,
        /// The run ended and was not refused.
        pub completed: bool,
        /// As in `Run`.
        pub folds_finite: bool,
        /// A div ran.
        pub divided: bool,
    }

    pub fn watched(charstring: &[u8], subrs: &[Vec<u8>], len_iv: usize, m: &Matrix, lent: &Lent) -> Watched {
        let mut interp = start(subrs, len_iv);
        let mut seen = Seen::default();
        let stop = if interp.charge(charstring.len()).is_err() {
            Stop::Refused
        } else {
            watch(
                &mut interp,
                &decrypt_charstring(charstring, len_iv),
                0,
                lent,
                &mut seen,
            )
        };
        let completed = matches!(stop, Stop::Next | Stop::End);
        let (limit, first) = match stop {
            Stop::Limit(numbers, first) => (Some(numbers), first),
            _ => (None, 0),
        };
        Watched {
            folds_finite: completed && folds_finite(&interp, m),
            completed,
            limit,
            first,
            divided: seen.divided,
            operands: seen.operands,
            bytes_run: interp.bytes_run,
            records: records(&interp),
            entries: interp.cmds.len(),
        }
    }

    fn records(interp: &Interp) -> usize {
        interp.groups.iter().map(Vec::len).sum()
    }

    /// What is kept of the steps of a run.
    #[derive(Default)]
    struct Seen {
        divided: bool,
        operands: usize,
    }

    enum Stop {
        Next,
        End,
        Refused,
        Limit(Vec<u64>, u64),
    }

    /// Runs `data` one number or operator at a time.
    fn watch(interp: &mut Interp, data: &[u8], depth: usize, lent: &Lent, seen: &mut Seen) -> Stop {
        if depth > MAX_SUBR_DEPTH {
            return Stop::Refused;
        }
        let mut pos = 0;
        while pos < data.len() {
            let size = match data[pos] {
                12 | 247..=254 => 2,
                255 => 5,
                _ => 1,
            };
            let token = &data[pos..data.len().min(pos + size)];
            pos += size;
            match token[0] {
                10 => {
                    let Some(n) = interp.stack.pop() else {
                        return Stop::Refused;
                    };
                    let subrs = interp.subrs;
                    let body = if n >= 0.0 { subrs.get(n as usize) } else { None };
                    let Some(body) = body else {
                        return Stop::Refused;
                    };
                    if interp.charge(body.len()).is_err() {
                        return Stop::Refused;
                    }
                    let plain = decrypt_charstring(body, interp.len_iv);
                    match watch(interp, &plain, depth + 1, lent, seen) {
                        Stop::Next => {}
                        stop => return stop,
                    }
                }
                11 => return Stop::Next,
                14 => return Stop::End,
                _ => {
                    let before = Before {
                        closed: interp.need_move,
                        groups: interp.groups.len(),
                        entries: interp.cmds.len(),
                    };
                    if interp.run(token, depth).is_err() {
                        return Stop::Refused;
                    }
                    seen.divided |= token == [12, 12];
                    seen.operands = seen.operands.max(interp.stack.len());
                    let over = limits(interp, lent);
                    if !over.is_empty() {
                        let first = first_of(&over, interp, token, &before, lent);
                        return Stop::Limit(over, first);
                    }
                }
            }
        }
        Stop::Next
    }

    /// What a step found.
    struct Before {
        /// No subpath was open.
        closed: bool,
        groups: usize,
        entries: usize,
    }

    /// The limit that a step comes to first, in the Rust's order: a move's point is computed before it is listed; a line
    /// or curve opens a subpath, computes its points and is listed; a flex is listed before its end point is left for
    /// pop; a group is stored before it is listed; stems are added one by one.
    fn first_of(over: &[u64], interp: &Interp, token: &[u8], before: &Before, lent: &Lent) -> u64 {
        let listed = if over.contains(&16) { 16 } else { 17 };
        if over.len() == 1 {
            return over[0];
        }
        match token {
            [1 | 3] | [12, 1 | 2] => {
                let passed = |(at, stem): (usize, &Stem)| {
                    if !stem.pos.is_finite() {
                        Some(14)
                    } else {
                        (at >= 256).then_some(16)
                    }
                };
                interp.hints.iter().enumerate().find_map(passed).unwrap_or(over[0])
            }
            [4 | 21 | 22] if over.contains(&14) => 14,
            [5..=8 | 30 | 31] if over.contains(&14) => {
                let group = usize::from(interp.groups.len() > before.groups);
                let full = over.contains(&16) || before.entries + group + 1 > lent.entries;
                if before.closed && full { listed } else { 14 }
            }
            _ => listed,
        }
    }

    fn limits(interp: &Interp, lent: &Lent) -> Vec<u64> {
        let finite = interp.x.is_finite()
            && interp.y.is_finite()
            && interp.stack.iter().all(|v| v.is_finite())
            && interp.hints.iter().all(|s| s.pos.is_finite());
        let mut over = Vec::new();
        if !finite {
            over.push(14);
        }
        if interp.stack.len() > 256 || interp.ps_stack.len() > 256 {
            over.push(15);
        }
        if interp.hints.len() > 256 || interp.groups.len() > 256 || records(interp) > lent.records {
            over.push(16);
        }
        if interp.cmds.len() > lent.entries {
            over.push(17);
        }
        over
    }
}
